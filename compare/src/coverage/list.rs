//! Lists of calls from a start.

use super::group::Group;
use super::{Coverage, AT_LEAST};
use crate::numbers::{ROLLED_BACK, SHRINKING};
use model::layout::MAX_SESSIONS;
use model::{Ranks, ACCEPTED};

/// One session must be reopened this often in a list from a start, and whatever is
/// counted of such lists must be met this often.
const REUSED_AT_LEAST: u64 = 2_000;

/// Lists of calls from a start, by their ranks.
const STARTED: [[&str; 3]; 2] = [
    ["plain ranks", "reversed ranks", "any other ranks"],
    [
        "64 sessions, plain ranks",
        "64 sessions, reversed ranks",
        "64 sessions, any other ranks",
    ],
];

/// The same for three sessions, in every order.
const STARTED_THREE: [([u8; 3], &str); 6] = [
    ([1, 2, 3], "3 sessions, ranks 1 2 3"),
    ([1, 3, 2], "3 sessions, ranks 1 3 2"),
    ([2, 1, 3], "3 sessions, ranks 2 1 3"),
    ([2, 3, 1], "3 sessions, ranks 2 3 1"),
    ([3, 1, 2], "3 sessions, ranks 3 1 2"),
    ([3, 2, 1], "3 sessions, ranks 3 2 1"),
];

/// What demand 3 was checked on with ranks that are not plain.
const CHECKED_STEPS: &str = "accepted steps";
const CHECKED_VICTIMS: &str = "declarations of another victim than by number";

/// Sessions reopened in lists of calls from a start, with demand 3 checked.
const REUSED: &[&str] = &[
    "reopened, shrinking",
    "reopened, rolled back",
    "reopened again, after a rollback",
    "reopened beside messages of others",
    "not reopened",
    REUSED_STEPS,
    MOST_REUSED,
];

const REUSED_STEPS: &str = "accepted steps after a reopening";
const MOST_REUSED: &str = "most reopenings of one session in a list";

pub struct Lists {
    started: Group,
    checked: Group,
    reused: Group,
}

impl Lists {
    pub fn new() -> Lists {
        let started = [STARTED.as_flattened(), &STARTED_THREE.map(|(_, name)| name)].concat();
        Lists {
            started: Group::new("Lists of calls from a start", 1, &started),
            checked: Group::new(
                "Demand 3 checked, ranks not plain",
                AT_LEAST,
                &[CHECKED_STEPS, CHECKED_VICTIMS],
            ),
            reused: Group::new(
                "Lists from a start with reopenings",
                REUSED_AT_LEAST,
                REUSED,
            ),
        }
    }

    pub fn groups(&self) -> [&Group; 3] {
        [&self.started, &self.checked, &self.reused]
    }
}

impl Coverage {
    /// A list of calls begins with an accepted start.
    pub fn started(&mut self, ranks: &Ranks) {
        let list = ranks.bytes();
        let reversed = list.iter().rev().eq(Ranks::plain_list(list.len()));
        let order = match (Ranks::is_plain(list), reversed) {
            (true, _) => 0,
            (false, true) => 1,
            (false, false) => 2,
        };
        let started = &mut self.lists.started;
        started.hit(STARTED[0][order]);
        if list.len() == MAX_SESSIONS {
            started.hit(STARTED[1][order]);
        }
        if let Some((_, name)) = STARTED_THREE.iter().find(|(three, _)| three == list) {
            started.hit(name);
        }
    }

    /// Demand 3 was checked after so many accepted steps, with so many declarations
    /// of another victim than by number.
    pub fn checked(&mut self, ranks: &Ranks, steps: u64, victims: u64) {
        if !Ranks::is_plain(ranks.bytes()) {
            self.lists.checked.add(CHECKED_STEPS, steps);
            self.lists.checked.add(CHECKED_VICTIMS, victims);
        }
    }

    /// A session of a list from a start was reopened, or not, with demand 3 checked
    /// after it. `times` are those before.
    pub fn reused(&mut self, refusal: u8, stage: u8, times: u64, messages: usize) {
        let reused = &mut self.lists.reused;
        if refusal != ACCEPTED {
            reused.hit("not reopened");
            return;
        }
        reused.hit(match stage {
            SHRINKING => "reopened, shrinking",
            _ => "reopened, rolled back",
        });
        if stage == ROLLED_BACK && times > 0 {
            reused.hit("reopened again, after a rollback");
        }
        if messages > 0 {
            reused.hit("reopened beside messages of others");
        }
        reused.most(MOST_REUSED, times + 1);
    }

    /// Demand 3 was checked after so many accepted steps of a list in which a
    /// session was reopened before.
    pub fn reused_steps(&mut self, steps: u64) {
        self.lists.reused.add(REUSED_STEPS, steps);
    }
}
