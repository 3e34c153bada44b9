//! Reopenings.

use super::group::{Group, Place, Places};
use super::{is_largest, Coverage, AT_LEAST, REOPEN};
use crate::comparison::Buffers;
use crate::forge::NAMED;
use model::layout::{ROUTE_ITEM, TABLE_ITEMS, TABLE_SESSIONS};
use model::mailbox::{kind, message, Direction, Mailbox};
use model::names::{by_message, names, Named, Part};
use model::session::{Session, Stage};
use model::table::Table;
use model::{Refusal, ACCEPTED};

/// A session that was reopened, as it was before.
pub struct Reopened {
    number: u8,
    record: Session,
    rank: u8,
    items: u8,
    /// A message names the item of the same number.
    item_named: bool,
    mail: Filled,
}

/// How full the mail is.
#[derive(Clone, Copy)]
pub struct Filled {
    count: usize,
    full: bool,
    /// S, M and C are as large as can be.
    largest: bool,
}

impl Filled {
    fn of(buffers: &Buffers) -> Filled {
        Filled {
            count: buffers.count(),
            full: buffers.count() == buffers.capacity(),
            largest: is_largest(buffers),
        }
    }
}

impl Reopened {
    fn stores(&self) -> bool {
        self.record.probes().next().is_some()
    }
}

const REOPENED: &[Place<Reopened>] = &[
    ("shrinking", |r| r.record.stage == Stage::Shrinking),
    ("shrinking, stored probes", |r| {
        r.record.stage == Stage::Shrinking && r.stores()
    }),
    ("rolled back", |r| r.record.stage == Stage::RolledBack),
    ("rolled back, stored probes", |r| {
        r.record.stage == Stage::RolledBack && r.stores()
    }),
    ("rolled back, items in its mask", |r| r.record.held != 0),
    ("number above M", |r| r.number > r.items),
    ("rank other than its number", |r| r.rank != r.number),
    ("item of its number in a message", |r| r.item_named),
    ("empty mail", |r| r.mail.count == 0),
    ("full mail", |r| r.mail.full),
];

const REOPENED_LARGEST: &[Place<Reopened>] =
    &[("reopened: 64 sessions, 64 items, 4096 messages", |r| {
        r.mail.full && r.mail.largest
    })];

/// A session that was not reopened because one of several messages names it, and
/// nothing else does.
pub struct NamedByMessage {
    first: bool,
    last: bool,
    mail: Filled,
}

const BY_MESSAGE: &[Place<NamedByMessage>] = &[
    ("by the first of several messages alone", |n| n.first),
    ("by the last of several messages alone", |n| n.last),
    ("by the last message of a full mail alone", |n| {
        n.last && n.mail.full
    }),
];

const BY_MESSAGE_LARGEST: &[Place<NamedByMessage>] = &[
    (
        "by the first of 4096 messages alone, 64 sessions, 64 items",
        |n| n.first && n.mail.full && n.mail.largest,
    ),
    (
        "by the last of 4096 messages alone, 64 sessions, 64 items",
        |n| n.last && n.mail.full && n.mail.largest,
    ),
];

/// A number that is no session.
pub struct NoSession {
    number: u64,
    sessions: u64,
}

const NO_SESSION: &[Place<NoSession>] = &[
    ("number 0", |n| n.number == 0),
    ("number S + 1", |n| n.number == n.sessions + 1),
    ("number of 256 to 2^32 - 1", |n| {
        (1 << 8..1 << 32).contains(&n.number)
    }),
    ("number of 2^32 and more", |n| n.number >= 1 << 32),
];

/// Where nothing names a session, its stage alone can be the reason.
const WRONG_STAGES: &[Place<Session>] = &[
    ("growing", |s| s.stage == Stage::Growing),
    ("waiting", |s| s.stage == Stage::Waiting),
    ("cleaning", |s| s.stage == Stage::Cleaning),
    ("withdrawing", |s| s.stage == Stage::Withdrawing),
    ("shrinking, holding items", |s| s.stage == Stage::Shrinking),
];

/// The stages of a session that is named at one place alone, which is then the one
/// reason not to reopen it.
const DONE: [(Stage, &str); 2] = [
    (Stage::Shrinking, "shrinking"),
    (Stage::RolledBack, "rolled back"),
];

/// The a of an abort is the session of its route: the two are one place.
const ABORTED: Named = Named::Message {
    part: Part::A,
    direction: Direction::ToSession,
    kind: kind::ABORT,
};

pub struct Reopenings {
    reopened: Places<Reopened>,
    reopened_largest: Places<Reopened>,
    named: Group,
    by_message: Places<NamedByMessage>,
    by_message_largest: Places<NamedByMessage>,
    wrong_stages: Places<Session>,
    no_session: Places<NoSession>,
}

impl Reopenings {
    pub fn new() -> Reopenings {
        Reopenings {
            reopened: Places::new("Reopened", AT_LEAST, REOPENED),
            reopened_largest: Places::new("Reopened, largest", 1, REOPENED_LARGEST),
            named: Group::with_columns(
                "Not reopened for one name alone, by stage",
                AT_LEAST,
                &NAMED.map(|(name, _)| name),
                &DONE.map(|(_, name)| name),
            ),
            by_message: Places::new("Not reopened, named", AT_LEAST, BY_MESSAGE),
            by_message_largest: Places::new("Not reopened, named, largest", 1, BY_MESSAGE_LARGEST),
            wrong_stages: Places::new("Not reopened for the stage alone", AT_LEAST, WRONG_STAGES),
            no_session: Places::new("Not reopened, no session", AT_LEAST, NO_SESSION),
        }
    }

    pub fn groups(&self) -> [&Group; 7] {
        [
            &self.reopened.group,
            &self.reopened_largest.group,
            &self.named,
            &self.by_message.group,
            &self.by_message_largest.group,
            &self.wrong_stages.group,
            &self.no_session.group,
        ]
    }

    fn reopened(&mut self, number: u8, before: &Buffers) {
        let reopened = Reopened {
            number,
            record: before.session_record(number),
            rank: before.ranks()[usize::from(number) - 1],
            items: before.table[TABLE_ITEMS],
            item_named: (0..before.count()).any(|k| before.route(k)[ROUTE_ITEM] == number),
            mail: Filled::of(before),
        };
        self.reopened.meet(&reopened);
        self.reopened_largest.meet(&reopened);
    }

    /// If there is one reason alone it counts.
    fn in_use(&mut self, own: u8, before: &Buffers) {
        let record = before.session_record(own);
        let named = match (record.may_reopen(), &names_of(before, own)[..]) {
            (false, []) => return self.wrong_stages.meet(&record),
            (true, &[named]) => named,
            _ => return,
        };
        let mut all = NAMED.iter();
        let (row, _) = all.find(|&&(_, other)| other == named).expect("a place");
        let column = DONE.iter().position(|&(stage, _)| stage == record.stage);
        self.named.hit_at(row, column.expect("a stage"));
        let mail = Filled::of(before);
        if !matches!(named, Named::Message { .. }) || mail.count < 2 {
            return;
        }
        let named_at = |place| !by_message(message(&before.mail, place), own).is_empty();
        let by_message = NamedByMessage {
            first: named_at(0),
            last: named_at(mail.count - 1),
            mail,
        };
        self.by_message.meet(&by_message);
        self.by_message_largest.meet(&by_message);
    }
}

impl Coverage {
    pub(crate) fn reopen(&mut self, number: u64, before: &Buffers, refusal: u8) {
        const BAD_NUMBER: u8 = Refusal::BadNumber as u8;
        const IN_USE: u8 = Refusal::InUse as u8;
        self.count(REOPEN, refusal, &[number], before);
        match refusal {
            ACCEPTED => self.reopenings.reopened(number as u8, before),
            IN_USE => self.reopenings.in_use(number as u8, before),
            BAD_NUMBER => self.reopenings.no_session.meet(&NoSession {
                number,
                sessions: before.table[TABLE_SESSIONS].into(),
            }),
            _ => {}
        }
    }
}

/// Where well-formed buffers name a session.
fn names_of(buffers: &Buffers, session: u8) -> Vec<Named> {
    let records = Table::decode(&buffers.table).expect("a table that was judged");
    let mailbox = Mailbox::decode(&buffers.mail, records.sessions.len(), records.items.len());
    let mut names = names(&records, &mailbox.expect("mail that was judged"), session);
    names.retain(|&named| named != ABORTED);
    names
}
