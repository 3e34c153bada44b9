//! Drains.

use super::group::{Group, Place, Places};
use super::{is_largest, Coverage, AT_LEAST, DRAIN};
use crate::comparison::Buffers;
use model::{Drained, Ending};

/// In the order of their numbers.
const ENDINGS: &[&str] = &["1 Empty", "2 Full", "3 Limit"];

/// A drain that is accepted.
pub struct Drain {
    limit: u64,
    made: u64,
    ending: Ending,
    capacity: u64,
    /// Messages before it.
    count: u64,
    /// S, M and C are as large as can be.
    largest: bool,
}

impl Drain {
    fn ends(&self, capacity: u64, ending: Ending) -> bool {
        self.capacity == capacity && self.ending == ending
    }

    /// It ends so where it has also made as many as it may.
    fn at_limit(&self, ending: Ending) -> bool {
        self.made == self.limit && self.ending == ending
    }

    /// More deliveries than C use every place of the mail again.
    fn more_than_capacity(&self) -> bool {
        self.made > self.capacity
    }
}

const DRAINS: &[Place<Drain>] = &[
    ("limit 0", |d| d.limit == 0),
    ("limit 1", |d| d.limit == 1),
    ("limit 2", |d| d.limit == 2),
    ("limit 3 to 2^32 - 1", |d| (3..1 << 32).contains(&d.limit)),
    ("limit 2^32 to 2^64 - 2", |d| {
        (1 << 32..u64::MAX).contains(&d.limit)
    }),
    ("limit 2^64 - 1", |d| d.limit == u64::MAX),
    ("empty mail at limit 0", |d| {
        d.limit == 0 && d.at_limit(Ending::Empty)
    }),
    ("empty mail at another limit", |d| {
        d.limit > 0 && d.at_limit(Ending::Empty)
    }),
    ("next refused with 9 at limit 0", |d| {
        d.limit == 0 && d.at_limit(Ending::Full)
    }),
    ("next refused with 9 at another limit", |d| {
        d.limit > 0 && d.at_limit(Ending::Full)
    }),
    ("capacity 1, empty mail after deliveries", |d| {
        d.made > 0 && d.ends(1, Ending::Empty)
    }),
    ("capacity 1, next refused with 9", |d| {
        d.ends(1, Ending::Full)
    }),
    ("capacity 1, limit", |d| d.ends(1, Ending::Limit)),
    ("capacity 2, empty mail after deliveries", |d| {
        d.made > 0 && d.ends(2, Ending::Empty)
    }),
    ("capacity 2, next refused with 9", |d| {
        d.ends(2, Ending::Full)
    }),
    ("capacity 2, limit", |d| d.ends(2, Ending::Limit)),
    ("capacity 3 to 64, more deliveries than C", |d| {
        d.more_than_capacity() && (3..=64).contains(&d.capacity)
    }),
    ("capacity 65 to 200, more deliveries than C", |d| {
        d.more_than_capacity() && (65..=200).contains(&d.capacity)
    }),
    ("full mail, more deliveries than C", |d| {
        d.more_than_capacity() && d.count == d.capacity
    }),
    ("256 deliveries or more", |d| d.made >= 1 << 8),
    ("65536 deliveries or more", |d| d.made >= 1 << 16),
    ("64 sessions, 64 items, capacity 4096, empty mail", |d| {
        d.largest && d.ending == Ending::Empty
    }),
    (
        "64 sessions, 64 items, capacity 4096, next refused with 9",
        |d| d.largest && d.ending == Ending::Full,
    ),
    ("64 sessions, 64 items, capacity 4096, limit", |d| {
        d.largest && d.ending == Ending::Limit
    }),
    (
        "64 sessions, 64 items, capacity 4096, 3900 messages or more",
        |d| d.largest && d.count >= 3900,
    ),
    ("64 sessions, 64 items, capacity 4096, mail full", |d| {
        d.largest && d.count == d.capacity
    }),
];

/// What a list from a start adds.
const SETTLED: &str = "empty mail on a list from start, demand 3 checked";

pub struct Drains {
    endings: Group,
    drains: Places<Drain>,
    settled: Group,
}

impl Drains {
    pub fn new() -> Drains {
        Drains {
            endings: Group::new("Drains by ending", AT_LEAST, ENDINGS),
            drains: Places::new("Drains", 1, DRAINS),
            settled: Group::new("Drains in lists", 1, &[SETTLED]),
        }
    }

    pub fn groups(&self) -> [&Group; 3] {
        [&self.endings, &self.drains.group, &self.settled]
    }
}

impl Coverage {
    pub(crate) fn drain(&mut self, limit: u64, before: &Buffers, drained: Drained) {
        self.count(DRAIN, drained.refusal, &[], before);
        let Some(&ending) = Ending::ALL.iter().find(|&&e| e as u8 == drained.ending) else {
            return;
        };
        self.drains.endings.hit(ENDINGS[ending as usize - 1]);
        self.drains.drains.meet(&Drain {
            limit,
            made: drained.made,
            ending,
            capacity: before.capacity() as u64,
            count: before.count() as u64,
            largest: is_largest(before),
        });
    }

    /// Demand 3 was checked after a drain that emptied the mail.
    pub fn settled(&mut self) {
        self.drains.settled.hit(SETTLED);
    }
}
