//! What start is given.

use crate::layout::{mail_length, table_length, MAX_CAPACITY, MAX_ITEMS, MAX_SESSIONS};
use crate::ranks::Ranks;

/// What a caller passes to start, right or wrong. What a later request adds is a
/// field here, with its plain value in `plain`.
#[derive(Clone, Copy, PartialEq, Eq, Debug)]
pub struct Config<'a> {
    /// S
    pub sessions: u64,
    /// M
    pub items: u64,
    /// C
    pub capacity: u64,
    /// F-6: "S ranks, one for each session"
    pub ranks: &'a [u8],
}

impl Config<'_> {
    pub const LARGEST: Config<'static> =
        Config::plain(MAX_SESSIONS as u64, MAX_ITEMS as u64, MAX_CAPACITY as u64);

    /// S, M and C, and everything else plain. F-6: "rank k for session k".
    pub const fn plain(sessions: u64, items: u64, capacity: u64) -> Config<'static> {
        Config {
            sessions,
            items,
            capacity,
            ranks: Ranks::plain_list(sessions as usize),
        }
    }

    /// The numbers among it.
    pub fn numbers(&self) -> [u64; 3] {
        [self.sessions, self.items, self.capacity]
    }

    pub fn table_length(&self) -> usize {
        table_length(self.sessions as usize, self.items as usize)
    }

    pub fn mail_length(&self) -> usize {
        mail_length(self.capacity as usize)
    }
}

impl<'a> Config<'a> {
    /// The same with these ranks.
    pub fn with_ranks(self, ranks: &'a [u8]) -> Config<'a> {
        Config { ranks, ..self }
    }
}
