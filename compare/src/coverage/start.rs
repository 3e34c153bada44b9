//! Starts.

use super::group::Group;
use super::{Coverage, AT_LEAST, START};
use crate::comparison::Buffers;
use crate::forge::RANK_BREAKS;
use model::{Config, ACCEPTED};

const STARTS: &[&str] = &["accepted start on used bytes"];

/// Lists at a start that are refused with 2.
const BAD_SIZES: &[&str] = &[
    "empty list",
    "list too short",
    "list too long",
    "list too long by 256 or 65536",
    "bad ranks in a list of a wrong length",
    "bad ranks beside another wrong size",
];

pub struct Starts {
    starts: Group,
    bad_ranks: Group,
}

impl Starts {
    pub fn new() -> Starts {
        let rank_breaks = RANK_BREAKS.iter().map(|way| way.name);
        let bad_ranks: Vec<_> = rank_breaks.chain(BAD_SIZES.iter().copied()).collect();
        Starts {
            starts: Group::new("Starts", 1, STARTS),
            bad_ranks: Group::new(
                "Bad ranks at a start, the first four in a table too, for each call",
                AT_LEAST,
                &bad_ranks,
            ),
        }
    }

    pub fn groups(&self) -> [&Group; 2] {
        [&self.starts, &self.bad_ranks]
    }
}

impl Coverage {
    pub(crate) fn start(&mut self, config: &Config, before: &Buffers, refusal: u8) {
        self.count(START, refusal, &config.numbers(), before);
        if refusal == ACCEPTED && before.table.iter().chain(&before.mail).any(|&b| b != 0) {
            self.starts.starts.hit("accepted start on used bytes");
        }
    }

    /// Bad ranks were refused by a start and, unless it was for a size, by each call
    /// that gets a table.
    pub fn bad_ranks(&mut self, name: &'static str) {
        self.starts.bad_ranks.hit(name);
    }
}
