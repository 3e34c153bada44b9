//! A misreading of F-6 in the text of a cycle.

use crate::step::with_ranks;
use crate::Misreading;
use model::{cycle_text as right_text, Ranks, Text};

pub fn cycle_text(misreading: Misreading, session: u64, table: &[u8], text: &mut [u8]) -> Text {
    match misreading {
        Misreading::TextByNumber => with_ranks(
            |ranks| Ranks::plain_list(ranks.len()).to_vec(),
            &mut table.to_vec(),
            |table| right_text(session, table, text),
        ),
        _ => right_text(session, table, text),
    }
}
