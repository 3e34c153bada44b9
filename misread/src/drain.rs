//! Misreadings of F-2.

use crate::Misreading;
use model::calls::{deliver, drain_by};
use model::mailbox::count;
use model::{drain as right_drain, Drained, Ending, ACCEPTED, RULES};
use std::ops::Range;

pub fn drain(misreading: Misreading, limit: u64, table: &mut [u8], mail: &mut [u8]) -> Drained {
    const EMPTY: u8 = Ending::Empty as u8;
    const FULL: u8 = Ending::Full as u8;
    let tried: fn(usize) -> Range<usize> = match misreading {
        Misreading::SecondOldest => |count| if count > 1 { 1..2 } else { 0..1 },
        Misreading::PassesOverFull => |count| 0..count,
        _ => {
            let mut drained = drain_by(&misreading, limit, table, mail);
            let at_limit = drained.made == limit;
            match (misreading, drained.ending) {
                (Misreading::LimitBeforeEmpty, EMPTY) if at_limit => {
                    drained.ending = Ending::Limit as u8;
                }
                (Misreading::LimitBeforeFull, FULL) if at_limit => {
                    drained.ending = Ending::Limit as u8;
                }
                (Misreading::CountsRefused, FULL) => drained.made += 1,
                _ => {}
            }
            return drained;
        }
    };
    out_of_order(tried, limit, table, mail)
}

/// A drain that delivers the first that fits of these places of mail with so many
/// messages.
fn out_of_order(
    tried: fn(usize) -> Range<usize>,
    limit: u64,
    table: &mut [u8],
    mail: &mut [u8],
) -> Drained {
    let judged = right_drain(0, &mut table.to_vec(), &mut mail.to_vec());
    if judged.refusal != ACCEPTED {
        return judged;
    }
    let mut made = 0;
    let ending = loop {
        if count(mail) == 0 {
            break Ending::Empty;
        }
        let delivered = tried(count(mail)).find_map(|place| {
            let (mut table, mut mail) = (table.to_vec(), mail.to_vec());
            let answer = deliver(&RULES, place, &mut table, &mut mail)?;
            (answer.refusal == ACCEPTED).then_some((table, mail))
        });
        match delivered {
            None => break Ending::Full,
            Some(_) if made == limit => break Ending::Limit,
            Some((next_table, next_mail)) => {
                table.copy_from_slice(&next_table);
                mail.copy_from_slice(&next_mail);
                made += 1;
            }
        }
    };
    Drained {
        refusal: ACCEPTED,
        made,
        ending: ending as u8,
    }
}
