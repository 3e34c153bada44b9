//! Misreadings of F-6 at a start.

use crate::Misreading;
use model::layout::{distinct, ranks_at};
use model::{start as right_start, Config, Ranks, Refusal, ACCEPTED};

pub fn start(misreading: Misreading, config: &Config, table: &mut [u8], mail: &mut [u8]) -> u8 {
    const BAD_SIZE: u8 = Refusal::BadSize as u8;
    const BAD_RANKS: u8 = Refusal::BadRanks as u8;
    let ranks = config.ranks;
    let right = right_start(config, table, mail);
    match (misreading, right) {
        (Misreading::RanksFirst, BAD_SIZE) if Ranks::decode(ranks).is_none() => BAD_RANKS,
        (Misreading::WrongLengthIs14, BAD_SIZE) if fits(config, table, mail) => BAD_RANKS,
        (_, BAD_RANKS) if accepts(misreading, ranks) => {
            let (sessions, items) = (config.sessions as usize, config.items as usize);
            right_start(&plain(config), table, mail);
            table[ranks_at(sessions, items)].copy_from_slice(ranks);
            ACCEPTED
        }
        _ => right,
    }
}

/// The same with plain ranks.
fn plain<'a>(config: &Config<'a>) -> Config<'a> {
    config.with_ranks(Ranks::plain_list(config.sessions as usize))
}

/// Whether nothing but the ranks is wrong.
fn fits(config: &Config, table: &[u8], mail: &[u8]) -> bool {
    right_start(&plain(config), &mut table.to_vec(), &mut mail.to_vec()) == ACCEPTED
}

/// Whether a bad list of the right length is taken for a good one.
fn accepts(misreading: Misreading, ranks: &[u8]) -> bool {
    let within = |first, last| {
        ranks
            .iter()
            .all(|&r| (first..=last).contains(&usize::from(r)))
    };
    let sessions = ranks.len();
    match misreading {
        Misreading::AcceptsRankTwice => within(1, sessions),
        Misreading::AcceptsRank0 => within(0, sessions) && distinct(ranks),
        Misreading::AcceptsRankAbove => within(1, sessions + 1) && distinct(ranks),
        _ => false,
    }
}
