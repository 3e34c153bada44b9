//! Cases beside those of `cases` that leave little to chance: each length, number and
//! limit at which a call could reach beyond a buffer, cut a number off or overlook the
//! last of something.

use crate::comparison::{Buffers, Comparison};
use crate::forge::{self, breaks, circling, reopenable, well_formed, Beside, NAMED};
use crate::numbers::{
    DELIVER_TO_ITEM, DELIVER_TO_SESSION, RELEASE, REQUEST, ROLLED_BACK, SHRINKING,
};
use model::layout::{BODY_SIZE, MAX_TEXT, ROUTE_SIZE, STAGE};
use model::mailbox;
use model::names::by_message;
use model::scenario::Random;
use model::{Config, Ending, Refusal, ACCEPTED};

type Outcome = Result<(), String>;

const LARGEST: Config = Config::LARGEST;

/// From the smallest to the largest.
const SIZES: [Config; 10] = [
    Config::plain(1, 1, 1),
    Config::plain(1, 1, 2),
    Config::plain(2, 2, 2),
    Config::plain(3, 5, 16),
    Config::plain(8, 8, 64),
    Config::plain(16, 15, 256),
    Config::plain(64, 1, 100),
    Config::plain(1, 64, 33),
    Config::plain(63, 64, 500),
    LARGEST,
];

/// Limits of a drain: none but the first two if the upper bits were lost.
const LIMITS: [u64; 5] = [0, 1, 1 << 32, 1 << 63, u64::MAX];

pub fn all(comparison: &mut Comparison) -> Outcome {
    let mut random = Random::new(0);
    for config in &SIZES {
        lengths(comparison, config)?;
        numbers(comparison, config)?;
        limits(comparison, config)?;
        ranks(comparison, &mut random, config)?;
        garbage(comparison, &mut random, config)?;
        if config.sessions > 1 {
            last_place(comparison, &mut random, config)?;
        }
    }
    broken(comparison, &mut random)?;
    full(comparison)?;
    circles(comparison, &mut random)
}

fn fresh(comparison: &mut Comparison, config: &Config) -> Result<Buffers, String> {
    let mut buffers = Buffers::filled(config, 0xA5);
    comparison.start(config, &mut buffers)?;
    Ok(buffers)
}

/// Every call but a start on buffers that are not well-formed.
fn every_call(comparison: &mut Comparison, buffers: &Buffers) -> Outcome {
    for verb in 0..=DELIVER_TO_SESSION + 1 {
        comparison.step(verb, 1, 1, &mut buffers.clone())?;
    }
    comparison.step(REQUEST, 0, 0, &mut buffers.clone())?;
    for limit in LIMITS {
        // Without a limit it might never end if it were accepted.
        if comparison.drain(limit, &mut buffers.clone())?.refusal == ACCEPTED {
            return Err("these buffers are well-formed".to_string());
        }
    }
    for session in 0..=1 {
        comparison.reopen(session, &mut buffers.clone())?;
        comparison.report(session, buffers)?;
        comparison.cycle_text(session, 0, buffers)?;
        comparison.cycle_text(session, MAX_TEXT, buffers)?;
    }
    Ok(())
}

/// Each buffer too short or too long, down to nothing.
fn lengths(comparison: &mut Comparison, config: &Config) -> Outcome {
    let right = fresh(comparison, config)?;
    let (table, mail) = (right.table.len(), right.mail.len());
    let others = |length| (0..6).chain([length - 1, length + 1]);
    let both = others(table).zip(others(mail));
    let one = others(table).map(|other| (other, mail));
    let other = others(mail).map(|other| (table, other));
    for (table, mail) in both.chain(one).chain(other) {
        let mut buffers = right.clone();
        buffers.table.resize(table, 0);
        buffers.mail.resize(mail, 0);
        comparison.start(config, &mut buffers)?;
        every_call(comparison, &buffers)?;
    }
    let ranks = config.ranks.len();
    for length in [0, ranks - 1, ranks + 1, 2 * ranks, ranks + (1 << 8)] {
        let mut list = config.ranks.to_vec();
        list.resize(length, 0);
        comparison.start(&config.with_ranks(&list), &mut right.clone())?;
    }
    Ok(())
}

/// Numbers out of bounds, and such as would be right if they were cut off.
fn odd_numbers(right: u64, most: u64) -> [u64; 7] {
    let more = |bit: u32| right + (1 << bit);
    [0, most + 1, more(8), more(16), more(32), more(63), u64::MAX]
}

/// Each number of each call in turn, on buffers that are well-formed.
fn numbers(comparison: &mut Comparison, config: &Config) -> Outcome {
    let buffers = fresh(comparison, config)?;
    let &Config {
        sessions,
        items,
        capacity,
        ranks: _,
    } = config;
    let mut start = |config: Config| comparison.start(&config, &mut buffers.clone());
    for sessions in odd_numbers(sessions, LARGEST.sessions) {
        start(Config {
            sessions,
            ..*config
        })?;
    }
    for items in odd_numbers(items, LARGEST.items) {
        start(Config { items, ..*config })?;
    }
    for capacity in odd_numbers(capacity, LARGEST.capacity) {
        start(Config {
            capacity,
            ..*config
        })?;
    }
    for verb in odd_numbers(REQUEST, DELIVER_TO_SESSION) {
        comparison.step(verb, 1, 1, &mut buffers.clone())?;
    }
    for verb in REQUEST..=DELIVER_TO_SESSION {
        for session in odd_numbers(1, sessions) {
            comparison.step(verb, session, 1, &mut buffers.clone())?;
        }
        for item in odd_numbers(1, items) {
            comparison.step(verb, 1, item, &mut buffers.clone())?;
        }
        comparison.step(verb, sessions, items, &mut buffers.clone())?;
    }
    for session in odd_numbers(1, sessions) {
        comparison.reopen(session, &mut buffers.clone())?;
        comparison.report(session, &buffers)?;
        comparison.cycle_text(session, MAX_TEXT, &buffers)?;
    }
    Ok(())
}

/// Each limit: on a request and its grant, and where table, mail or both are broken.
fn limits(comparison: &mut Comparison, config: &Config) -> Outcome {
    let mut right = fresh(comparison, config)?;
    comparison.step(REQUEST, 1, 1, &mut right)?;
    for limit in LIMITS.into_iter().chain(2..=3) {
        comparison.drain(limit, &mut right.clone())?;
    }
    let mut bad_mail = right.clone();
    bad_mail.set_message(0, message(&right, 0).0, [0; BODY_SIZE]);
    let mut bad_table = right;
    bad_table.session_mut(config.sessions as usize)[STAGE] = 0;
    let both = Buffers {
        table: bad_table.table.clone(),
        mail: bad_mail.mail.clone(),
    };
    for broken in [bad_mail, bad_table, both] {
        every_call(comparison, &broken)?;
    }
    Ok(())
}

/// Every rank in turn made 0, too high, or that of another session: in the list, and
/// in the table.
fn ranks(comparison: &mut Comparison, random: &mut Random, config: &Config) -> Outcome {
    let config = Config {
        capacity: 1,
        ..*config
    };
    let sessions = config.sessions as usize;
    let right = random.order(config.sessions);
    let buffers = fresh(comparison, &config.with_ranks(&right))?;
    for place in 0..sessions {
        let (rank, next) = (right[place], right[(place + 1) % sessions]);
        for bad in [0, next, sessions as u8 + 1, rank + 64, rank + 128, 255] {
            if bad == rank {
                continue; // the only session is its own next
            }
            let mut list = right.clone();
            list[place] = bad;
            comparison.start(&config.with_ranks(&list), &mut buffers.clone())?;
            let mut broken = buffers.clone();
            broken.set_ranks(&list);
            comparison.step(REQUEST, 1, 1, &mut broken.clone())?;
            comparison.drain(u64::MAX, &mut broken.clone())?;
            comparison.reopen(1, &mut broken.clone())?;
            comparison.report(1, &broken)?;
            comparison.cycle_text(1, MAX_TEXT, &broken)?;
        }
    }
    Ok(())
}

/// Any bytes, behind right and wrong numbers.
fn garbage(comparison: &mut Comparison, random: &mut Random, config: &Config) -> Outcome {
    for round in 0..12 {
        let most = if round % 2 == 0 {
            u8::MAX.into()
        } else {
            config.sessions + 1
        };
        let mut buffers = Buffers::filled(config, 0);
        for byte in buffers.table.iter_mut().chain(&mut buffers.mail) {
            *byte = random.between(0, most) as u8;
        }
        if round % 3 != 0 {
            buffers.set_config(config);
        }
        every_call(comparison, &buffers)?;
        comparison.start(config, &mut buffers)?;
    }
    Ok(())
}

/// Each way to break the form, on buffers otherwise well-formed: the largest, if they
/// can be broken so, and others.
fn broken(comparison: &mut Comparison, random: &mut Random) -> Outcome {
    for way in breaks() {
        let mut times = 0;
        for config in [LARGEST, Config::plain(16, 15, 256)] {
            // Not all that is drawn can be broken so.
            let drawn = (0..20).find_map(|_| {
                let mut buffers = well_formed(random, &config, config.capacity / 2);
                way.apply(random, &config, &mut buffers).then_some(buffers)
            });
            if let Some(buffers) = drawn {
                every_call(comparison, &buffers)?;
                times += 1;
            }
        }
        if times == 0 {
            return Err(format!("nothing drawn has {}", way.name));
        }
    }
    Ok(())
}

/// The last session with each reason alone not to reopen it, in a full mail: if that
/// is a message, the last one.
fn last_place(comparison: &mut Comparison, random: &mut Random, config: &Config) -> Outcome {
    let session = config.sessions as u8;
    for stage in [SHRINKING, ROLLED_BACK] {
        let done = reopenable(random, config, config.capacity, session, stage);
        comparison.reopen(session.into(), &mut done.clone())?;
        for (name, named) in NAMED {
            let mut buffers = done.clone();
            forge::name(random, config, &mut buffers, session, named);
            let last = buffers.count() - 1;
            let place = (0..last).find(|&place| {
                let message = mailbox::message(&buffers.mail, place);
                !by_message(message, session).is_empty()
            });
            if let Some(place) = place {
                let (one, other) = (message(&buffers, place), message(&buffers, last));
                buffers.set_message(place, other.0, other.1);
                buffers.set_message(last, one.0, one.1);
            }
            let found = comparison.reopen(session.into(), &mut buffers)?;
            if found != Refusal::InUse as u8 {
                return Err(format!("{name} is answered with {found}"));
            }
        }
    }
    Ok(())
}

fn message(buffers: &Buffers, place: usize) -> ([u8; ROUTE_SIZE], [u8; BODY_SIZE]) {
    (
        buffers.route(place).try_into().unwrap(),
        buffers.body(place).try_into().unwrap(),
    )
}

/// A release that sends a grant and resends to all others, which do not fit.
fn full(comparison: &mut Comparison) -> Outcome {
    let config = Config::plain(8, 1, 6);
    let mut buffers = fresh(comparison, &config)?;
    for session in (1..=config.sessions).rev() {
        comparison.step(REQUEST, session, 1, &mut buffers)?;
        comparison.drain(u64::MAX, &mut buffers)?;
    }
    comparison.step(RELEASE, config.sessions, 1, &mut buffers)?;
    comparison.step(DELIVER_TO_ITEM, config.sessions, 1, &mut buffers)?;
    for limit in LIMITS {
        let ending = comparison.drain(limit, &mut buffers)?.ending;
        if ending != Ending::Full as u8 {
            return Err(format!("a drain ends with {ending}"));
        }
    }
    Ok(())
}

/// A clean that circles until the limit.
fn circles(comparison: &mut Comparison, random: &mut Random) -> Outcome {
    let config = Config::plain(3, 2, 1);
    for limit in [0, 1, 2, 3, 4, 5, 1000, 100_000, 1 << 20] {
        let mut buffers = circling(random, &config, 1, Beside::Nothing);
        let made = comparison.drain(limit, &mut buffers)?.made;
        if made != limit {
            return Err(format!("{made} deliveries at a limit of {limit}"));
        }
    }
    Ok(())
}
