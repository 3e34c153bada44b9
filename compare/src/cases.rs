//! The cases that are compared. A round is a few thousand calls of every kind,
//! settled by its seed; the walks over all bytes are the same each time.

use crate::comparison::{held, Buffers, Comparison};
use crate::forge::{
    self, breaks, circling, clear_route, full_mail, reopenable, well_formed, Beside, Break,
    Filling, Routes, NAMED, RANK_BREAKS,
};
use crate::numbers::{
    kind, CLEANING, DELIVER_TO_ITEM, DELIVER_TO_SESSION, GROWING, RELEASE, REQUEST, ROLLED_BACK,
    SHRINKING, TO_ITEM, WAITING, WITHDRAWING,
};
use model::demand3::Demand3;
use model::layout::{
    AWAITED, HELD, ITEM_SIZE, JUNIORS, KIND, MAX_SESSIONS, MAX_TEXT, SESSION_SIZE, STAGE,
    TABLE_ITEMS, TABLE_SESSIONS,
};
use model::scenario::Random;
use model::{Answer, Config, Drained, Ending, Ranks, Refusal, ACCEPTED, RULES};

type Outcome = Result<(), String>;
type Case = fn(&mut Comparison, &mut Random) -> Outcome;

const LARGEST: Config = Config::LARGEST;

/// The verbs are 1 to this.
const LAST_VERB: u64 = DELIVER_TO_SESSION;

/// The kinds of cases, how many of each a round has, and one round in how many
/// has them.
const ROUND: &[(&str, u64, u64, Case)] = &[
    ("run from start", 2, 1, small_run),
    ("run from start, three sessions", 1, 1, three_sessions),
    ("run from start, more sessions", 1, 5, medium_run),
    ("run from start, largest", 1, 100, largest_run),
    ("run from start, sessions reused", 1, 100, reusing_run),
    ("cycle of all sessions", 1, 50, long_cycle),
    ("forged", 150, 1, forged),
    ("forged, largest", 1, 2, forged_largest),
    ("hardly any room", 60, 1, hardly_any_room),
    ("search of a full mail", 4, 1, searches),
    ("search of a full mail, largest", 1, 15, searches_largest),
    ("drain", 1, 1, drain_every_fill),
    ("drain, more room", 1, 20, drain_every_fill_wide),
    ("drain, largest", 1, 15, drain_largest),
    ("clean that circles", 6, 1, circles),
    ("clean that circles, more room", 2, 1, circles_wide),
    ("clean that circles, largest", 1, 15, circles_largest),
    ("clean that circles, long", 1, 100, circles_long),
    ("text of a cycle", 10, 1, texts),
    ("text of a cycle, more sessions", 2, 1, texts_wide),
    ("text of a cycle, largest", 1, 10, texts_largest),
    ("reopening", 2, 1, reopenings),
    ("reopening, largest", 1, 30, reopenings_largest),
    ("many messages at once", 1, 5, many_sends),
    ("broken form", 2, 1, broken),
    ("broken form, largest", 1, 20, broken_largest),
    ("bad ranks", 2, 1, bad_ranks),
    ("bad ranks, largest", 1, 20, bad_ranks_largest),
    ("damaged", 250, 1, damaged),
    ("other bounds of equal length", 4, 1, other_bounds),
    ("numbers out of bounds", 60, 1, numbers),
    ("start", 60, 1, starts),
];

/// The rounds of seeds 1 to this are compared each time.
const ROUNDS: u64 = 600;

/// These rounds and the walks. It fails with the first difference.
pub fn all(comparison: &mut Comparison) -> Outcome {
    for seed in 1..=ROUNDS {
        let repeat = format!("(make fuzz SEED={seed} FUZZ_SECONDS=0 repeats it)");
        round(comparison, seed).map_err(|reason| format!("round {seed}: {reason}\n{repeat}"))?;
    }
    every_value(comparison).map_err(|reason| format!("every value: {reason}"))?;
    every_place(comparison).map_err(|reason| format!("every place: {reason}"))
}

/// One round. It fails with the first difference.
pub fn round(comparison: &mut Comparison, seed: u64) -> Outcome {
    let mut random = Random::new(seed);
    for &(name, times, one_round_in, case) in ROUND {
        let times = if seed.is_multiple_of(one_round_in) {
            times
        } else {
            0
        };
        for _ in 0..times {
            case(comparison, &mut random).map_err(|reason| format!("{name}: {reason}"))?;
        }
    }
    Ok(())
}

/// Buffers of a fresh lock manager, with any ranks.
fn fresh(
    comparison: &mut Comparison,
    random: &mut Random,
    config: &Config,
) -> Result<Buffers, String> {
    let mut buffers = Buffers::filled(config, 0xA5);
    let ranks = forge::ranks(random, config.sessions);
    match comparison.start(&config.with_ranks(&ranks), &mut buffers)? {
        ACCEPTED => Ok(buffers),
        refusal => Err(format!("start is refused with {refusal}")),
    }
}

/// A lock manager from its start, with the check of demand 3 on all its calls.
struct Started {
    ranks: Ranks,
    buffers: Buffers,
    demand3: Demand3,
    /// How often each session was reopened.
    reopened: Vec<u64>,
}

impl Started {
    fn new(
        comparison: &mut Comparison,
        random: &mut Random,
        config: &Config,
    ) -> Result<Started, String> {
        let buffers = fresh(comparison, random, config)?;
        let ranks = Ranks::decode(buffers.ranks()).ok_or("start leaves bad ranks")?;
        comparison.coverage.started(&ranks);
        Ok(Started {
            ranks,
            buffers,
            demand3: Demand3::default(),
            reopened: vec![0; config.sessions as usize],
        })
    }

    fn step(
        &mut self,
        comparison: &mut Comparison,
        (verb, session, item): (u64, u64, u64),
    ) -> Result<Answer, String> {
        let before = self.buffers.clone();
        let after = &mut self.buffers;
        let answer = comparison.step(verb, session, item, after)?;
        let counted = self.demand3;
        self.demand3.after_step(
            answer,
            (&before.table, &before.mail),
            (&after.table, &after.mail),
        )?;
        let accepted = u64::from(answer.refusal == ACCEPTED);
        self.checked(comparison, accepted, counted);
        Ok(answer)
    }

    fn drain(&mut self, comparison: &mut Comparison, limit: u64) -> Result<Drained, String> {
        let before = self.buffers.clone();
        let after = &mut self.buffers;
        let drained = comparison.drain(limit, after)?;
        let counted = self.demand3;
        self.demand3.after_drain(
            &RULES,
            limit,
            drained,
            (&before.table, &before.mail),
            (&after.table, &after.mail),
        )?;
        self.checked(comparison, drained.made, counted);
        if drained.ending == Ending::Empty as u8 {
            comparison.coverage.settled();
        }
        Ok(drained)
    }

    fn reopen(&mut self, comparison: &mut Comparison, session: u64) -> Outcome {
        let before = self.buffers.clone();
        let after = &mut self.buffers;
        let refusal = comparison.reopen(session, after)?;
        self.demand3.after_reopen(
            refusal,
            (&before.table, &before.mail),
            (&after.table, &after.mail),
        )?;
        if let Some(times) = self.reopened.get_mut((session as usize).wrapping_sub(1)) {
            let (stage, messages) = (before.session(session as usize)[STAGE], before.count());
            comparison.coverage.reused(refusal, stage, *times, messages);
            *times += u64::from(refusal == ACCEPTED);
        }
        Ok(())
    }

    /// Demand 3 was checked after so many accepted steps, and had counted this
    /// before them.
    fn checked(&self, comparison: &mut Comparison, steps: u64, before: Demand3) {
        let victims = self.demand3.declared_by_rank - before.declared_by_rank;
        comparison.coverage.checked(&self.ranks, steps, victims);
        if before.reopened > 0 {
            comparison.coverage.reused_steps(steps);
        }
    }
}

/// A limit for a drain of any buffers, where deliveries may go on for ever.
fn limit(random: &mut Random) -> u64 {
    match random.between(1, 9) {
        1 => 0,
        2 => 1,
        3 => 2,
        4..=7 => random.between(3, 40),
        _ => random.between(41, 400),
    }
}

/// A limit for a drain of a lock manager from its start.
fn any_limit(random: &mut Random) -> u64 {
    match random.between(1, 6) {
        1 => u64::MAX,
        2 => u64::MAX - random.between(1, 2),
        // None but a few if the upper bits were lost.
        3 => (1 << random.between(8, 63)) + random.between(0, 2),
        _ => limit(random),
    }
}

/// A report and a text on the same session; their refusals.
fn read(
    comparison: &mut Comparison,
    random: &mut Random,
    session: u64,
    buffers: &Buffers,
) -> Result<[u8; 2], String> {
    let cycle = comparison.report(session, buffers)?;
    let room = match random.between(1, 4) {
        1 => 0,
        2 => random.between(1, 100) as usize,
        3 => random.between(101, 500) as usize,
        _ => MAX_TEXT - random.between(0, 1) as usize,
    };
    let text = comparison.cycle_text(session, room, buffers)?;
    Ok([cycle.refusal, text.refusal])
}

/// The text for a session into a far longer buffer and into none and, if there is
/// one, into buffers of its length, one byte more, one less, and any number less.
fn every_room(
    comparison: &mut Comparison,
    random: &mut Random,
    session: u64,
    buffers: &Buffers,
) -> Outcome {
    let room = match random.between(1, 8) {
        // None but a few if the upper bits were lost.
        1 => (1 << 16) + random.between(0, 40) as usize,
        _ => MAX_TEXT + random.between(1000, 2000) as usize,
    };
    let length = comparison.cycle_text(session, room, buffers)?.length;
    comparison.cycle_text(session, 0, buffers)?;
    if length > 0 {
        let length = usize::from(length);
        let less = random.between(1, length as u64 - 1) as usize;
        for room in [less, length - 1, length, length + 1] {
            comparison.cycle_text(session, room, buffers)?;
        }
    }
    Ok(())
}

/// Any well-formed buffers, mostly small.
fn forged_buffers(random: &mut Random) -> (Config<'static>, Buffers) {
    let config = forge::config(random);
    let count = Filling::draw(random).of(random, config.capacity);
    (config, well_formed(random, &config, count))
}

/// A verb, a session and an item within their bounds.
fn any_call(random: &mut Random, config: &Config) -> (u64, u64, u64) {
    let verb = random.between(REQUEST, LAST_VERB);
    (verb, config.any_session(random), config.any_item(random))
}

/// A message of well-formed mail, as far as its delivery asks.
#[derive(Clone, Copy)]
struct Waiting {
    verb: u64,
    session: u64,
    item: u64,
    kind: u8,
}

fn message(buffers: &Buffers, place: u64) -> Waiting {
    let (verb, session, item) = buffers.delivery(place as usize);
    Waiting {
        verb,
        session,
        item,
        kind: buffers.body(place as usize)[KIND],
    }
}

/// Which message a run delivers next, as long as one fits.
#[derive(Clone, Copy)]
enum Schedule {
    Any,
    Oldest,
    Newest,
    ProbesFirst,
    ProbesLast,
    SlowSession(u64),
    SlowItem(u64),
}

impl Schedule {
    fn draw(random: &mut Random, config: &Config) -> Schedule {
        match random.between(1, 8) {
            1 => Schedule::Oldest,
            2 => Schedule::Newest,
            3 => Schedule::ProbesFirst,
            4 => Schedule::ProbesLast,
            5 => Schedule::SlowSession(config.any_session(random)),
            6 => Schedule::SlowItem(config.any_item(random)),
            _ => Schedule::Any,
        }
    }

    fn choose(self, random: &mut Random, buffers: &Buffers) -> Option<Waiting> {
        let last = (buffers.count() as u64).checked_sub(1)?;
        let first = match self {
            Schedule::Oldest => return Some(message(buffers, 0)),
            Schedule::Newest => return Some(message(buffers, last)),
            _ => random.between(0, last),
        };
        let fits = |m: &Waiting| match self {
            Schedule::ProbesFirst => m.kind == kind::PROBE,
            Schedule::ProbesLast => m.kind != kind::PROBE,
            Schedule::SlowSession(slow) => m.session != slow,
            Schedule::SlowItem(slow) => m.item != slow,
            _ => true,
        };
        (first..=last)
            .chain(0..first)
            .map(|place| message(buffers, place))
            .find(fits)
            .or(Some(message(buffers, first)))
    }
}

/// A number that is seldom right: out of bounds, or right if its upper bits
/// were lost.
fn odd_number(random: &mut Random, right: u64, max: u64) -> u64 {
    match random.between(1, 12) {
        1 => 0,
        2 => max + 1,
        3 => LARGEST.sessions,
        4 => LARGEST.sessions + 1,
        5 => 255,
        6 => 256,
        7 => right + 256,
        8 => right + (1 << 16),
        9 => right + (1 << 32),
        10 => right + (1 << 63),
        11 => right << 32,
        _ => u64::MAX - random.between(0, 2),
    }
}

/// Any verb, session and item: most such steps are refused.
fn any_step(random: &mut Random, config: &Config) -> (u64, u64, u64) {
    let verb = match random.between(0, 6) {
        6 => odd_number(random, REQUEST, LAST_VERB),
        verb => verb,
    };
    let session = random.between(0, config.sessions + 1);
    let item = random.between(0, config.items + 1);
    (verb, session, item)
}

/// How often a run makes which call.
struct Rates {
    deliver_in_ten: u64,
    release_one_in: u64,
    drain_one_in: u64,
    reopen_one_in: u64,
}

impl Rates {
    fn draw(random: &mut Random) -> Rates {
        Rates {
            deliver_in_ten: random.between(2, 9),
            release_one_in: random.between(3, 40),
            drain_one_in: random.between(10, 100),
            reopen_one_in: random.between(10, 60),
        }
    }

    /// Sessions are done soon, and soon reopened.
    fn reusing(random: &mut Random) -> Rates {
        Rates {
            deliver_in_ten: random.between(4, 7),
            release_one_in: random.between(2, 4),
            drain_one_in: random.between(5, 50),
            reopen_one_in: random.between(3, 6),
        }
    }
}

/// A run of steps, drains and reopenings from start, by bursts, with all mail
/// delivered now and then.
fn run(
    comparison: &mut Comparison,
    random: &mut Random,
    config: &Config,
    rates: Rates,
    steps: u64,
) -> Outcome {
    let mut started = Started::new(comparison, random, config)?;
    let mut schedule = Schedule::draw(random, config);
    let mut delivering_all = false;
    for _ in 0..steps {
        if random.one_in(30) {
            schedule = Schedule::draw(random, config);
            delivering_all = random.one_in(3);
        }
        if random.one_in(40) {
            started.step(comparison, any_step(random, config))?;
        } else if random.one_in(10) {
            let session = config.any_session(random);
            read(comparison, random, session, &started.buffers)?;
        } else if random.one_in(rates.drain_one_in) {
            started.drain(comparison, any_limit(random))?;
        } else if random.one_in(rates.reopen_one_in) {
            if let Some(session) = done_session(random, config, &started.buffers) {
                started.reopen(comparison, session)?;
            }
        } else if delivering_all || random.between(1, 10) <= rates.deliver_in_ten {
            match schedule.choose(random, &started.buffers) {
                None => delivering_all = false,
                Some(m) => {
                    started.step(comparison, (m.verb, m.session, m.item))?;
                }
            }
        } else {
            let verb = if random.one_in(rates.release_one_in) {
                RELEASE
            } else {
                REQUEST
            };
            let (session, item) = own_step(random, config, &started.buffers, verb);
            started.step(comparison, (verb, session, item))?;
        }
    }
    started.drain(comparison, u64::MAX)?;
    Ok(())
}

/// A session and an item for a request or a release, accepted if some tries
/// find such.
fn own_step(random: &mut Random, config: &Config, buffers: &Buffers, verb: u64) -> (u64, u64) {
    let mut drawn = (1, 1);
    for _ in 0..6 {
        drawn = (config.any_session(random), config.any_item(random));
        let record = buffers.session(drawn.0 as usize);
        let stage = record[STAGE];
        let holds = held(record) >> (drawn.1 - 1) & 1 == 1;
        let releases = verb == RELEASE;
        if (stage == GROWING || stage == SHRINKING && releases) && holds == releases {
            break;
        }
    }
    drawn
}

/// A session to be reopened: one that is done, if some tries find such; seldom any
/// number.
fn done_session(random: &mut Random, config: &Config, buffers: &Buffers) -> Option<u64> {
    if random.one_in(20) {
        return Some(random.between(0, config.sessions + 1));
    }
    let mut tries = (0..6).map(|_| config.any_session(random));
    tries.find(|&session| {
        let record = buffers.session(session as usize);
        [SHRINKING, ROLLED_BACK].contains(&record[STAGE]) && held(record) == 0
    })
}

fn small_run(comparison: &mut Comparison, random: &mut Random) -> Outcome {
    let (sessions, items) = (random.between(1, 8), random.between(1, 8));
    let capacity = match random.between(1, 8) {
        1 => 1,
        2 => 2,
        3 => random.between(3, 16),
        4 => 64,
        _ => 300,
    };
    let config = Config::plain(sessions, items, capacity);
    let rates = Rates::draw(random);
    run(comparison, random, &config, rates, 400)
}

/// Three sessions, whose ranks come in every order.
fn three_sessions(comparison: &mut Comparison, random: &mut Random) -> Outcome {
    let config = Config::plain(3, random.between(2, 4), 64);
    let rates = Rates::draw(random);
    run(comparison, random, &config, rates, 150)
}

/// Few sessions, which are used again thousands of times.
fn reusing_run(comparison: &mut Comparison, random: &mut Random) -> Outcome {
    let config = Config::plain(random.between(2, 4), random.between(2, 4), 64);
    let rates = Rates::reusing(random);
    run(comparison, random, &config, rates, 150_000)
}

fn medium_run(comparison: &mut Comparison, random: &mut Random) -> Outcome {
    let (sessions, items) = (random.between(9, 32), random.between(9, 32));
    let config = Config::plain(sessions, items, random.between(200, 1000));
    let rates = Rates::draw(random);
    run(comparison, random, &config, rates, 500)
}

fn largest_run(comparison: &mut Comparison, random: &mut Random) -> Outcome {
    let rates = Rates::draw(random);
    run(comparison, random, &LARGEST, rates, 1500)
}

/// Every session takes an item and asks for the next: a cycle of 64, or of
/// fewer, that the last request closes.
fn long_cycle(comparison: &mut Comparison, random: &mut Random) -> Outcome {
    let sessions = if random.one_in(2) {
        LARGEST.sessions
    } else {
        random.between(3, LARGEST.sessions - 1)
    };
    let config = Config::plain(sessions, sessions, LARGEST.capacity);
    let mut started = Started::new(comparison, random, &config)?;
    let mut accepted = |comparison: &mut Comparison, verb, session, item| {
        let answer = started.step(comparison, (verb, session, item))?;
        match answer.refusal {
            ACCEPTED => Ok(answer),
            refusal => Err(format!(
                "step {verb} {session} {item} is refused with {refusal}"
            )),
        }
    };
    for session in 1..=sessions {
        accepted(comparison, REQUEST, session, session)?;
        accepted(comparison, DELIVER_TO_ITEM, session, session)?;
        accepted(comparison, DELIVER_TO_SESSION, session, session)?;
    }
    for session in 1..=sessions {
        let next = session % sessions + 1;
        accepted(comparison, REQUEST, session, next)?;
        let answer = accepted(comparison, DELIVER_TO_ITEM, session, next)?;
        if (answer.closed == 1) != (session == sessions) {
            return Err(format!(
                "session {session} answers closed {}",
                answer.closed
            ));
        }
    }
    let session = config.any_session(random);
    texts_of(comparison, random, session, sessions, &started.buffers)?;
    // Some of the mail that the cycle brings.
    for _ in 0..200 {
        let Some(m) = Schedule::Any.choose(random, &started.buffers) else {
            break;
        };
        started.step(comparison, (m.verb, m.session, m.item))?;
    }
    let limit = if random.one_in(3) {
        u64::MAX
    } else {
        random.between(0, 1000)
    };
    started.drain(comparison, limit)?;
    Ok(())
}

/// A report and texts on a session that lies on a cycle of so many.
fn texts_of(
    comparison: &mut Comparison,
    random: &mut Random,
    session: u64,
    members: u64,
    buffers: &Buffers,
) -> Outcome {
    let length = comparison.report(session, buffers)?.length;
    if u64::from(length) != members {
        return Err(format!(
            "a cycle of {members} sessions is reported as {length}"
        ));
    }
    every_room(comparison, random, session, buffers)
}

/// Texts on a forged cycle of so many: on a member and on any session.
fn forged_cycle(
    comparison: &mut Comparison,
    random: &mut Random,
    config: &Config,
    members: u64,
) -> Outcome {
    let (buffers, member) = forge::cycle(random, config, members as usize);
    texts_of(comparison, random, member.into(), members, &buffers)?;
    let session = config.any_session(random);
    every_room(comparison, random, session, &buffers)
}

fn texts(comparison: &mut Comparison, random: &mut Random) -> Outcome {
    let drawn = forge::config(random);
    let config = Config::plain(drawn.sessions.max(2), drawn.items.max(2), drawn.capacity);
    let members = random.between(2, config.sessions.min(config.items));
    forged_cycle(comparison, random, &config, members)
}

/// Cycles of every length.
fn texts_wide(comparison: &mut Comparison, random: &mut Random) -> Outcome {
    let members = random.between(2, LARGEST.sessions);
    let sessions = random.between(members, LARGEST.sessions);
    let items = random.between(members, LARGEST.items);
    let config = Config::plain(sessions, items, 1);
    forged_cycle(comparison, random, &config, members)
}

fn texts_largest(comparison: &mut Comparison, random: &mut Random) -> Outcome {
    let config = Config {
        capacity: 1,
        ..LARGEST
    };
    forged_cycle(comparison, random, &config, LARGEST.sessions)
}

/// A few steps, a report, a text, drains and reopenings on well-formed buffers.
fn some_steps(
    comparison: &mut Comparison,
    random: &mut Random,
    config: &Config,
    buffers: &mut Buffers,
    steps: u64,
) -> Outcome {
    for _ in 0..steps {
        match random.between(1, 12) {
            1 => {
                let (verb, session, item) = any_step(random, config);
                comparison.step(verb, session, item, buffers)?;
            }
            2 | 3 => {
                let verb = if random.one_in(3) { RELEASE } else { REQUEST };
                let (session, item) = own_step(random, config, buffers, verb);
                comparison.step(verb, session, item, buffers)?;
            }
            4 => {
                let verb = random.between(DELIVER_TO_ITEM, DELIVER_TO_SESSION);
                let (session, item) = (config.any_session(random), config.any_item(random));
                comparison.step(verb, session, item, buffers)?;
            }
            5 => {
                comparison.drain(limit(random), buffers)?;
            }
            6 => {
                let session = done_session(random, config, buffers);
                comparison.reopen(session.unwrap_or(1), buffers)?;
            }
            _ => {
                if let Some(m) = Schedule::Any.choose(random, buffers) {
                    comparison.step(m.verb, m.session, m.item, buffers)?;
                }
            }
        }
    }
    let session = config.any_session(random);
    read(comparison, random, session, buffers)?;
    comparison.drain(limit(random), buffers)?;
    Ok(())
}

fn forged(comparison: &mut Comparison, random: &mut Random) -> Outcome {
    let (config, mut buffers) = forged_buffers(random);
    let steps = random.between(3, 8);
    some_steps(comparison, random, &config, &mut buffers, steps)
}

fn forged_largest(comparison: &mut Comparison, random: &mut Random) -> Outcome {
    let count = match random.between(1, 6) {
        1 => 0,
        2 => random.between(1, 64),
        3 => random.between(65, 1024),
        4 => LARGEST.capacity,
        5 => LARGEST.capacity - random.between(1, 130),
        _ => random.between(1, LARGEST.capacity),
    };
    let mut buffers = well_formed(random, &LARGEST, count);
    some_steps(comparison, random, &LARGEST, &mut buffers, 12)
}

/// No room, or hardly any.
fn hardly_any_room(comparison: &mut Comparison, random: &mut Random) -> Outcome {
    let mut config = forge::config(random);
    if random.one_in(2) {
        config.capacity = random.between(1, 2);
    }
    let room = random.between(0, 3).min(config.capacity);
    let mut buffers = well_formed(random, &config, config.capacity - room);
    let steps = random.between(3, 8);
    some_steps(comparison, random, &config, &mut buffers, steps)
}

/// The messages on the route of a delivery.
#[derive(Clone, Copy, PartialEq, Eq)]
enum OnRoute {
    One,
    None,
    AsDrawn,
}

/// Deliveries from a full mail of which half goes in one direction, if there is
/// more than one session or item: the message is alone on its route, as the first,
/// one between or the last; or the route is as drawn; or there is none on it.
fn search(comparison: &mut Comparison, random: &mut Random, config: &Config) -> Outcome {
    for routes in [Routes::Any, Routes::OneItem, Routes::OneSessionAndItem] {
        let buffers = full_mail(random, config, routes);
        let last = buffers.count() - 1;
        let between = random.between(0, last as u64) as usize;
        for (place, on_route) in [
            (0, OnRoute::One),
            (between, OnRoute::One),
            (last, OnRoute::One),
            (between, OnRoute::AsDrawn),
            (between, OnRoute::None),
        ] {
            let mut buffers = buffers.clone();
            let route = buffers.route(place).try_into().unwrap();
            let (verb, session, item) = buffers.delivery(place);
            if on_route != OnRoute::AsDrawn {
                let kept = (on_route == OnRoute::One).then_some(place);
                clear_route(random, config, &mut buffers, route, kept);
            }
            comparison.step(verb, session, item, &mut buffers)?;
        }
    }
    Ok(())
}

fn searches(comparison: &mut Comparison, random: &mut Random) -> Outcome {
    let config = Config {
        capacity: random.between(2, 70),
        ..forge::config(random)
    };
    search(comparison, random, &config)
}

fn searches_largest(comparison: &mut Comparison, random: &mut Random) -> Outcome {
    search(comparison, random, &LARGEST)
}

/// A drain of any buffers at each count of messages from none to all.
fn every_fill(comparison: &mut Comparison, random: &mut Random, config: &Config) -> Outcome {
    for count in 0..=config.capacity {
        let mut buffers = well_formed(random, config, count);
        comparison.drain(limit(random), &mut buffers)?;
    }
    Ok(())
}

fn drain_every_fill(comparison: &mut Comparison, random: &mut Random) -> Outcome {
    let config = forge::config(random);
    every_fill(comparison, random, &config)
}

/// Small numbers and a wide mail.
fn wide_config(random: &mut Random) -> Config<'static> {
    Config {
        capacity: random.between(65, 200),
        ..forge::config(random)
    }
}

fn drain_every_fill_wide(comparison: &mut Comparison, random: &mut Random) -> Outcome {
    let config = wide_config(random);
    every_fill(comparison, random, &config)
}

/// A count of messages for the largest mail, often nearly full.
fn largest_count(random: &mut Random) -> u64 {
    let room = match random.between(1, 4) {
        1 => 0,
        2 => random.between(1, 30),
        3 => random.between(31, 150),
        _ => random.between(151, LARGEST.capacity),
    };
    LARGEST.capacity - room
}

fn drain_largest(comparison: &mut Comparison, random: &mut Random) -> Outcome {
    let count = largest_count(random);
    let mut buffers = well_formed(random, &LARGEST, count);
    comparison.drain(limit(random), &mut buffers)?;
    Ok(())
}

/// Drains, one after the other, of mail in which cleans circle.
fn circle(
    comparison: &mut Comparison,
    random: &mut Random,
    config: &Config,
    count: u64,
    most: u64,
) -> Outcome {
    let beside = match random.between(1, 4) {
        1 => Beside::Anything,
        2 => Beside::Dropped,
        _ => Beside::Nothing,
    };
    let mut buffers = circling(random, config, count, beside);
    for _ in 0..2 {
        let limit = random.between(0, most);
        let drained = comparison.drain(limit, &mut buffers)?;
        let circles = drained.made == limit && drained.ending == Ending::Limit as u8;
        if beside == Beside::Nothing && count > 0 && !circles {
            return Err(format!("no clean circles: {drained:?}"));
        }
    }
    Ok(())
}

fn circles(comparison: &mut Comparison, random: &mut Random) -> Outcome {
    let config = forge::config(random);
    let count = random.between(0, config.capacity);
    circle(comparison, random, &config, count, 5 * config.capacity)
}

fn circles_wide(comparison: &mut Comparison, random: &mut Random) -> Outcome {
    let config = wide_config(random);
    let count = random.between(0, config.capacity);
    circle(comparison, random, &config, count, 5 * config.capacity)
}

fn circles_largest(comparison: &mut Comparison, random: &mut Random) -> Outcome {
    let count = largest_count(random);
    circle(comparison, random, &LARGEST, count, 300)
}

/// More deliveries than two bytes can count.
fn circles_long(comparison: &mut Comparison, random: &mut Random) -> Outcome {
    let config = forge::config(random);
    let count = random.between(1, config.capacity);
    let mut buffers = circling(random, &config, count, Beside::Nothing);
    comparison.drain(70_000, &mut buffers)?;
    Ok(())
}

/// A session of forged buffers is reopened; it may not be for one reason alone, each
/// in turn; and numbers that are no session's.
fn every_reason(
    comparison: &mut Comparison,
    random: &mut Random,
    config: &Config,
    count: u64,
) -> Outcome {
    let session = config.any_session(random) as u8;
    let mut answers = |random: &mut Random, buffers: &Buffers, expected, name| {
        let found = comparison.reopen(session.into(), &mut buffers.clone())?;
        if found != expected {
            return Err(format!("{name} is answered with {found}"));
        }
        let number = odd_number(random, session.into(), config.sessions);
        comparison.reopen(number, &mut buffers.clone()).map(|_| ())
    };
    let in_use = Refusal::InUse as u8;
    for stage in [SHRINKING, ROLLED_BACK] {
        let done = reopenable(random, config, count, session, stage);
        answers(random, &done, ACCEPTED, "a session that is done")?;
        let mut storing = done.clone();
        forge::store_other(random, config, &mut storing, session);
        answers(random, &storing, ACCEPTED, "a stored probe of others")?;
        for (name, named) in NAMED {
            let mut buffers = done.clone();
            forge::name(random, config, &mut buffers, session, named);
            answers(random, &buffers, in_use, name)?;
        }
    }
    let done = reopenable(random, config, count, session, SHRINKING);
    for stage in [GROWING, WAITING, CLEANING, WITHDRAWING] {
        let mut buffers = done.clone();
        let record = buffers.session_mut(session.into());
        record[STAGE] = stage;
        if stage != GROWING {
            record[AWAITED] = config.any_item(random) as u8;
        }
        answers(random, &buffers, in_use, "another stage")?;
    }
    let mut buffers = done;
    let held = 1u64 << (config.any_item(random) - 1);
    buffers.session_mut(session.into())[HELD].copy_from_slice(&held.to_le_bytes());
    answers(random, &buffers, in_use, "stage 3 with an item")
}

/// Two sessions or more: the only one is named by every message.
fn reopenings(comparison: &mut Comparison, random: &mut Random) -> Outcome {
    let drawn = forge::config(random);
    let config = Config::plain(drawn.sessions.max(2), drawn.items, drawn.capacity);
    let count = Filling::draw(random).of(random, config.capacity);
    every_reason(comparison, random, &config, count)?;
    let only = Config::plain(1, drawn.items, drawn.capacity);
    for stage in [SHRINKING, ROLLED_BACK] {
        let mut buffers = reopenable(random, &only, 0, 1, stage);
        comparison.reopen(1, &mut buffers)?;
    }
    Ok(())
}

fn reopenings_largest(comparison: &mut Comparison, random: &mut Random) -> Outcome {
    let room = match random.between(1, 4) {
        1 => random.between(1, LARGEST.capacity),
        _ => 0,
    };
    every_reason(comparison, random, &LARGEST, LARGEST.capacity - room)
}

/// The steps that send most: a request with all 64 probes; a clean, a release
/// or a rebroadcast at an item where everyone waits, into mail with more or less
/// room. And a release that finds a queue of 64 and no holder. In a drain too.
fn many_sends(comparison: &mut Comparison, random: &mut Random) -> Outcome {
    let config = Config {
        capacity: random.between(100, 400),
        ..LARGEST
    };
    let room = random.between(0, 140);
    let count = config.capacity.saturating_sub(room);
    let buffers = well_formed(random, &config, count);

    let mut own = buffers.clone();
    let session = config.any_session(random);
    let record = own.session_mut(session as usize);
    record.fill(0);
    record[STAGE] = GROWING;
    for junior in &mut record[JUNIORS] {
        *junior = config.any_session(random) as u8;
    }
    comparison.step(REQUEST, session, config.any_item(random), &mut own)?;

    if count == 0 {
        return Ok(());
    }
    for kind in [kind::RELEASE, kind::CLEAN, kind::REBROADCAST] {
        let holder = random.between(50, config.sessions) as u8;
        everyone_waits(comparison, random, &buffers, holder, holder, kind)?;
    }
    // A release with any holder; and with none, where all 64 wait.
    for holder in [config.any_session(random) as u8, 0] {
        let from = match holder {
            0 => config.any_session(random) as u8,
            holder => holder,
        };
        everyone_waits(comparison, random, &buffers, holder, from, kind::RELEASE)?;
    }
    Ok(())
}

/// The last message of these buffers, made one of this kind and sender, comes
/// to an item for which all but its holder wait, in any order; in a drain the
/// oldest.
fn everyone_waits(
    comparison: &mut Comparison,
    random: &mut Random,
    buffers: &Buffers,
    holder: u8,
    from: u8,
    kind: u8,
) -> Outcome {
    let mut buffers = buffers.clone();
    let item = LARGEST.any_item(random);
    let waiting = MAX_SESSIONS - usize::from(holder != 0);
    let record = buffers.item_mut(item as usize);
    forge::set_item(random, &LARGEST, record, holder, waiting);
    let ab = u8::from(kind == kind::CLEAN);
    let (route, body) = ([TO_ITEM, from, item as u8], [kind, ab, ab]);
    let mut first = buffers.clone();
    first.set_message(0, route, body);
    comparison.drain(limit(random), &mut first)?;
    let place = buffers.count() - 1;
    buffers.set_message(place, route, body);
    comparison.step(DELIVER_TO_ITEM, from.into(), item, &mut buffers)?;
    Ok(())
}

/// Each way to break the form, on buffers otherwise well-formed.
fn broken(comparison: &mut Comparison, random: &mut Random) -> Outcome {
    broken_forms(comparison, random, None)
}

fn broken_largest(comparison: &mut Comparison, random: &mut Random) -> Outcome {
    broken_forms(comparison, random, Some(LARGEST))
}

fn broken_forms(
    comparison: &mut Comparison,
    random: &mut Random,
    config: Option<Config>,
) -> Outcome {
    for way in breaks() {
        let config = config.unwrap_or_else(|| forge::config(random));
        let count = random.between(0, config.capacity);
        let mut buffers = well_formed(random, &config, count);
        if way.apply(random, &config, &mut buffers) {
            refused(comparison, random, &config, &mut buffers, way)?;
            comparison.coverage.broken(way.name);
        }
    }
    Ok(())
}

/// A step, a drain and a reopening of buffers that are broken in this way are
/// refused as they must be, and so are a report and a text if it is the table.
fn refused(
    comparison: &mut Comparison,
    random: &mut Random,
    config: &Config,
    buffers: &mut Buffers,
    way: &Break,
) -> Outcome {
    let (verb, session, item) = any_call(random, config);
    let step = comparison.step(verb, session, item, buffers)?.refusal;
    let drained = comparison.drain(limit(random), buffers)?.refusal;
    let reopened = comparison.reopen(session, buffers)?;
    let [report, text] = read(comparison, random, session, buffers)?;
    let judging = match way.refusal {
        Refusal::BadTable => 5,
        _ => 3,
    };
    let found = &[step, drained, reopened, report, text][..judging];
    if found.iter().any(|&refusal| refusal != way.refusal as u8) {
        return Err(format!("{} is refused with {found:?}", way.name));
    }
    Ok(())
}

fn bad_ranks(comparison: &mut Comparison, random: &mut Random) -> Outcome {
    let drawn = forge::config(random);
    let config = Config::plain(drawn.sessions.max(2), drawn.items, drawn.capacity);
    every_bad_list(comparison, random, &config)
}

fn bad_ranks_largest(comparison: &mut Comparison, random: &mut Random) -> Outcome {
    every_bad_list(comparison, random, &LARGEST)
}

/// Ranks broken in each way: in a table, at a start, and at a start beside a wrong
/// size; then good ranks for another number of sessions.
fn every_bad_list(comparison: &mut Comparison, random: &mut Random, config: &Config) -> Outcome {
    for way in RANK_BREAKS {
        let count = random.between(0, config.capacity);
        let mut buffers = well_formed(random, config, count);
        way.apply(random, config, &mut buffers);
        refused(comparison, random, config, &mut buffers, way)?;
        let bad = config.with_ranks(buffers.ranks());
        let filled = Buffers::filled(config, 0xA5);
        refused_start(comparison, &bad, filled, Refusal::BadRanks, way.name)?;
        bad_beside_size(comparison, random, &bad)?;
    }
    let sessions = config.sessions;
    let (less, more) = (random.between(1, sessions - 1), random.between(1, 40));
    // Right if the upper bits of its length were lost.
    let mut far_longer = forge::ranks(random, sessions);
    far_longer.resize(far_longer.len() + (1 << (8 * random.between(1, 2))), 0);
    for (name, list) in [
        ("empty list", Vec::new()),
        ("list too short", forge::ranks(random, less)),
        ("list too long", forge::ranks(random, sessions + more)),
        ("list too long by 256 or 65536", far_longer),
    ] {
        let buffers = Buffers::filled(config, 0xA5);
        let config = config.with_ranks(&list);
        refused_start(comparison, &config, buffers, Refusal::BadSize, name)?;
    }
    Ok(())
}

/// Bad ranks at a start, in a list of a wrong length or beside another wrong size:
/// 2 comes first.
fn bad_beside_size(comparison: &mut Comparison, random: &mut Random, bad: &Config) -> Outcome {
    let list = if random.one_in(2) {
        [bad.ranks, &[0]].concat()
    } else {
        vec![0; bad.ranks.len() - 1]
    };
    let longer_or_shorter = bad.with_ranks(&list);
    let mut buffers = Buffers::filled(bad, 0xA5);
    let (filled, name) = (buffers.clone(), "bad ranks in a list of a wrong length");
    refused_start(
        comparison,
        &longer_or_shorter,
        filled,
        Refusal::BadSize,
        name,
    )?;
    let mut other = *bad;
    match random.between(1, 4) {
        1 => buffers.table.push(0),
        2 => buffers.mail.truncate(buffers.mail.len() - 1),
        3 => other.items += 1,
        _ => other.capacity -= 1,
    }
    let name = "bad ranks beside another wrong size";
    refused_start(comparison, &other, buffers, Refusal::BadSize, name)
}

/// A start that must be refused so.
fn refused_start(
    comparison: &mut Comparison,
    config: &Config,
    mut buffers: Buffers,
    refusal: Refusal,
    name: &'static str,
) -> Outcome {
    let found = comparison.start(config, &mut buffers)?;
    if found != refusal as u8 {
        return Err(format!("{name} is refused with {found}"));
    }
    comparison.coverage.bad_ranks(name);
    Ok(())
}

/// One to three changes anywhere, then a reopening, a step, a report, a text and a
/// drain, sometimes with numbers out of bounds too, so that causes meet each other.
fn damaged(comparison: &mut Comparison, random: &mut Random) -> Outcome {
    let (config, mut buffers) = forged_buffers(random);
    let changes = if random.one_in(3) {
        random.between(2, 3)
    } else {
        1
    };
    for _ in 0..changes {
        damage(random, &mut buffers);
    }
    let (mut verb, mut session, mut item) = any_call(random, &config);
    if random.one_in(4) {
        session = odd_number(random, session, config.sessions);
    }
    if random.one_in(6) {
        item = odd_number(random, item, config.items);
    }
    if random.one_in(8) {
        verb = odd_number(random, verb, LAST_VERB);
    }
    comparison.reopen(session, &mut buffers)?;
    comparison.step(verb, session, item, &mut buffers)?;
    read(comparison, random, session, &buffers)?;
    comparison.drain(limit(random), &mut buffers)?;
    Ok(())
}

fn damage(random: &mut Random, buffers: &mut Buffers) {
    let in_table = random.one_in(2);
    let bytes = if in_table {
        &mut buffers.table
    } else {
        &mut buffers.mail
    };
    match random.between(1, 10) {
        // A wrong length.
        1 => bytes.push(random.between(0, 1) as u8),
        2 => {
            bytes.pop();
        }
        3 if random.one_in(3) => bytes.truncate(random.between(0, 5) as usize),
        3 => {
            let more = random.between(1, 80) as usize;
            bytes.resize(bytes.len() + more, 0);
        }
        // The numbers that the buffers carry.
        4 if bytes.len() >= 2 => bytes.swap(0, 1),
        5 if bytes.len() >= 4 => {
            let place = random.between(0, if in_table { 1 } else { 3 }) as usize;
            bytes[place] = any_byte(random, bytes[place]);
        }
        // A byte anywhere.
        _ if !bytes.is_empty() => {
            let place = random.between(0, bytes.len() as u64 - 1) as usize;
            bytes[place] = any_byte(random, bytes[place]);
        }
        _ => {}
    }
}

fn any_byte(random: &mut Random, old: u8) -> u8 {
    match random.between(1, 8) {
        1 => old.wrapping_add(1),
        2 => old.wrapping_sub(1),
        3 => old ^ 1 << random.between(0, 7),
        4 => 0,
        5 => random.between(1, 10) as u8,
        6 => MAX_SESSIONS as u8 + random.between(0, 1) as u8,
        _ => random.between(0, 255) as u8,
    }
}

/// So many sessions more and items less give a table of equal length, whose
/// records then lie elsewhere. A session has a record and a rank.
const MORE_SESSIONS: u64 = ITEM_SIZE as u64 / 3;
const LESS_ITEMS: u64 = (SESSION_SIZE as u64 + 1) / 3;
const _: () = assert!(
    MORE_SESSIONS * (SESSION_SIZE as u64 + 1) == LESS_ITEMS * ITEM_SIZE as u64,
    "tables of equal length"
);

fn other_bounds(comparison: &mut Comparison, random: &mut Random) -> Outcome {
    let sessions = random.between(MORE_SESSIONS + 1, LARGEST.sessions);
    let items = random.between(1, LARGEST.items - LESS_ITEMS);
    let config = Config::plain(sessions, items, random.between(1, 8));
    let mut buffers = if random.one_in(2) {
        fresh(comparison, random, &config)?
    } else {
        well_formed(random, &config, 0)
    };
    buffers.table[TABLE_SESSIONS] -= MORE_SESSIONS as u8;
    buffers.table[TABLE_ITEMS] += LESS_ITEMS as u8;
    let (_, session, item) = any_call(random, &config);
    comparison.reopen(session, &mut buffers)?;
    comparison.step(REQUEST, session, item, &mut buffers)?;
    read(comparison, random, session, &buffers)?;
    comparison.drain(limit(random), &mut buffers)?;
    Ok(())
}

/// Well-formed buffers and numbers that are seldom right.
fn numbers(comparison: &mut Comparison, random: &mut Random) -> Outcome {
    let (config, mut buffers) = forged_buffers(random);
    let (verb, session, item) = any_call(random, &config);
    let odd_verb = odd_number(random, verb, LAST_VERB);
    let odd_session = odd_number(random, session, config.sessions);
    let odd_item = odd_number(random, item, config.items);
    comparison.step(odd_verb, session, item, &mut buffers)?;
    comparison.step(verb, odd_session, item, &mut buffers)?;
    comparison.step(verb, session, odd_item, &mut buffers)?;
    comparison.step(verb, odd_session, odd_item, &mut buffers)?;
    comparison.reopen(odd_session, &mut buffers)?;
    read(comparison, random, odd_session, &buffers)?;
    Ok(())
}

/// Starts with right and wrong numbers, lengths and ranks, on bytes of any kind.
fn starts(comparison: &mut Comparison, random: &mut Random) -> Outcome {
    let mut config = forge::config(random);
    if random.one_in(8) {
        let sessions = random.between(1, LARGEST.sessions);
        let items = random.between(1, LARGEST.items);
        config = Config::plain(sessions, items, random.between(1, 300));
    }
    if random.one_in(60) {
        config = LARGEST;
    }
    let filler = random.between(0, 255) as u8;
    let mut buffers = Buffers::filled(&config, filler);
    let mut ranks = forge::ranks(random, config.sessions);
    match random.between(1, 9) {
        1 => config.sessions = odd_number(random, config.sessions, LARGEST.sessions),
        2 => config.items = odd_number(random, config.items, LARGEST.items),
        3 => config.capacity = odd_number(random, config.capacity, LARGEST.capacity),
        4 => damage(random, &mut buffers),
        5 => (config.sessions, config.items) = (config.items, config.sessions),
        6 => {
            let session = config.any_session(random) as usize;
            ranks[session - 1] = any_byte(random, ranks[session - 1]);
        }
        _ => {}
    }
    comparison.start(&config.with_ranks(&ranks), &mut buffers)?;
    // Bounds passed, and buffers of the length that would belong to them.
    if random.one_in(4) {
        let config = match random.between(1, 6) {
            1 => Config::plain(LARGEST.sessions + 1, 1, 1),
            2 => Config::plain(1, LARGEST.items + 1, 1),
            3 => Config::plain(1, 1, LARGEST.capacity + 1),
            4 => Config::plain(0, 1, 1),
            5 => Config::plain(1, 0, 1),
            _ => Config::plain(1, 1, 0),
        };
        let mut buffers = Buffers::filled(&config, filler);
        comparison.start(&config, &mut buffers)?;
        // The same numbers carried by the buffers.
        buffers.set_config(&config);
        comparison.step(REQUEST, 1, 1, &mut buffers)?;
        comparison.reopen(1, &mut buffers)?;
        read(comparison, random, 1, &buffers)?;
        comparison.drain(limit(random), &mut buffers)?;
    }
    Ok(())
}

/// Every byte of small buffers in turn with every value: a step, a drain and,
/// for the table, a report and a text; and where a session may be reopened, that.
pub fn every_value(comparison: &mut Comparison) -> Outcome {
    let mut random = Random::new(0);
    let config = Config::plain(2, 2, 2);
    for count in 0..=config.capacity {
        let buffers = well_formed(&mut random, &config, count);
        for place in 0..buffers.table.len() + buffers.mail.len() {
            for value in 0..=255 {
                one_change(comparison, &mut random, &config, &buffers, place, value)?;
            }
        }
    }
    for stage in [SHRINKING, ROLLED_BACK] {
        let done = reopenable(&mut random, &config, config.capacity, 2, stage);
        for place in 0..done.table.len() + done.mail.len() {
            for value in 0..=255 {
                comparison.reopen(2, &mut changed(&done, place, value))?;
            }
        }
    }
    Ok(())
}

/// Every byte of larger buffers in turn with one other value.
pub fn every_place(comparison: &mut Comparison) -> Outcome {
    let mut random = Random::new(0);
    let (last_session, last_item) = (LARGEST.sessions, LARGEST.items);
    let configs = [
        (Config::plain(1, 1, 1), 1),
        (Config::plain(3, 5, 7), 4),
        (Config::plain(16, 15, 17), 16),
        (Config::plain(17, 33, 31), 15),
        (Config::plain(last_session - 1, last_item, 65), 32),
        (Config::plain(last_session, last_item - 1, 300), 299),
        (LARGEST, 64),
        (LARGEST, LARGEST.capacity - 6),
    ];
    for (config, count) in configs {
        let buffers = well_formed(&mut random, &config, count);
        let session = config.any_session(&mut random);
        let done = reopenable(&mut random, &config, count, session as u8, ROLLED_BACK);
        for place in 0..buffers.table.len() + buffers.mail.len() {
            let value = random.between(1, 255) as u8;
            one_change(comparison, &mut random, &config, &buffers, place, value)?;
            // Often the session itself.
            let value = if random.one_in(2) {
                session as u8
            } else {
                value
            };
            comparison.reopen(session, &mut changed(&done, place, value))?;
        }
    }
    Ok(())
}

/// The same buffers with one byte set, counted through the table and then the mail.
fn changed(buffers: &Buffers, place: usize, value: u8) -> Buffers {
    let mut changed = buffers.clone();
    match place.checked_sub(changed.table.len()) {
        None => changed.table[place] = value,
        Some(place) => changed.mail[place] = value,
    }
    changed
}

/// A step, a drain and, for a byte of the table, a report and a text, with one
/// byte set.
fn one_change(
    comparison: &mut Comparison,
    random: &mut Random,
    config: &Config,
    buffers: &Buffers,
    place: usize,
    value: u8,
) -> Outcome {
    let mut changed = changed(buffers, place, value);
    let (verb, session, item) = any_call(random, config);
    if place < changed.table.len() {
        read(comparison, random, session, &changed)?;
    }
    comparison.step(verb, session, item, &mut changed)?;
    comparison.drain(random.between(0, 1), &mut changed)?;
    Ok(())
}
