//! The order in which each call judges its causes: where two hold, the first of
//! its list is answered.

use model::layout::{item_at, session_at, HELD, MAIL_COUNT, MAX_TEXT, STAGE};
use model::session::Stage;
use model::{cycle_text, drain, reopen, report, start, step, Config, Refusal, Verb, ACCEPTED};

/// What the calls are given.
struct Given {
    config: Config<'static>,
    verb: u64,
    session: u64,
    item: u64,
    room: usize,
    table: Vec<u8>,
    mail: Vec<u8>,
}

/// Two sessions and two items, with room for one message.
const TWO: Config = Config::plain(2, 2, 1);

/// After a start: session 1 asks for item 1.
fn fresh() -> Given {
    let mut given = Given {
        config: TWO,
        verb: Verb::Request as u64,
        session: 1,
        item: 1,
        room: MAX_TEXT,
        table: vec![0; TWO.table_length()],
        mail: vec![0; TWO.mail_length()],
    };
    start(&TWO, &mut given.table, &mut given.mail);
    given
}

/// The two sessions wait for each other.
fn in_a_cycle() -> Given {
    let mut given = fresh();
    for (item, holder, waiting) in [(1, 2, 1), (2, 1, 2)] {
        given.table[item_at(2, item)][..3].copy_from_slice(&[holder, 1, waiting]);
    }
    given
}

/// Session 1 may be reopened.
fn rolled_back() -> Given {
    let mut given = fresh();
    given.table[session_at(1)][STAGE] = Stage::RolledBack as u8;
    given
}

/// Makes a cause hold.
fn spoil(given: &mut Given, cause: Refusal) {
    let Given { table, mail, .. } = given;
    match cause {
        Refusal::BadVerb => given.verb = 0,
        Refusal::BadSize => table.push(0),
        Refusal::BadTable => table[session_at(2)][STAGE] = 0,
        Refusal::BadMail => mail[MAIL_COUNT][0] = 2,
        Refusal::BadNumber => given.session = 0,
        Refusal::WrongStage => {
            table[session_at(1)][STAGE] = Stage::Shrinking as u8;
            given.verb = Verb::Request as u64;
        }
        Refusal::WrongItem => {
            table[session_at(1)][HELD][0] = 1;
            given.verb = Verb::Request as u64;
        }
        Refusal::NoMessage => given.verb = Verb::DeliverToItem as u64,
        Refusal::MailFull => {
            step(Verb::Request as u64, 2, 2, table, mail);
        }
        Refusal::NoCycle => table[item_at(2, 1)].fill(0),
        Refusal::ShortBuffer => given.room = 0,
        Refusal::BadRanks => given.config = TWO.with_ranks(&[2, 2]),
        Refusal::InUse => table[session_at(1)][STAGE] = Stage::Growing as u8,
    }
}

/// A call: its causes in order, what it accepts, what it answers to what it is given.
type Call = (&'static [Refusal], fn() -> Given, fn(&mut Given) -> u8);

const CALLS: [Call; 6] = [
    (&Refusal::START_ORDER, fresh, |g| {
        start(&g.config, &mut g.table, &mut g.mail)
    }),
    (&Refusal::STEP_ORDER, fresh, |g| {
        step(g.verb, g.session, g.item, &mut g.table, &mut g.mail).refusal
    }),
    (&Refusal::REPORT_ORDER, fresh, |g| {
        report(g.session, &g.table).refusal
    }),
    (&Refusal::DRAIN_ORDER, fresh, |g| {
        drain(1, &mut g.table, &mut g.mail).refusal
    }),
    (&Refusal::TEXT_ORDER, in_a_cycle, |g| {
        cycle_text(g.session, &g.table, &mut vec![0; g.room]).refusal
    }),
    (&Refusal::REOPEN_ORDER, rolled_back, |g| {
        reopen(g.session, &mut g.table, &g.mail)
    }),
];

#[test]
fn the_first_that_holds_is_answered() {
    for (order, accepted, call) in CALLS {
        assert_eq!(call(&mut accepted()), ACCEPTED);
        for (place, &first) in order.iter().enumerate() {
            for &other in &order[place..] {
                let mut given = accepted();
                // The first one at last, so that it holds where they exclude each other.
                spoil(&mut given, other);
                spoil(&mut given, first);
                assert_eq!(call(&mut given), first as u8, "{first:?}, {other:?}");
            }
        }
    }
}

#[test]
fn all_are_listed_by_number() {
    assert!(Refusal::ALL.is_sorted_by_key(|&refusal| refusal as u8));
    for refusal in Refusal::ALL {
        assert!(CALLS.iter().any(|(order, ..)| order.contains(&refusal)));
    }
}
