//! F-7: when a session may be reopened, what that changes, and demand 3 on lists in
//! which sessions are used again and again.

mod desk;

use desk::{Desk, RELEASE, REQUEST, TO_ITEM, TO_SESSION};
use model::demand3::Demand3;
use model::item::Item;
use model::layout::{ranks_at, session_at, MAIL_COUNT, MAX_SESSIONS, STAGE};
use model::mailbox::{count, Body, Direction, Mailbox, Message, Route};
use model::scenario::{run_reopening, Counts, BY_RULES};
use model::session::{Session, Stage};
use model::table::Table;
use model::{Config, Refusal, ACCEPTED, RULES};

/// The session that is reopened, and two others.
const OWN: u8 = 2;
const ONE: u8 = 1;
const OTHER: u8 = 4;

/// Session 2 is not of rank 2.
const RANKS: [u8; 5] = [3, 5, 1, 2, 4];
const ITEMS: u8 = 4;

fn probe(initiator: u8, junior: u8) -> Body {
    Body::Probe { initiator, junior }
}

fn clean(victim: u8, initiator: u8) -> Body {
    Body::Clean { victim, initiator }
}

fn abort(victim: u8, initiator: u8) -> Body {
    Body::Abort { victim, initiator }
}

fn message(direction: Direction, session: u8, item: u8, body: Body) -> Message {
    let route = Route {
        direction,
        session,
        item,
    };
    Message { route, body }
}

/// Session 2 holds nothing and is at this stage, and nothing names it: there are
/// other holders, waiting sessions and stored probes, and messages of others, some
/// of them about item 2.
fn done(stage: Stage) -> Desk {
    let config = Config::plain(RANKS.len() as u64, ITEMS.into(), 16).with_ranks(&RANKS);
    let desk = Desk::started(&config).forged(|table| {
        table.session_mut(ONE).held = 0b0101;
        table.session_mut(ONE).juniors[3] = 5;
        table.session_mut(OWN).stage = stage;
        let other = table.session_mut(OTHER);
        (other.stage, other.awaited) = (Stage::Waiting, 1);
        other.juniors[0] = 1;
        let last = table.session_mut(5);
        (last.stage, last.awaited) = (Stage::Withdrawing, 2);
        for number in [1, 3] {
            *table.item_mut(number) = Item {
                holder: ONE,
                queue: vec![OTHER, 3],
            };
        }
        table.item_mut(OWN).queue = vec![5];
    });
    [
        message(Direction::ToItem, ONE, OWN, Body::Request),
        message(Direction::ToItem, OTHER, 1, probe(1, 4)),
        message(Direction::ToSession, OTHER, OWN, abort(4, 1)),
        message(Direction::ToSession, 3, 1, clean(5, 3)),
        message(Direction::ToSession, 5, OWN, Body::Withdrawn),
    ]
    .into_iter()
    .fold(desk, |desk, message| with_message(&desk, 0, message))
}

const DONE: [Stage; 2] = [Stage::Shrinking, Stage::RolledBack];

/// The same buffers with one more message, at this place.
fn with_message(desk: &Desk, place: usize, message: Message) -> Desk {
    let mut desk = desk.clone();
    let mut mailbox = Mailbox::decode(&desk.mail, RANKS.len(), ITEMS.into()).unwrap();
    mailbox.messages.insert(place, message);
    mailbox.encode(&mut desk.mail);
    desk
}

/// The session is reopened: its record is that of a fresh one, and no other byte
/// changes.
#[track_caller]
fn reopens(desk: &Desk) {
    let mut after = desk.clone();
    assert_eq!(after.reopen(OWN.into()), ACCEPTED);
    let expected = desk.forged(|table| *table.session_mut(OWN) = Session::fresh());
    assert_eq!(after, expected);
    assert_eq!(after.table[ranks_at(RANKS.len(), ITEMS.into())], RANKS);
    // It is growing now, and may not be reopened again.
    refuses(&after, OWN.into(), Refusal::InUse);
}

/// The session is not reopened, and no byte changes.
#[track_caller]
fn refuses(desk: &Desk, session: u64, refusal: Refusal) {
    let mut after = desk.clone();
    assert_eq!(after.reopen(session), refusal as u8);
    assert_eq!(after, *desk);
}

#[track_caller]
fn in_use(desk: &Desk) {
    refuses(desk, OWN.into(), Refusal::InUse);
}

#[test]
fn allowed_at_stages_3_and_6_alone() {
    for stage in DONE {
        reopens(&done(stage));
    }
    in_use(&done(Stage::Growing));
    for stage in [Stage::Waiting, Stage::Cleaning, Stage::Withdrawing] {
        for item in 1..=ITEMS {
            in_use(&done(Stage::Growing).forged(|table| {
                let own = table.session_mut(OWN);
                (own.stage, own.awaited) = (stage, item);
            }));
        }
    }
}

/// In a forged table a session at stage 6 can hold items; its mask is cleared.
#[test]
fn holding_nothing_at_stage_3() {
    for held in 1..1 << ITEMS {
        let holding = |stage| done(stage).forged(|table| table.session_mut(OWN).held = held);
        in_use(&holding(Stage::Shrinking));
        reopens(&holding(Stage::RolledBack));
    }
}

/// A message of its route, of any kind and at any place.
#[test]
fn named_in_a_route() {
    for stage in DONE {
        let desk = done(stage);
        for place in 0..=count(&desk.mail) {
            for body in [
                Body::Request,
                Body::Release,
                probe(1, 4),
                clean(4, 1),
                Body::Rebroadcast,
                Body::Withdraw,
            ] {
                let named = message(Direction::ToItem, OWN, 3, body);
                in_use(&with_message(&desk, place, named));
            }
            for body in [
                probe(1, 4),
                clean(4, 1),
                Body::Grant,
                Body::Resend,
                abort(OWN, 1),
                Body::Withdrawn,
            ] {
                let named = message(Direction::ToSession, OWN, 3, body);
                in_use(&with_message(&desk, place, named));
            }
        }
    }
}

/// As a or b alone of a message of another session. An abort goes to its a.
#[test]
fn named_as_a_or_b() {
    let to_items = [
        probe(OWN, 1),
        probe(1, OWN),
        clean(OWN, 1),
        clean(1, OWN),
        probe(OWN, OWN),
        clean(OWN, OWN),
    ];
    for stage in DONE {
        let desk = done(stage);
        for place in 0..=count(&desk.mail) {
            for body in to_items {
                for direction in [Direction::ToItem, Direction::ToSession] {
                    in_use(&with_message(
                        &desk,
                        place,
                        message(direction, OTHER, 1, body),
                    ));
                }
            }
            let named = message(Direction::ToSession, OTHER, 1, abort(OTHER, OWN));
            in_use(&with_message(&desk, place, named));
        }
    }
}

#[test]
fn named_by_an_item() {
    for stage in DONE {
        for item in 1..=ITEMS {
            let with = |change: &dyn Fn(&mut Item)| {
                in_use(&done(stage).forged(|table| change(table.item_mut(item))));
            };
            with(&|item| item.holder = OWN);
            with(&|item| item.queue.insert(0, OWN));
            with(&|item| item.queue.push(OWN));
        }
    }
}

/// By a stored probe of any session; its own record counts too.
#[test]
fn named_by_a_stored_probe() {
    for stage in DONE {
        for owner in 1..=RANKS.len() as u8 {
            let storing = |initiator: u8, junior: u8| {
                done(stage).forged(|table| {
                    table.session_mut(owner).juniors[usize::from(initiator) - 1] = junior;
                })
            };
            for session in 1..=RANKS.len() as u8 {
                in_use(&storing(OWN, session));
                in_use(&storing(session, OWN));
            }
            reopens(&storing(ONE, OTHER));
        }
        // Its other probes are cleared.
        reopens(&done(stage).forged(|table| {
            table.session_mut(OWN).juniors[..5].copy_from_slice(&[3, 0, 1, 5, 4]);
        }));
    }
}

/// The mail may be full, and the session the only one.
#[test]
fn sizes() {
    for stage in DONE {
        let mut desk = done(stage);
        while count(&desk.mail) < 16 {
            let resend = message(Direction::ToSession, ONE, OWN, Body::Resend);
            desk = with_message(&desk, 0, resend);
        }
        reopens(&desk);
        let mut smallest = Desk::new(1, 1, 1).forged(|table| table.session_mut(1).stage = stage);
        assert_eq!(smallest.reopen(1), ACCEPTED);
        assert_eq!(smallest, Desk::new(1, 1, 1));
        // With 64 sessions, each of which is done.
        let fresh = Desk::new(64, 64, 4096);
        let mut desk = fresh.forged(|table| {
            table.sessions.iter_mut().for_each(|s| s.stage = stage);
        });
        for session in 1..=MAX_SESSIONS as u64 {
            assert_eq!(desk.reopen(session), ACCEPTED);
        }
        assert_eq!(desk, fresh);
    }
}

/// The number is a session's alone: it may be above M.
#[test]
fn only_the_session_number_is_checked() {
    for stage in DONE {
        let desk = done(stage);
        let own = u64::from(OWN);
        for number in [0, 6, 64, 65, 255, 256, u64::MAX] {
            refuses(&desk, number, Refusal::BadNumber);
        }
        for far in [8, 16, 32, 48, 63] {
            refuses(&desk, own + (1 << far), Refusal::BadNumber);
        }
        let mut desk = Desk::new(5, 1, 1).forged(|table| table.session_mut(5).stage = stage);
        assert_eq!(desk.reopen(5), ACCEPTED);
        assert_eq!(desk, Desk::new(5, 1, 1));
    }
}

/// 2, 3, 4, 5 and 15, in this order.
#[test]
fn refusals_in_order() {
    let sessions = [OWN.into(), ONE.into(), 0, u64::MAX];
    let mut desk = done(Stage::Shrinking);
    refuses(&desk, ONE.into(), Refusal::InUse);
    refuses(&desk, 0, Refusal::BadNumber);
    let judged = |desk: &Desk, refusal: Refusal| {
        for session in sessions {
            refuses(desk, session, refusal);
        }
    };
    desk.mail[MAIL_COUNT][0] = 17;
    judged(&desk, Refusal::BadMail);
    desk.table[session_at(5)][STAGE] = 7;
    judged(&desk, Refusal::BadTable);
    desk.mail.push(0);
    judged(&desk, Refusal::BadSize);
    let mut desk = done(Stage::Shrinking);
    desk.table[ranks_at(RANKS.len(), ITEMS.into())][0] = 2;
    judged(&desk, Refusal::BadTable);
    desk.table.pop();
    judged(&desk, Refusal::BadSize);
    desk.table.clear();
    judged(&desk, Refusal::BadSize);
}

/// A session takes an item, gives it up and is reopened, as soon as its release
/// has come to the item.
#[test]
fn used_again() {
    let mut desk = Desk::new(2, 1, 4);
    let fresh = desk.clone();
    for _ in 0..100 {
        desk.sends(REQUEST, 2, 1, 1);
        in_use(&desk);
        desk.sends(TO_ITEM, 2, 1, 1);
        desk.sends(TO_SESSION, 2, 1, 0);
        in_use(&desk);
        desk.sends(RELEASE, 2, 1, 1);
        // Its release is in the mail, and the item still names it.
        in_use(&desk);
        desk.sends(TO_ITEM, 2, 1, 0);
        desk.refuses(REQUEST, 2, 1, Refusal::WrongStage);
        assert_eq!(desk.reopen(2), ACCEPTED);
        desk.refuses(RELEASE, 2, 1, Refusal::WrongItem);
        assert_eq!(desk, fresh);
    }
}

fn bytes(desk: &Desk) -> (&[u8], &[u8]) {
    (&desk.table, &desk.mail)
}

/// Steps, then all mail delivered, with the check of demand 3.
fn settles(desk: &mut Desk, demand3: &mut Demand3, steps: &[(u64, u64, u64)]) {
    for &(verb, session, item) in steps {
        let before = desk.clone();
        let answer = desk.step(verb, session, item);
        assert_eq!(answer.refusal, ACCEPTED);
        demand3
            .after_step(answer, bytes(&before), bytes(desk))
            .unwrap();
    }
    let before = desk.clone();
    let drained = desk.drain(u64::MAX);
    demand3
        .after_drain(&RULES, u64::MAX, drained, bytes(&before), bytes(desk))
        .unwrap();
}

/// Two sessions run into a deadlock, again and again: each time one of them
/// reaches stage 6 and is counted.
#[test]
fn rolled_back_again() {
    for (ranks, victim) in [([1, 2], 2), ([2, 1], 1)] {
        let mut desk = Desk::started(&Config::plain(2, 2, 16).with_ranks(&ranks));
        let (fresh, mut demand3) = (desk.clone(), Demand3::default());
        for round in 1..=50 {
            settles(&mut desk, &mut demand3, &[(REQUEST, 1, 1), (REQUEST, 2, 2)]);
            settles(&mut desk, &mut demand3, &[(REQUEST, 1, 2), (REQUEST, 2, 1)]);
            let records = Table::decode(&desk.table).unwrap();
            assert_eq!(records.session(victim).stage, Stage::RolledBack);
            let other = u64::from(3 - victim);
            let both = [(RELEASE, other, 1), (RELEASE, other, 2)];
            settles(&mut desk, &mut demand3, &both);
            for session in [1, 2] {
                let before = desk.clone();
                let refusal = desk.reopen(session);
                assert_eq!(refusal, ACCEPTED);
                demand3
                    .after_reopen(refusal, bytes(&before), bytes(&desk))
                    .unwrap();
            }
            assert_eq!(desk, fresh);
            let Demand3 {
                closed,
                rolled_back,
                reopened,
                ..
            } = demand3;
            assert_eq!((closed, rolled_back, reopened), (round, round, 2 * round));
        }
    }
}

#[test]
fn the_check_can_fail() {
    let before = done(Stage::RolledBack);
    let mut after = before.clone();
    let refusal = after.reopen(OWN.into());
    let check = |refusal, before: &Desk, after: &Desk| {
        Demand3::default().after_reopen(refusal, bytes(before), bytes(after))
    };
    let reason = |refusal, before, after| check(refusal, before, after).unwrap_err();
    assert_eq!(check(refusal, &before, &after), Ok(()));
    assert_eq!(check(Refusal::InUse as u8, &before, &before), Ok(()));
    let in_use = Refusal::InUse as u8;
    assert!(reason(in_use, &before, &after).contains("changed a buffer"));
    let bad_mail = Refusal::BadMail as u8;
    assert!(reason(bad_mail, &before, &before).contains("after an accepted start"));
    let mut emptied = after.clone();
    emptied.mail = Desk::new(5, 4, 16).mail;
    assert!(reason(ACCEPTED, &before, &emptied).contains("changed the mail"));
    let mut broken = after.clone();
    broken.table[session_at(OWN.into())][STAGE] = 0;
    assert!(reason(ACCEPTED, &before, &broken).contains("not well-formed"));
    // A session that reaches stage 6 is counted, whichever call brings it there.
    let fresh = Desk::new(1, 1, 1);
    let rolled_back = fresh.forged(|table| table.session_mut(1).stage = Stage::RolledBack);
    assert!(reason(ACCEPTED, &fresh, &rolled_back).contains("1 sessions rolled back"));
    assert_eq!(check(ACCEPTED, &rolled_back, &fresh), Ok(()));
}

/// Accepted steps on a lock manager of which a session was reopened, in all runs.
const STEPS: u64 = 2_000_000;

/// One run in ten is long: there a session is used again thousands of times.
fn steps(seed: u64) -> u64 {
    if seed.is_multiple_of(10) {
        100_000
    } else {
        5_000
    }
}

#[test]
fn demand_3_holds_after_every_step() {
    let mut total = Counts::default();
    for seed in 0.. {
        match run_reopening(seed, BY_RULES, steps(seed)) {
            Ok(counts) => total.add(counts),
            Err(reason) => panic!("seed {seed}: {reason}"),
        }
        if total.after_reopening >= STEPS {
            break;
        }
    }
    println!("{total:#?}");
    assert!(total.demand3.reopened > 100_000);
    assert!(total.reopened_beside_mail > 50_000);
    assert!(total.in_use > 50_000);
    assert!(total.most_reopened > 2_000);
    assert!(total.demand3.closed > 20_000);
    assert!(total.demand3.rolled_back > 20_000);
    assert!(total.demand3.declared_by_rank > 10_000);
    assert!(total.demand3.empty > 100_000);
}
