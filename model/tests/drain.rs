//! F-2: the drain beside its single steps, its endings, and its bound.

mod desk;

use desk::{Desk, RELEASE, REQUEST, TO_ITEM, TO_SESSION};
use model::demand3::{drain_bound, Demand3};
use model::item::Item;
use model::layout::{MAX_CAPACITY, MAX_ITEMS, MAX_SESSIONS};
use model::mailbox::{count, Body, Direction, Mailbox, Message, Route};
use model::scenario::Random;
use model::session::Stage;
use model::table::Table;
use model::{Answer, Drained, Ending, Refusal, ACCEPTED, RULES};

fn drained(made: u64, ending: Ending) -> Drained {
    Drained {
        refusal: ACCEPTED,
        made,
        ending: ending as u8,
    }
}

fn mailbox(desk: &Desk) -> Mailbox {
    let (sessions, items) = Table::size(&desk.table).unwrap();
    Mailbox::decode(&desk.mail, sessions, items).unwrap()
}

/// The step on the oldest message; what it answers.
fn oldest_step(desk: &mut Desk) -> Answer {
    let Route {
        direction,
        session,
        item,
    } = mailbox(desk).messages[0].route;
    let verb = match direction {
        Direction::ToItem => TO_ITEM,
        Direction::ToSession => TO_SESSION,
    };
    desk.step(verb, session.into(), item.into())
}

/// The same buffers with one more message, from a session to an item.
fn with_message(mut desk: Desk, session: u8, item: u8, body: Body) -> Desk {
    let mut mailbox = mailbox(&desk);
    let direction = Direction::ToItem;
    let route = Route {
        direction,
        session,
        item,
    };
    mailbox.messages.push(Message { route, body });
    mailbox.encode(&mut desk.mail);
    desk
}

/// Two requests that bring two grants.
fn four_deliveries() -> Desk {
    let mut desk = Desk::new(2, 2, 8);
    desk.sends(REQUEST, 1, 1, 1);
    desk.sends(REQUEST, 2, 2, 1);
    desk
}

/// Each of two sessions has asked for the item that the other holds.
fn deadlock() -> Desk {
    let mut desk = four_deliveries();
    assert_eq!(desk.drain(u64::MAX), drained(4, Ending::Empty));
    desk.sends(REQUEST, 1, 2, 1);
    desk.sends(REQUEST, 2, 1, 1);
    desk
}

/// The mail is full: so many messages that are dropped, then a release that
/// would send 7.
fn full(dropped: u64) -> Desk {
    let holder = 8;
    let mut desk = Desk::new(holder.into(), 1, dropped + 1).forged(|table| {
        table.sessions[usize::from(holder) - 1].held = 1;
        table.items[0] = Item {
            holder,
            queue: (1..holder).collect(),
        };
    });
    for _ in 0..dropped {
        desk = with_message(desk, 1, 1, Body::Release);
    }
    desk.sends(RELEASE, holder.into(), 1, 1);
    desk
}

/// A clean that circles for ever, as often as `cleans`: each of n sessions
/// awaits an item that the next one holds, and the victim is another session.
/// With `queues` all but one of them stand in the queues, so that probes go
/// along with the clean.
fn circling(n: u8, cleans: usize, capacity: usize, queues: bool) -> Desk {
    let mut desk = Desk::new(u64::from(n) + 1, n.into(), capacity as u64).forged(|table| {
        for k in 1..=n {
            let session = table.session_mut(k);
            session.stage = Stage::Waiting;
            session.awaited = k;
            *table.item_mut(k) = Item {
                holder: k % n + 1,
                queue: if queues && k != n {
                    vec![k]
                } else {
                    Vec::new()
                },
            };
        }
    });
    let clean = Body::Clean {
        victim: n + 1,
        initiator: 1,
    };
    for k in 0..cleans {
        let session = (k % usize::from(n)) as u8 + 1;
        desk = with_message(desk, session, session, clean);
    }
    desk
}

#[test]
fn ends_with_empty_mail_or_at_the_limit() {
    for limit in 0..4 {
        let after = four_deliveries().drain(limit);
        assert_eq!(after, drained(limit, Ending::Limit));
    }
    // The last delivery allowed empties the mail: 1 comes before 3.
    for limit in [4, 5, 1 << 32, u64::MAX] {
        let after = four_deliveries().drain(limit);
        assert_eq!(after, drained(4, Ending::Empty));
    }
    let fresh = Desk::new(2, 2, 8);
    for limit in [0, 1, u64::MAX] {
        let mut desk = fresh.clone();
        assert_eq!(desk.drain(limit), drained(0, Ending::Empty));
        assert_eq!(desk, fresh);
    }
}

/// With C from 1 to 6.
#[test]
fn ends_before_a_delivery_that_does_not_fit() {
    for dropped in 0..=5 {
        for limit in 0..dropped {
            let after = full(dropped).drain(limit);
            assert_eq!(after, drained(limit, Ending::Limit));
        }
        // At the limit the next one is tried: 2 comes before 3.
        for limit in [dropped, dropped + 1, u64::MAX] {
            let mut desk = full(dropped);
            assert_eq!(desk.drain(limit), drained(dropped, Ending::Full));
            desk.refuses(TO_ITEM, 8, 1, Refusal::MailFull);
            // Only the oldest is looked at, though the one behind it would fit.
            if dropped > 0 {
                let mut desk = with_message(desk, 1, 1, Body::Release);
                assert_eq!(desk.drain(limit), drained(0, Ending::Full));
                desk.sends(TO_ITEM, 1, 1, 0);
            }
        }
    }
    // It is not the full mail that ends it.
    let mut desk = Desk::new(1, 1, 1);
    desk.sends(REQUEST, 1, 1, 1);
    assert_eq!(desk.drain(u64::MAX), drained(2, Ending::Empty));
}

#[test]
fn leaves_what_its_single_steps_leave() {
    let desks = [
        four_deliveries(),
        deadlock(),
        full(5),
        circling(1, 1, 1, false),
        circling(2, 3, 4, false),
        circling(4, 2, 9, true),
    ];
    for desk in desks {
        let mut stepped = desk.clone();
        for limit in 0..40 {
            let mut at_once = desk.clone();
            let Drained { made, .. } = at_once.drain(limit);
            assert_eq!(at_once, stepped);
            if made < limit {
                break;
            }
            // Unless it is the end.
            if count(&stepped.mail) != 0 {
                oldest_step(&mut stepped);
            }
        }
    }
}

/// The drain counts as its single steps, with their answers.
#[test]
fn demand_3_counts_its_steps() {
    for limits in [vec![u64::MAX], vec![1; 100], vec![3, 0, 5, 100]] {
        let mut desk = deadlock();
        let mut demand3 = Demand3::default();
        for limit in limits {
            let before = desk.clone();
            let drained = desk.drain(limit);
            check(&mut demand3, limit, drained, &before, &desk).unwrap();
        }
        assert_eq!(count(&desk.mail), 0);
        let Demand3 {
            closed,
            rolled_back,
            declared,
            ..
        } = demand3;
        assert_eq!((closed, rolled_back, declared), (1, 1, 1));
    }
}

fn check(
    demand3: &mut Demand3,
    limit: u64,
    drained: Drained,
    before: &Desk,
    after: &Desk,
) -> Result<(), String> {
    demand3.after_drain(
        &RULES,
        limit,
        drained,
        (&before.table, &before.mail),
        (&after.table, &after.mail),
    )
}

#[test]
fn the_check_can_fail() {
    let before = four_deliveries();
    let mut after = [0, 1, 2, 3, 4].map(|_| before.clone());
    for (limit, desk) in (0..).zip(&mut after) {
        desk.drain(limit);
    }
    let reason = |limit, drained, after| {
        check(&mut Demand3::default(), limit, drained, &before, after).unwrap_err()
    };
    let (two, four) = (&after[2], &after[4]);
    assert!(reason(4, drained(5, Ending::Empty), four).contains("above 4"));
    assert!(reason(5, drained(5, Ending::Empty), four).contains("more deliveries than it can"));
    assert!(reason(5, drained(3, Ending::Empty), four).contains("other bytes"));
    assert!(reason(4, drained(4, Ending::Limit), four).contains("ending 3, not Empty"));
    assert!(reason(2, drained(2, Ending::Empty), two).contains("ending 1, not Limit"));
    assert!(reason(3, drained(2, Ending::Limit), two).contains("after 2 of 3"));
    let refused = Drained {
        refusal: Refusal::BadMail as u8,
        ..Drained::default()
    };
    assert!(reason(2, refused, &before).contains("refused with 4"));

    let jammed = full(0);
    let reason = |made, ending| {
        let drained = drained(made, ending);
        check(&mut Demand3::default(), 1, drained, &jammed, &jammed).unwrap_err()
    };
    assert!(reason(1, Ending::Full).contains("counts a step refused with 9"));
    assert!(reason(0, Ending::Limit).contains("ending 3, not Full"));
}

/// "Forged mail can hold a clean that circles for ever, hence the limit."
#[test]
fn a_forged_clean_circles_to_any_limit() {
    for n in [1, 2, 3, 8] {
        let round = 2 * u64::from(n);
        for limit in [0, 1, 2, round - 1, round, 1_000, 10_000 * round] {
            let before = circling(n, 1, 1, false);
            let mut after = before.clone();
            assert_eq!(after.drain(limit), drained(limit, Ending::Limit));
            assert_eq!(after == before, limit % round == 0);
        }
    }
    // In a full mail too: each delivery sends one message.
    for capacity in 1..20 {
        let mut desk = circling(3, capacity, capacity, false);
        assert_eq!(desk.drain(1_000), drained(1_000, Ending::Limit));
        assert_eq!(count(&desk.mail), capacity);
    }
    // With real waits and the probes of them.
    for n in [3, 8] {
        let mut desk = circling(n, 1, 20, true);
        assert_eq!(desk.drain(10_000), drained(10_000, Ending::Limit));
    }
}

#[test]
fn the_bound_in_figures() {
    assert_eq!(drain_bound(64, 64, 4096), 148_483_661_824);
    assert_eq!(drain_bound(1, 1, 0), 28);
    assert_eq!(drain_bound(1, 1, 1), 28 + 2 * 18);
    for sessions in 1..=MAX_SESSIONS {
        for items in 1..=MAX_ITEMS {
            let bound = drain_bound(sessions, items, MAX_CAPACITY);
            assert!(bound <= 1_000_000_000_000_000);
        }
    }
}

/// From the start, at sizes up to the largest: each session takes an item, asks
/// for the next one's, which closes a cycle of them all, then for any.
#[test]
fn ends_within_the_bound() {
    let mut random = Random::new(1);
    let mut most = 0;
    for n in [1, 2, 3, 8, 20, 64] {
        let mut desk = Desk::new(n, n, MAX_CAPACITY as u64);
        let mut demand3 = Demand3::default();
        for round in 0..5 {
            for session in 1..=n {
                let item = match round {
                    0 => session,
                    1 => session % n + 1,
                    _ => random.between(1, n),
                };
                desk.step(REQUEST, session, item);
            }
            let before = desk.clone();
            let drained = desk.drain(u64::MAX);
            assert_eq!(drained.ending, Ending::Empty as u8);
            check(&mut demand3, u64::MAX, drained, &before, &desk).unwrap();
            most = most.max(drained.made);
        }
        println!("{n} sessions: {demand3:?}");
    }
    println!("most deliveries of a drain: {most}");
    assert!(most > 8_000);
}
