//! Well-formed records that no list of steps reaches follow the rules to the
//! letter.

use model::item::Item;
use model::layout::{
    body_at, mail_length, route_at, table_length, MAIL_COUNT, MAX_SESSIONS, TABLE_HEADER,
};
use model::mailbox::{Body, Direction, Mailbox, Message, Route};
use model::scenario::Random;
use model::session::{Session, Stage};
use model::table::Table;
use model::waits::{cycle_members, standing_cycles, waits_for};
use model::{reopen, report, start, step, Config, Ranks, Refusal, Verb};

fn item(holder: u8, queue: &[u8]) -> Item {
    Item {
        holder,
        queue: queue.to_vec(),
    }
}

fn probe(initiator: u8, junior: u8) -> Body {
    Body::Probe { initiator, junior }
}

const CLEAN: Body = Body::Clean {
    victim: 3,
    initiator: 1,
};

/// One delivery to an item: the record after it, the messages, the declaration.
#[track_caller]
fn item_does(
    before: Item,
    from: u8,
    body: Body,
    after: Item,
    sends: &[(u8, Body)],
    declared: Option<(u8, u8)>,
) {
    let ranks = Ranks::plain(MAX_SESSIONS);
    let outcome = before.receive(from, body, &ranks);
    assert_eq!(outcome.item, after);
    assert_eq!(outcome.sends, sends);
    assert_eq!(outcome.declared, declared);
}

#[track_caller]
fn item_drops(before: Item, from: u8, body: Body) {
    item_does(before.clone(), from, body, before, &[], None);
}

#[test]
fn item_request() {
    item_drops(item(1, &[]), 1, Body::Request);
    item_drops(item(1, &[2]), 2, Body::Request);
    item_drops(item(0, &[2]), 2, Body::Request);
    let grant = [(3, Body::Grant)];
    item_does(item(0, &[2]), 3, Body::Request, item(3, &[2]), &grant, None);
    item_does(item(2, &[]), 3, Body::Request, item(2, &[3]), &[], None);
    let sends = [(2, probe(1, 2))];
    item_does(
        item(2, &[3]),
        1,
        Body::Request,
        item(2, &[3, 1]),
        &sends,
        None,
    );
}

#[test]
fn item_release() {
    item_drops(item(2, &[1]), 1, Body::Release);
    item_drops(item(0, &[1]), 1, Body::Release);
    item_does(item(2, &[]), 2, Body::Release, item(0, &[]), &[], None);
    // The most senior is next wherever it stands, and the others keep their
    // order. None of them is senior to it, so that no probe is sent.
    for (queue, left) in [
        (&[2, 5, 3], &[5, 3]),
        (&[5, 2, 3], &[5, 3]),
        (&[5, 3, 2], &[5, 3]),
        (&[3, 2, 5], &[3, 5]),
    ] {
        for holder in [1, 4, 6] {
            let sends = [
                (2, Body::Grant),
                (left[0], Body::Resend),
                (left[1], Body::Resend),
            ];
            let before = item(holder, queue);
            item_does(before, holder, Body::Release, item(2, left), &sends, None);
        }
    }
}

/// The longest queues: 63 sessions beside a holder, 64 without one.
#[test]
fn item_release_with_a_long_queue() {
    let all: Vec<u8> = (1..=MAX_SESSIONS as u8).collect();
    let backwards: Vec<u8> = all.iter().rev().copied().collect();
    for everyone in [all, backwards] {
        // Holder 0 is nobody: a release from any session is dropped.
        for &from in &everyone {
            item_drops(item(0, &everyone), from, Body::Release);
        }
        for &holder in &everyone {
            let mut queue = everyone.clone();
            queue.retain(|&waiting| waiting != holder);
            let next = if holder == 1 { 2 } else { 1 };
            let mut left = queue.clone();
            left.retain(|&waiting| waiting != next);
            let mut sends = vec![(next, Body::Grant)];
            sends.extend(left.iter().map(|&waiting| (waiting, Body::Resend)));
            let (before, after) = (item(holder, &queue), item(next, &left));
            item_does(before, holder, Body::Release, after, &sends, None);
        }
    }
}

#[test]
fn item_probe() {
    item_drops(item(3, &[2]), 1, probe(1, 4)); // sender not in the queue
    item_drops(item(3, &[2]), 3, probe(1, 4)); // sender holds it by now
    item_drops(item(0, &[2]), 2, probe(1, 4)); // no holder
    item_drops(item(1, &[2]), 2, probe(2, 4)); // holder senior
    let before = item(3, &[2]);
    let passed = [(3, probe(1, 2))];
    item_does(before.clone(), 2, probe(1, 2), before, &passed, None);
    let before = item(1, &[2]);
    let abort = Body::Abort {
        victim: 4,
        initiator: 1,
    };
    let sends = [(4, abort)];
    item_does(before.clone(), 2, probe(1, 4), before, &sends, Some((4, 1)));
}

#[test]
fn item_clean_and_rebroadcast() {
    item_drops(item(0, &[1, 2]), 1, CLEAN);
    item_drops(item(0, &[1, 2]), 1, Body::Rebroadcast);
    // The sender is probed for but not asked to resend.
    let before = item(3, &[4, 2, 1]);
    let sends = [
        (3, CLEAN),
        (3, probe(2, 3)),
        (3, probe(1, 3)),
        (4, Body::Resend),
        (1, Body::Resend),
    ];
    item_does(before.clone(), 2, CLEAN, before.clone(), &sends, None);
    // A sender outside the queue changes nothing else.
    let sends = [(3, CLEAN), (3, probe(1, 3)), (1, Body::Resend)];
    item_does(item(3, &[1]), 4, CLEAN, item(3, &[1]), &sends, None);
    let sends = [
        (3, probe(2, 3)),
        (3, probe(1, 3)),
        (4, Body::Resend),
        (2, Body::Resend),
        (1, Body::Resend),
    ];
    for from in 1..=5 {
        item_does(
            before.clone(),
            from,
            Body::Rebroadcast,
            before.clone(),
            &sends,
            None,
        );
    }
}

#[test]
fn item_withdraw() {
    let sends = [(2, Body::Withdrawn)];
    let after = item(3, &[1, 4]);
    item_does(item(3, &[1, 2, 4]), 2, Body::Withdraw, after, &sends, None);
    item_does(
        item(2, &[1]),
        2,
        Body::Withdraw,
        item(2, &[1]),
        &sends,
        None,
    );
    item_does(item(0, &[]), 2, Body::Withdraw, item(0, &[]), &sends, None);
}

/// A session with the stored probes (1, 4) and (3, 3), holding items 1, 3, 64.
fn session(stage: Stage, awaited: u8) -> Session {
    let mut session = Session::fresh();
    session.stage = stage;
    session.awaited = awaited;
    session.held = 1 | 1 << 2 | 1 << 63;
    session.juniors[0] = 4;
    session.juniors[2] = 3;
    session
}

/// All stages, with the awaited item that they have.
fn all_stages() -> [Session; 6] {
    [
        session(Stage::Growing, 0),
        session(Stage::Waiting, 2),
        session(Stage::Shrinking, 0),
        session(Stage::Cleaning, 2),
        session(Stage::Withdrawing, 2),
        session(Stage::RolledBack, 0),
    ]
}

/// One delivery to session 3: what it changes and sends.
#[track_caller]
fn session_does(
    before: Session,
    from: u8,
    body: Body,
    change: impl Fn(&mut Session),
    sends: &[(u8, Body)],
) {
    let mut expected = before.clone();
    change(&mut expected);
    let ranks = Ranks::plain(MAX_SESSIONS);
    let outcome = before.receive(3, from, body, &ranks);
    assert_eq!(outcome.session, expected);
    assert_eq!(outcome.sends, sends);
}

/// Dropped in every stage but those given.
#[track_caller]
fn session_drops_but(stages: &[Stage], from: u8, body: Body) {
    for before in all_stages() {
        if !stages.contains(&before.stage) {
            session_does(before, from, body, |_| {}, &[]);
        }
    }
}

#[test]
fn session_grant_and_resend() {
    session_drops_but(&[Stage::Waiting], 2, Body::Grant);
    session_drops_but(&[], 5, Body::Grant);
    let waiting = session(Stage::Waiting, 2);
    let granted = |s: &mut Session| {
        s.stage = Stage::Growing;
        s.awaited = 0;
        s.held |= 1 << 1;
    };
    session_does(waiting.clone(), 2, Body::Grant, granted, &[]);

    session_drops_but(&[Stage::Waiting], 2, Body::Resend);
    session_drops_but(&[], 5, Body::Resend);
    let sends = [(2, probe(1, 4)), (2, probe(3, 3))];
    session_does(waiting, 2, Body::Resend, |_| {}, &sends);
}

#[test]
fn session_probe() {
    session_drops_but(&[Stage::Growing, Stage::Waiting], 5, probe(2, 4));
    session_drops_but(&[], 5, probe(1, 4)); // as stored
    session_drops_but(&[], 5, probe(1, 2)); // senior to the stored one
    session_drops_but(&[], 5, probe(3, 1)); // no more junior than the session
    for (stage, awaited) in [(Stage::Growing, 0), (Stage::Waiting, 2)] {
        let before = session(stage, awaited);
        let forwards = |initiator, junior| match stage {
            Stage::Waiting => vec![(2, probe(initiator, junior))],
            _ => Vec::new(),
        };
        // None stored; the junior is at least the session itself.
        let stores = |s: &mut Session| s.juniors[1] = 3;
        session_does(before.clone(), 5, probe(2, 1), stores, &forwards(2, 3));
        // Junior to the stored one.
        let stores = |s: &mut Session| s.juniors[0] = 5;
        session_does(before.clone(), 2, probe(1, 5), stores, &forwards(1, 5));
        // Of the session's own number.
        let stores = |s: &mut Session| s.juniors[2] = 6;
        session_does(before, 2, probe(3, 6), stores, &forwards(3, 6));
    }
}

#[test]
fn session_abort() {
    let abort = Body::Abort {
        victim: 3,
        initiator: 1,
    };
    session_drops_but(&[Stage::Waiting], 5, abort);
    let aborted = |s: &mut Session| {
        s.stage = Stage::Cleaning;
        s.juniors = [0; MAX_SESSIONS];
    };
    session_does(session(Stage::Waiting, 2), 5, abort, aborted, &[(2, CLEAN)]);
}

#[test]
fn session_clean() {
    let other = Body::Clean {
        victim: 4,
        initiator: 1,
    };
    let both = [Stage::Growing, Stage::Waiting];
    session_drops_but(&[both[0], both[1], Stage::Cleaning], 5, CLEAN);
    session_drops_but(&both, 5, other);
    let cleared = |s: &mut Session| s.juniors = [0; MAX_SESSIONS];
    for body in [CLEAN, other] {
        let growing = session(Stage::Growing, 0);
        let from_1 = [(3, Body::Rebroadcast), (64, Body::Rebroadcast)];
        session_does(growing, 1, body, cleared, &from_1);
        let waiting = session(Stage::Waiting, 2);
        let from_5 = [
            (1, Body::Rebroadcast),
            (3, Body::Rebroadcast),
            (64, Body::Rebroadcast),
            (2, body),
        ];
        session_does(waiting, 5, body, cleared, &from_5);
    }
    let withdraws = |s: &mut Session| s.stage = Stage::Withdrawing;
    let sends = [(2, Body::Withdraw)];
    session_does(session(Stage::Cleaning, 2), 5, CLEAN, withdraws, &sends);
}

#[test]
fn session_withdrawn() {
    session_drops_but(&[Stage::Withdrawing], 5, Body::Withdrawn);
    let ends = |s: &mut Session| {
        s.stage = Stage::RolledBack;
        s.awaited = 0;
        s.held = 0;
    };
    let sends = [(1, Body::Release), (3, Body::Release), (64, Body::Release)];
    let withdrawing = session(Stage::Withdrawing, 2);
    session_does(withdrawing, 5, Body::Withdrawn, ends, &sends);
}

#[test]
fn session_may_be_reopened() {
    for before in all_stages() {
        let (stage, mut nothing_held) = (before.stage, before.clone());
        nothing_held.held = 0;
        assert_eq!(before.may_reopen(), stage == Stage::RolledBack);
        let done = matches!(stage, Stage::Shrinking | Stage::RolledBack);
        assert_eq!(nothing_held.may_reopen(), done);
    }
}

#[test]
fn waits_are_read_from_queues_and_holders() {
    let mut table = Table::fresh(Ranks::plain(5), 4);
    table.items[0] = item(0, &[1, 5]); // no holder: no wait
    table.items[1] = item(2, &[1]);
    table.items[2] = item(1, &[2, 3]);
    table.items[3] = item(3, &[1, 4]);
    // 1 stands in two queues of held items: the lower-numbered counts.
    let waits: Vec<_> = (1..=5).map(|s| waits_for(&table, s)).collect();
    assert_eq!(waits, [Some(2), Some(1), Some(1), Some(3), None]);
    assert_eq!(cycle_members(&table, 1), [1, 2]);
    assert_eq!(cycle_members(&table, 2), [2, 1]);
    // 3 and 4 lead into the cycle without lying on it.
    assert_eq!(cycle_members(&table, 3), []);
    assert_eq!(cycle_members(&table, 4), []);
    assert_eq!(standing_cycles(&table), 1);
    table.items[0] = item(3, &[5]);
    table.items[2] = item(1, &[2]);
    table.items[3] = item(5, &[3]);
    assert_eq!(cycle_members(&table, 5), [5, 3]);
    assert_eq!(standing_cycles(&table), 2);
}

/// The closed field comes from the delivery that puts T in a queue, on forged
/// tables too.
#[test]
fn closed_comes_from_joining_a_queue() {
    let build = |queue: &[u8], body: Body| {
        let mut records = Table::fresh(Ranks::plain(2), 2);
        records.items[0] = item(1, queue);
        records.items[1] = item(2, &[1]);
        let mut table = vec![0; table_length(2, 2)];
        records.encode(&mut table);
        let mut mailbox = Mailbox::empty(4);
        let route = Route {
            direction: Direction::ToItem,
            session: 2,
            item: 1,
        };
        mailbox.messages.push(Message { route, body });
        let mut mail = vec![0; mail_length(4)];
        mailbox.encode(&mut mail);
        let verb = Verb::DeliverToItem as u64;
        (step(verb, 2, 1, &mut table, &mut mail), table)
    };
    let (answer, table) = build(&[], Body::Request);
    assert_eq!((answer.closed, answer.sent), (1, 0));
    assert_eq!(report(2, &table).length, 2);
    // Already in the queue: dropped, though the cycle stands.
    let (answer, table) = build(&[2], Body::Request);
    assert_eq!((answer.closed, answer.sent), (0, 0));
    assert_eq!(report(2, &table).length, 2);
    let (answer, _) = build(&[2], Body::Rebroadcast);
    assert_eq!((answer.closed, answer.sent), (0, 1));
}

/// Buffers with random bytes in them: refused with 3 or 4 exactly if they do
/// not decode, and otherwise encoded to the same bytes again.
#[test]
fn decoding_keeps_every_byte() {
    let mut random = Random::new(1);
    let (mut well_formed, mut table_bad, mut mail_bad) = (0, 0, 0);
    for _ in 0..200_000 {
        let sessions = random.between(1, 4) as usize;
        let items = random.between(1, 4) as usize;
        let capacity = random.between(1, 4) as usize;
        let mut table = vec![0; table_length(sessions, items)];
        let mut mail = vec![0; mail_length(capacity)];
        let ranks = random.order(sessions as u64);
        let config = Config::plain(sessions as u64, items as u64, capacity as u64);
        start(&config.with_ranks(&ranks), &mut table, &mut mail);
        // A few bytes behind the sizes and the capacity.
        for _ in 0..random.between(0, 4) {
            let place = random.between(TABLE_HEADER as u64, table.len() as u64 - 1) as usize;
            table[place] = random.between(0, 6) as u8;
        }
        let used = random.between(0, capacity as u64) as usize;
        mail[MAIL_COUNT][0] = used as u8;
        for place in 0..used {
            let route: [u64; 3] = [
                random.between(1, 2),
                random.between(1, 4),
                random.between(1, 4),
            ];
            let body = match random.between(1, 10) {
                kind @ (3 | 4 | 9) => [kind, random.between(1, 4), random.between(1, 4)],
                kind => [kind, 0, 0],
            };
            mail[route_at(place)].copy_from_slice(&route.map(|byte| byte as u8));
            mail[body_at(capacity, place)].copy_from_slice(&body.map(|byte| byte as u8));
        }
        let records = Table::decode(&table);
        let mailbox = Mailbox::decode(&mail, sessions, items);
        // Session 0 is refused with 5 if nothing comes before it.
        let refusal = step(Verb::Request as u64, 0, 1, &mut table, &mut mail).refusal;
        assert_eq!(reopen(0, &mut table, &mail), refusal);
        match (records, mailbox) {
            (None, _) => {
                assert_eq!(refusal, Refusal::BadTable as u8);
                table_bad += 1;
            }
            (_, None) => {
                assert_eq!(refusal, Refusal::BadMail as u8);
                mail_bad += 1;
            }
            (Some(records), Some(mailbox)) => {
                assert_eq!(refusal, Refusal::BadNumber as u8);
                let mut bytes = vec![0xA5; table.len()];
                bytes[..2].copy_from_slice(&table[..2]);
                records.encode(&mut bytes);
                assert_eq!(bytes, table);
                let mut bytes = vec![0xA5; mail.len()];
                mailbox.encode(&mut bytes);
                assert_eq!(bytes, mail);
                well_formed += 1;
            }
        }
    }
    println!("{well_formed} well-formed, {table_bad} bad tables, {mail_bad} bad mails");
    assert!(well_formed > 10_000 && table_bad > 10_000 && mail_bad > 10_000);
}
