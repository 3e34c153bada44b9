//! F-6: seniority by rank, in every rule, in the check of demand 3 and in the
//! text; and the ranks that a start and a table can have.

mod desk;

use desk::{Desk, RELEASE, REQUEST, TO_ITEM, TO_SESSION};
use model::calls::deliver;
use model::demand3::Demand3;
use model::item::Item;
use model::layout::{ranks_at, session_at, MAIL_COUNT, STAGE};
use model::mailbox::{count, Body};
use model::scenario::Random;
use model::session::{Session, Stage};
use model::table::Table;
use model::{cycle_text, report, start, Config, Ranks, Refusal, ACCEPTED, RULES};

/// The ranks of three sessions, in every order.
const ORDERS: [[u8; 3]; 6] = [
    [1, 2, 3],
    [1, 3, 2],
    [2, 1, 3],
    [2, 3, 1],
    [3, 1, 2],
    [3, 2, 1],
];

fn ranks(list: &[u8]) -> Ranks {
    Ranks::decode(list).unwrap()
}

/// The session of a rank.
fn of_rank(list: &[u8], rank: u8) -> u8 {
    let place = list.iter().position(|&other| other == rank);
    place.unwrap() as u8 + 1
}

/// Each of three sessions holds the item of its number and has asked for the
/// next one.
fn deadlock(list: [u8; 3]) -> Desk {
    let mut desk = Desk::started(&Config::plain(3, 3, 64).with_ranks(&list));
    for session in 1..=3 {
        desk.sends(REQUEST, session, session, 1);
    }
    desk.drain(u64::MAX);
    for session in 1..=3 {
        desk.sends(REQUEST, session, session % 3 + 1, 1);
    }
    desk
}

/// Delivers all mail in any order, with the check of demand 3 after every step;
/// the victims and initiators that were declared.
fn settle(desk: &mut Desk, random: &mut Random) -> (Demand3, Vec<(u8, u8)>) {
    let (mut demand3, mut declared) = (Demand3::default(), Vec::new());
    while count(&desk.mail) != 0 {
        let before = desk.clone();
        let place = random.between(0, count(&desk.mail) as u64 - 1) as usize;
        let Desk { table, mail } = desk;
        let answer = deliver(&RULES, place, table, mail).unwrap();
        demand3
            .after_step(answer, (&before.table, &before.mail), (table, mail))
            .unwrap();
        if answer.victim != 0 {
            declared.push((answer.victim, answer.initiator));
        }
    }
    (demand3, declared)
}

#[test]
fn a_deadlock_in_every_order() {
    let mut random = Random::new(1);
    for list in ORDERS {
        let (victim, initiator) = (of_rank(&list, 3), of_rank(&list, 1));
        for _ in 0..100 {
            let mut desk = deadlock(list);
            let (demand3, declared) = settle(&mut desk, &mut random);
            assert_eq!((demand3.closed, demand3.rolled_back), (1, 1));
            assert!(!declared.is_empty());
            for names in declared {
                assert_eq!(names, (victim, initiator));
            }
            // By number the victim is session 3.
            assert_eq!(demand3.declared_by_rank > 0, victim != 3);
            let records = Table::decode(&desk.table).unwrap();
            for session in 1..=3 {
                let rolled_back = records.session(session).stage == Stage::RolledBack;
                assert_eq!(rolled_back, session == victim);
            }
            assert_eq!(desk.table[ranks_at(3, 3)], list);
        }
    }
}

#[test]
fn the_text_begins_with_the_most_senior() {
    for list in ORDERS {
        let mut desk = deadlock(list);
        for session in 1..=3 {
            desk.step(TO_ITEM, session, session % 3 + 1);
        }
        let first = of_rank(&list, 1);
        let next = first % 3 + 1;
        let line = format!("session {first} waits for item {next} held by session {next}\n");
        for session in 1..=3 {
            let mut text = [0; 200];
            assert_eq!(
                cycle_text(session, &desk.table, &mut text).refusal,
                ACCEPTED
            );
            assert!(text.starts_with(line.as_bytes()));
        }
    }
}

#[test]
fn a_freed_item_goes_to_the_most_senior() {
    for list in ORDERS {
        let four = [&list[..], &[4]].concat();
        let config = Config::plain(4, 1, 8).with_ranks(&four);
        let mut desk = Desk::started(&config).forged(|table| {
            table.sessions[3].held = 1;
            table.items[0] = Item {
                holder: 4,
                queue: vec![1, 2, 3],
            };
        });
        desk.sends(RELEASE, 4, 1, 1);
        desk.sends(TO_ITEM, 4, 1, 3);
        let holder = of_rank(&list, 1);
        let queue = (1..=3).filter(|&session| session != holder).collect();
        let records = Table::decode(&desk.table).unwrap();
        assert_eq!(records.items[0], Item { holder, queue });
    }
}

/// Sessions 1 to 5 from the most junior on to the most senior, session 6 behind
/// them all.
const BACKWARDS: [u8; 6] = [5, 4, 3, 2, 1, 6];

fn probe(initiator: u8, junior: u8) -> Body {
    Body::Probe { initiator, junior }
}

#[test]
fn an_item_goes_by_rank() {
    let item = |holder, queue: &[u8]| Item {
        holder,
        queue: queue.to_vec(),
    };
    let receive = |before: Item, from, body| {
        let outcome = before.receive(from, body, &ranks(&BACKWARDS));
        (outcome.item, outcome.sends, outcome.declared)
    };
    let grant = |session| (session, Body::Grant);
    let resend = |session| (session, Body::Resend);
    // A request by a session that is senior to the holder, and by one that is not.
    let (_, sends, _) = receive(item(2, &[]), 3, Body::Request);
    assert_eq!(sends, [(2, probe(3, 2))]);
    let (_, sends, _) = receive(item(2, &[]), 1, Body::Request);
    assert_eq!(sends, []);
    // The next holder; the others keep their order.
    let (after, sends, _) = receive(item(5, &[6, 1, 4, 2, 3]), 5, Body::Release);
    assert_eq!(after, item(4, &[6, 1, 2, 3]));
    assert_eq!(
        sends,
        [grant(4), resend(6), resend(1), resend(2), resend(3)]
    );
    // A probe is dropped, passed on and declared.
    let before = item(3, &[6]);
    let (_, sends, _) = receive(before.clone(), 6, probe(2, 6));
    assert_eq!(sends, []);
    let (_, sends, _) = receive(before.clone(), 6, probe(4, 6));
    assert_eq!(sends, [(3, probe(4, 6))]);
    let (_, _, declared) = receive(before, 6, probe(3, 6));
    assert_eq!(declared, Some((6, 3)));
    // Probes of those senior to the holder, in the order of the queue.
    let (_, sends, _) = receive(item(3, &[4, 1, 5, 2]), 6, Body::Rebroadcast);
    assert_eq!(sends[..2], [(3, probe(4, 3)), (3, probe(5, 3))]);
    assert_eq!(sends[2..], [4, 1, 5, 2].map(resend));
}

#[test]
fn a_session_goes_by_rank() {
    let waiting = |stored: &[(usize, u8)]| {
        let mut session = Session::fresh();
        session.stage = Stage::Waiting;
        session.awaited = 1;
        for &(initiator, junior) in stored {
            session.juniors[initiator - 1] = junior;
        }
        session
    };
    let sends = |before: Session, own, body| {
        let ranks = ranks(&BACKWARDS);
        before.receive(own, 1, body, &ranks).sends
    };
    // The more junior of the probe's junior and the session.
    assert_eq!(sends(waiting(&[]), 2, probe(4, 3)), [(1, probe(4, 2))]);
    assert_eq!(sends(waiting(&[]), 3, probe(4, 2)), [(1, probe(4, 2))]);
    // News if it is junior to the stored one.
    assert_eq!(
        sends(waiting(&[(4, 3)]), 2, probe(4, 5)),
        [(1, probe(4, 2))]
    );
    assert_eq!(sends(waiting(&[(4, 2)]), 3, probe(4, 5)), []);
    // Stored probes by rising initiator, not by rank.
    let stored = waiting(&[(2, 1), (5, 3), (6, 6)]);
    let expected = [(1, probe(2, 1)), (1, probe(5, 3)), (1, probe(6, 6))];
    assert_eq!(sends(stored, 3, Body::Resend), expected);
}

/// Lists for three sessions, and what a start of the right size answers.
const LISTS: [(&[u8], u8); 16] = [
    (&[2, 3, 1], ACCEPTED),
    (&[], Refusal::BadSize as u8),
    (&[1, 2], Refusal::BadSize as u8),
    (&[1, 1], Refusal::BadSize as u8),
    (&[1, 2, 3, 4], Refusal::BadSize as u8),
    (&[3, 2, 1, 0], Refusal::BadSize as u8),
    (&[9; 300], Refusal::BadSize as u8),
    (&[1, 1, 2], Refusal::BadRanks as u8),
    (&[3, 2, 3], Refusal::BadRanks as u8),
    (&[2, 2, 2], Refusal::BadRanks as u8),
    (&[0, 1, 2], Refusal::BadRanks as u8),
    (&[3, 1, 0], Refusal::BadRanks as u8),
    (&[4, 3, 2], Refusal::BadRanks as u8),
    (&[1, 2, 4], Refusal::BadRanks as u8),
    (&[1, 255, 2], Refusal::BadRanks as u8),
    (&[0, 4, 4], Refusal::BadRanks as u8),
];

/// Three sessions and two items.
const THREE: Config = Config::plain(3, 2, 4);

/// A start on buffers for three sessions, with so many bytes too many; a refused
/// one leaves both as they were.
fn started(config: &Config, more_table: usize, more_mail: usize) -> (u8, Desk) {
    let before = Desk {
        table: vec![0xA5; THREE.table_length() + more_table],
        mail: vec![0xA5; THREE.mail_length() + more_mail],
    };
    let mut after = before.clone();
    let refusal = start(config, &mut after.table, &mut after.mail);
    assert_eq!(after == before, refusal != ACCEPTED);
    (refusal, after)
}

#[test]
fn start_judges_the_list_last() {
    for (list, refusal) in LISTS {
        let config = THREE.with_ranks(list);
        assert_eq!(started(&config, 0, 0).0, refusal, "{list:?}");
        // Another wrong size comes before the list.
        for (capacity, more_table, more_mail) in [(4, 1, 0), (4, 0, 1), (0, 0, 0), (5, 0, 0)] {
            let config = Config { capacity, ..config };
            let (refusal, _) = started(&config, more_table, more_mail);
            assert_eq!(refusal, Refusal::BadSize as u8, "{list:?}");
        }
    }
    let (_, desk) = started(&THREE.with_ranks(&[2, 3, 1]), 0, 0);
    let mut plain = Desk::new(3, 2, 4);
    plain.table[ranks_at(3, 2)].copy_from_slice(&[2, 3, 1]);
    assert_eq!(desk, plain);
}

/// In a lent table a bad list is a case of 3 in every call, after 2 and before 4
/// and 5.
#[test]
fn bad_ranks_in_a_table() {
    for (list, _) in LISTS.into_iter().filter(|(list, _)| list.len() == 3) {
        let mut desk = Desk::new(3, 2, 4);
        desk.table[ranks_at(3, 2)].copy_from_slice(list);
        let good = Ranks::decode(list).is_some();
        let refusal = |good_one| if good { good_one } else { Refusal::BadTable };
        desk.refuses(TO_SESSION, 1, 1, refusal(Refusal::NoMessage));
        desk.refuses(TO_SESSION, 0, 1, refusal(Refusal::BadNumber));
        let numbered = refusal(Refusal::BadNumber) as u8;
        assert_eq!(report(0, &desk.table).refusal, numbered);
        assert_eq!(cycle_text(0, &desk.table, &mut []).refusal, numbered);
        let drained = desk.clone().drain(1).refusal;
        assert_eq!(drained, if good { ACCEPTED } else { numbered });
        desk.mail[MAIL_COUNT][0] = 9;
        desk.refuses(TO_SESSION, 0, 1, refusal(Refusal::BadMail));
        desk.mail.push(0);
        desk.refuses(TO_SESSION, 0, 1, Refusal::BadSize);
    }
    // Beside a record that is not well-formed too.
    let mut desk = Desk::new(3, 2, 4);
    desk.table[session_at(1)][STAGE] = 0;
    desk.table[ranks_at(3, 2)].fill(0);
    desk.refuses(REQUEST, 1, 1, Refusal::BadTable);
}
