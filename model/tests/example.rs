//! The printed example of 01, its small cases, and every refusal.

mod desk;

use desk::{Desk, RELEASE, REQUEST, TO_ITEM, TO_SESSION};
use model::item::Item;
use model::layout::{
    body_at, item_at, mail_length, ranks_at, route_at, session_at, table_length, write_u16,
    AWAITED, BODY_SIZE, HELD, HOLDER, ITEM_SIZE, JUNIORS, MAIL_CAPACITY, MAIL_COUNT, MAIL_HEADER,
    MAX_CAPACITY, MAX_ITEMS, MAX_SESSIONS, QUEUE, QUEUE_LENGTH, ROUTE_SIZE, SESSION_SIZE, STAGE,
    TABLE_HEADER, TABLE_ITEMS, TABLE_SESSIONS,
};
use model::mailbox::{kind, Body, Direction, Mailbox, Message, Route};
use model::replay::MAX_STEPS;
use model::session::Stage;
use model::table::Table;
use model::{replay, report, start, Config, Cycle, Refusal, ACCEPTED};

const PRINTED: &str = "\
1 1 1 1 0 1 0 0 0
2 1 2 2 0 1 0 0 0
3 3 1 1 0 1 0 0 0
4 3 2 2 0 1 0 0 0
5 4 1 1 0 0 0 0 0
6 4 2 2 0 0 0 0 0
7 1 1 2 0 1 0 0 0
8 3 1 2 0 1 0 0 0
9 1 2 1 0 1 0 0 0
10 3 2 1 0 0 1 0 0
11 4 2 2 0 1 0 0 0
12 3 2 1 0 1 0 2 1
13 4 2 1 0 1 0 0 0
14 3 2 1 0 1 0 0 0
15 4 1 1 0 1 0 0 0
16 3 1 2 0 2 0 0 0
17 4 2 2 0 1 0 0 0
18 4 2 2 0 0 0 0 0
19 3 2 1 0 1 0 0 0
20 4 2 1 0 1 0 0 0
21 3 2 2 0 1 0 0 0
22 4 1 2 0 0 0 0 0
end 0 1 1 1
";

/// The input of the replay program for steps (verb, session, item).
fn input(sessions: u8, items: u8, steps: &[(u8, u8, u8)]) -> Vec<u8> {
    let mut input = vec![sessions, items];
    input.extend((steps.len() as u16).to_le_bytes());
    input.extend(steps.iter().map(|&(verb, _, _)| verb));
    input.extend(steps.iter().flat_map(|&(_, session, item)| [session, item]));
    input
}

fn replayed(input: &[u8]) -> String {
    String::from_utf8(replay(input)).unwrap()
}

/// The steps of the printed example, read from its own lines.
fn printed_steps() -> Vec<(u8, u8, u8)> {
    let lines = PRINTED.lines().filter(|line| !line.starts_with("end"));
    lines
        .map(|line| {
            let words: Vec<u8> = line.split(' ').map(|w| w.parse().unwrap()).collect();
            (words[1], words[2], words[3])
        })
        .collect()
}

#[test]
fn printed_example() {
    let steps = printed_steps();
    assert_eq!(steps.len(), 22);
    assert_eq!(replayed(&input(2, 2, &steps)), PRINTED);
}

#[test]
fn replay_without_steps() {
    assert_eq!(replayed(&[2, 2, 0, 0]), "end 0 0 0 0\n");
    assert_eq!(replayed(&[1, 64, 0, 0]), "end 0 0 0 0\n");
}

#[test]
fn replay_of_bad_input() {
    let one_step = input(2, 2, &[(1, 1, 1)]);
    assert_eq!(replayed(&one_step), "1 1 1 1 0 1 0 0 0\nend 1 0 0 0\n");
    for length in 0..one_step.len() {
        assert_eq!(replayed(&one_step[..length]), "bad\n");
    }
    assert_eq!(replayed(&[one_step.as_slice(), &[0]].concat()), "bad\n");
    for (sessions, items) in [(0, 2), (2, 0), (65, 2), (2, 65), (255, 255)] {
        assert_eq!(replayed(&input(sessions, items, &[])), "bad\n");
    }
    let longest = vec![(9, 0, 255); MAX_STEPS];
    let output = replayed(&input(64, 64, &longest));
    assert!(output.starts_with("1 9 0 255 1 0 0 0 0\n2 9 0 255 1 0 0 0 0\n"));
    assert!(output.ends_with("\n4096 9 0 255 1 0 0 0 0\nend 0 0 0 0\n"));
    let too_many = vec![(1, 1, 1); MAX_STEPS + 1];
    assert_eq!(replayed(&input(2, 2, &too_many)), "bad\n");
}

#[test]
fn start_writes_all_bytes() {
    let desk = Desk::new(3, 2, 5);
    let mut table = vec![0; table_length(3, 2)];
    table[TABLE_SESSIONS] = 3;
    table[TABLE_ITEMS] = 2;
    for session in 1..=3 {
        table[session_at(session)][STAGE] = Stage::Growing as u8;
    }
    table[ranks_at(3, 2)].copy_from_slice(&[1, 2, 3]);
    assert_eq!(desk.table, table);
    let mut mail = vec![0; mail_length(5)];
    mail[MAIL_CAPACITY][0] = 5;
    assert_eq!(desk.mail, mail);
    let largest = Desk::new(1, 1, MAX_CAPACITY as u64);
    assert_eq!(largest.mail[..MAIL_HEADER], [0, 16, 0, 0]);
}

/// The figures of 01 and 02, to which the names of the layout must come.
#[test]
fn layout_in_figures() {
    assert_eq!([MAX_SESSIONS, MAX_ITEMS, MAX_CAPACITY], [64, 64, 4096]);
    assert_eq!([TABLE_SESSIONS, TABLE_ITEMS, TABLE_HEADER], [0, 1, 2]);
    let (session, item, rank) = (74, 66, 1);
    assert_eq!([STAGE, AWAITED, SESSION_SIZE], [0, 1, session]);
    assert_eq!([HELD, JUNIORS], [2..10, 10..74]);
    assert_eq!([HOLDER, QUEUE_LENGTH, ITEM_SIZE], [0, 1, item]);
    assert_eq!(QUEUE, 2..66);
    assert_eq!([MAIL_CAPACITY, MAIL_COUNT], [0..2, 2..4]);
    assert_eq!([MAIL_HEADER, ROUTE_SIZE, BODY_SIZE], [4, 3, 3]);
    let (sessions_end, items_end) = (2 + session * 3, 2 + session * 3 + item * 5);
    assert_eq!(session_at(3), sessions_end - session..sessions_end);
    assert_eq!(item_at(3, 5), items_end - item..items_end);
    assert_eq!(ranks_at(3, 5), items_end..items_end + rank * 3);
    assert_eq!(table_length(3, 5), items_end + rank * 3);
    assert_eq!(mail_length(7), 4 + 6 * 7);
    assert_eq!(route_at(2), 4 + 3 * 2..4 + 3 * 3);
    assert_eq!(body_at(7, 6), 4 + 3 * 13..mail_length(7));
}

/// With plain ranks; what other lists give is in tests/ranks.rs.
#[test]
fn start_refuses_sizes() {
    let fits = |config: &Config, table: usize, mail: usize| {
        let mut desk = Desk {
            table: vec![0xA5; table],
            mail: vec![0xA5; mail],
        };
        let before = desk.clone();
        let refusal = start(config, &mut desk.table, &mut desk.mail);
        assert!(refusal == ACCEPTED || refusal == Refusal::BadSize as u8);
        assert_eq!(desk == before, refusal != ACCEPTED);
        refusal == ACCEPTED
    };
    let good = Config::plain(2, 3, 7);
    let (table, mail) = (good.table_length(), good.mail_length());
    assert!(fits(&good, table, mail));
    assert!(!fits(&Config::plain(3, 2, 7), table, mail));
    assert!(!fits(&good, table - 1, mail));
    assert!(!fits(&good, table + 1, mail));
    assert!(!fits(&good, table, mail - 1));
    assert!(!fits(&good, table, mail + 1));
    assert!(!fits(&good, 0, 0));
    let largest = Config::LARGEST;
    for config in [
        Config::plain(2, 3, 0),
        Config::plain(2, 3, largest.capacity + 1),
        Config::plain(0, 3, 7),
        Config::plain(largest.sessions + 1, 3, 7),
        Config::plain(2, 0, 7),
        Config::plain(2, largest.items + 1, 7),
    ] {
        assert!(!fits(&config, config.table_length(), config.mail_length()));
    }
    // Nothing is cut off before it is judged.
    let (sessions, items, capacity) = ((1 << 32) + 2, (1 << 63) + 3, (1 << 16) + 7);
    assert!(!fits(&Config { sessions, ..good }, table, mail));
    assert!(!fits(&Config { items, ..good }, table, mail));
    assert!(!fits(&Config { capacity, ..good }, table, mail));
    let most = Config::plain(u64::MAX, u64::MAX, u64::MAX);
    assert!(!fits(&most, table, mail));
}

#[test]
fn small_mail() {
    let mut one = Desk::new(2, 2, 1);
    one.sends(REQUEST, 1, 1, 1);
    one.refuses(REQUEST, 2, 2, Refusal::MailFull);

    let mut two = Desk::new(2, 2, 2);
    two.sends(REQUEST, 1, 1, 1);
    let mut with_probe = two.forged(|table| table.sessions[1].juniors[0] = 2);
    with_probe.refuses(REQUEST, 2, 2, Refusal::MailFull);
    two.sends(REQUEST, 2, 2, 1);
}

#[test]
fn full_mail_takes_a_delivery_that_sends_at_most_one() {
    // The request sends one, the grant none.
    let mut desk = Desk::new(2, 2, 1);
    desk.sends(REQUEST, 1, 1, 1);
    desk.sends(TO_ITEM, 1, 1, 1);
    desk.sends(TO_SESSION, 1, 1, 0);

    // A release sends grant and resend: two in place of one.
    let release = |capacity| {
        let mut desk = Desk::new(3, 1, capacity).forged(|table| {
            table.sessions[2].held = 1;
            table.items[0] = Item {
                holder: 3,
                queue: vec![2, 1],
            };
        });
        desk.sends(RELEASE, 3, 1, 1);
        desk
    };
    release(1).refuses(TO_ITEM, 3, 1, Refusal::MailFull);
    release(2).sends(TO_ITEM, 3, 1, 2);
}

#[test]
fn largest_numbers() {
    let mut desk = Desk::new(64, 64, 4096);
    desk.sends(REQUEST, 64, 64, 1);
    desk.sends(TO_ITEM, 64, 64, 1);
    desk.sends(TO_SESSION, 64, 64, 0);
    let table = Table::decode(&desk.table).unwrap();
    assert_eq!(table.sessions[63].held, 1 << 63);
    assert_eq!(table.items[63].holder, 64);
    desk.refuses(REQUEST, 1, 65, Refusal::BadNumber);
    desk.refuses(REQUEST, 65, 1, Refusal::BadNumber);
    desk.sends(RELEASE, 64, 64, 1);
}

#[test]
fn refusal_1_verb() {
    let mut desk = Desk::new(2, 2, 1);
    for verb in [0, 5, 255, 256 + 1, (1 << 32) + 1, u64::MAX] {
        desk.refuses(verb, 1, 1, Refusal::BadVerb);
        desk.refuses(verb, 0, 0, Refusal::BadVerb);
    }
    // First of all, even on empty buffers.
    let mut nothing = Desk {
        table: Vec::new(),
        mail: Vec::new(),
    };
    nothing.refuses(0, 1, 1, Refusal::BadVerb);
    nothing.refuses(REQUEST, 1, 1, Refusal::BadSize);
}

#[test]
fn refusal_2_sizes() {
    let good = Desk::new(2, 2, 3);
    let with = |change: &dyn Fn(&mut Desk)| {
        let mut desk = good.clone();
        change(&mut desk);
        desk
    };
    let changes: [&dyn Fn(&mut Desk); 13] = [
        &|d| d.table[TABLE_SESSIONS] = 0,
        &|d| d.table[TABLE_SESSIONS] = 3,
        &|d| d.table[TABLE_SESSIONS] = MAX_SESSIONS as u8 + 1,
        &|d| d.table[TABLE_ITEMS] = 0,
        &|d| d.table[TABLE_ITEMS] = MAX_ITEMS as u8 + 1,
        &|d| d.table.truncate(TABLE_HEADER - 1),
        &|d| d.table.push(0),
        &|d| d.mail[MAIL_CAPACITY][0] = 0,
        &|d| d.mail[MAIL_CAPACITY][0] = 4,
        &|d| d.mail[MAIL_CAPACITY][1] = 1,
        &|d| d.mail.truncate(MAIL_HEADER - 1),
        &|d| d.mail.push(0),
        // A mail of the wrong length comes before a malformed table.
        &|d| {
            d.table[session_at(1)][STAGE] = 0;
            d.mail.push(0);
        },
    ];
    for change in changes {
        with(change).refuses(REQUEST, 1, 1, Refusal::BadSize);
        with(change).refuses(TO_ITEM, 0, 0, Refusal::BadSize);
    }
    let mut huge = good.clone();
    huge.mail = vec![0; mail_length(MAX_CAPACITY + 1)];
    write_u16(&mut huge.mail[MAIL_CAPACITY], MAX_CAPACITY + 1);
    huge.refuses(REQUEST, 1, 1, Refusal::BadSize);
}

#[test]
fn refusal_3_table() {
    let good = Desk::new(3, 3, 3);
    let (session, item) = (session_at(2).start, item_at(3, 2).start);
    let (stage, awaited) = (session + STAGE, session + AWAITED);
    let (held, juniors) = (session + HELD.start, session + JUNIORS.start);
    let (holder, length) = (item + HOLDER, item + QUEUE_LENGTH);
    let queue = item + QUEUE.start;
    let bad: [&[(usize, u8)]; 17] = [
        &[(stage, 0)],                              // no stage
        &[(stage, 7)],                              // no stage
        &[(stage, 2)],                              // waiting for nothing
        &[(stage, 4), (awaited, 4)],                // beyond M
        &[(stage, 5)],                              // withdrawing from nothing
        &[(awaited, 1)],                            // growing, yet awaits
        &[(stage, 6), (awaited, 1)],                // rolled back, yet awaits
        &[(held, 8)],                               // holds item 4
        &[(held + 7, 128)],                         // holds item 64
        &[(juniors, 4)],                            // junior beyond S
        &[(juniors + 3, 1)],                        // initiator beyond S
        &[(holder, 4)],                             // holder beyond S
        &[(length, 1)],                             // session 0 in the queue
        &[(length, 1), (queue, 4)],                 // beyond S in the queue
        &[(length, 2), (queue, 1), (queue + 1, 1)], // twice in the queue
        &[(holder, 1), (length, 1), (queue, 1)],    // holder in the queue
        &[(queue, 1)],                              // behind the queue
    ];
    for bytes in bad {
        let mut desk = good.clone();
        for &(place, byte) in bytes {
            desk.table[place] = byte;
        }
        desk.refuses(REQUEST, 1, 1, Refusal::BadTable);
        // Before malformed mail and a number out of range.
        desk.mail[MAIL_COUNT][0] = 9;
        desk.refuses(TO_SESSION, 0, 99, Refusal::BadTable);
        assert_eq!(
            report(0, &desk.table),
            Cycle {
                refusal: Refusal::BadTable as u8,
                length: 0
            }
        );
    }
    for sessions in [MAX_SESSIONS as u8 + 1, 255] {
        let mut desk = good.clone();
        desk.table[length] = sessions;
        desk.refuses(REQUEST, 1, 1, Refusal::BadTable);
    }
}

#[test]
fn refusal_4_mail() {
    let good = Desk::new(3, 2, 3);
    let message = |route: [u8; ROUTE_SIZE], body: [u8; BODY_SIZE]| {
        let mut desk = good.clone();
        desk.mail[MAIL_COUNT][0] = 1;
        desk.mail[route_at(0)].copy_from_slice(&route);
        desk.mail[body_at(3, 0)].copy_from_slice(&body);
        desk
    };
    for kind in 0..=11 {
        for direction in 0..=3 {
            let carried = match direction {
                1 => (1..=6).contains(&kind),
                2 => [3, 4, 7, 8, 9, 10].contains(&kind),
                _ => false,
            };
            let body = match kind {
                kind::PROBE | kind::CLEAN | kind::ABORT => [kind, 2, 1],
                _ => [kind, 0, 0],
            };
            let mut desk = message([direction, 2, 1], body);
            let expected = if carried {
                Refusal::BadNumber
            } else {
                Refusal::BadMail
            };
            desk.refuses(REQUEST, 0, 1, expected);
        }
    }
    let bad = [
        ([1, 0, 1], [1, 0, 0]), // session 0
        ([1, 4, 1], [1, 0, 0]), // session beyond S
        ([1, 1, 0], [1, 0, 0]), // item 0
        ([1, 1, 3], [1, 0, 0]), // item beyond M
        ([1, 1, 1], [1, 1, 0]), // a request has zeros
        ([1, 1, 1], [1, 0, 1]),
        ([1, 1, 1], [3, 0, 1]), // a probe has sessions
        ([1, 1, 1], [3, 1, 0]),
        ([1, 1, 1], [3, 4, 1]),
        ([1, 1, 1], [3, 1, 4]),
        ([2, 1, 1], [4, 0, 0]),
        ([2, 1, 1], [9, 2, 1]), // an abort addresses its victim
    ];
    for (route, body) in bad {
        message(route, body).refuses(REQUEST, 1, 1, Refusal::BadMail);
        // Before a number out of range.
        message(route, body).refuses(REQUEST, 0, 1, Refusal::BadMail);
    }
    let mut counted = good.clone();
    counted.mail[MAIL_COUNT][0] = 4;
    counted.refuses(REQUEST, 1, 1, Refusal::BadMail);
    counted.mail[MAIL_COUNT].copy_from_slice(&[0, 1]);
    counted.refuses(REQUEST, 1, 1, Refusal::BadMail);
    for unused in MAIL_HEADER..good.mail.len() {
        let mut desk = good.clone();
        desk.mail[unused] = 1;
        desk.refuses(REQUEST, 1, 1, Refusal::BadMail);
    }
}

#[test]
fn refusal_5_numbers() {
    let mut desk = Desk::new(2, 3, 1);
    for verb in 1..=4 {
        for (session, item) in [(0, 1), (3, 1), (1, 0), (1, 4), (0, 0), (257, 1), (1, 257)] {
            desk.refuses(verb, session, item, Refusal::BadNumber);
        }
        desk.refuses(verb, (1 << 32) + 1, 1, Refusal::BadNumber);
        desk.refuses(verb, 1, u64::MAX, Refusal::BadNumber);
    }
}

#[test]
fn refusals_6_and_7_stage_and_mask() {
    let good = Desk::new(2, 2, 1);
    let at = |stage: Stage, held: u64| {
        good.forged(|table| {
            let session = &mut table.sessions[0];
            session.stage = stage;
            session.held = held;
            session.awaited = match stage {
                Stage::Waiting | Stage::Cleaning | Stage::Withdrawing => 2,
                _ => 0,
            };
        })
    };
    for stage in [
        Stage::Waiting,
        Stage::Cleaning,
        Stage::Withdrawing,
        Stage::RolledBack,
    ] {
        for held in 0..=3 {
            at(stage, held).refuses(REQUEST, 1, 1, Refusal::WrongStage);
            at(stage, held).refuses(RELEASE, 1, 1, Refusal::WrongStage);
        }
    }
    at(Stage::Shrinking, 0).refuses(REQUEST, 1, 1, Refusal::WrongStage);
    at(Stage::Shrinking, 1).refuses(REQUEST, 1, 1, Refusal::WrongStage); // 6 before 7
    at(Stage::Shrinking, 1).sends(RELEASE, 1, 1, 1);
    at(Stage::Shrinking, 2).refuses(RELEASE, 1, 1, Refusal::WrongItem);
    at(Stage::Growing, 1).refuses(REQUEST, 1, 1, Refusal::WrongItem);
    at(Stage::Growing, 2).refuses(RELEASE, 1, 1, Refusal::WrongItem);
    at(Stage::Growing, 1).sends(RELEASE, 1, 1, 1);

    // 6 and 7 before 9.
    let mut full = good.forged(|table| table.sessions[0].held = 1);
    full.sends(REQUEST, 2, 2, 1);
    full.refuses(REQUEST, 2, 1, Refusal::WrongStage);
    full.refuses(REQUEST, 1, 1, Refusal::WrongItem);
    full.refuses(RELEASE, 1, 2, Refusal::WrongItem);
    full.refuses(REQUEST, 1, 2, Refusal::MailFull);
    full.refuses(RELEASE, 1, 1, Refusal::MailFull);
}

#[test]
fn refusal_8_no_message() {
    let mut desk = Desk::new(2, 2, 1);
    desk.refuses(TO_ITEM, 1, 1, Refusal::NoMessage);
    desk.refuses(TO_SESSION, 1, 1, Refusal::NoMessage);
    desk.sends(REQUEST, 1, 1, 1);
    // Only that route, and before a full mail.
    for (verb, session, item) in [
        (TO_SESSION, 1, 1),
        (TO_ITEM, 1, 2),
        (TO_ITEM, 2, 1),
        (TO_SESSION, 2, 2),
    ] {
        desk.refuses(verb, session, item, Refusal::NoMessage);
    }
    desk.sends(TO_ITEM, 1, 1, 1);
}

#[test]
fn delivery_takes_the_earliest_of_a_route() {
    let mut desk = Desk::new(2, 2, 8);
    let route = |session, item| Route {
        direction: Direction::ToItem,
        session,
        item,
    };
    let message = |route, body| Message { route, body };
    let mut mailbox = Mailbox::empty(8);
    mailbox.messages = vec![
        message(route(1, 2), Body::Request),
        message(route(1, 1), Body::Request),
        message(route(2, 1), Body::Request),
        message(route(1, 1), Body::Rebroadcast),
    ];
    mailbox.encode(&mut desk.mail);
    desk.sends(TO_ITEM, 1, 1, 1);
    let after = Mailbox::decode(&desk.mail, 2, 2).unwrap();
    let granted = Route {
        direction: Direction::ToSession,
        session: 1,
        item: 1,
    };
    let expected = [
        message(route(1, 2), Body::Request),
        message(route(2, 1), Body::Request),
        message(route(1, 1), Body::Rebroadcast),
        message(granted, Body::Grant),
    ];
    assert_eq!(after.messages, expected);
}

#[test]
fn report_reads_the_table_alone() {
    // 1 and 2 wait for each other, 3 for 1, 4 for 3.
    let desk = Desk::new(4, 4, 1).forged(|table| {
        let queues = [(1, vec![2, 3]), (2, vec![1]), (3, vec![4]), (0, vec![4, 3])];
        for (item, (holder, queue)) in table.items.iter_mut().zip(queues) {
            *item = Item { holder, queue };
        }
    });
    let accepted = |length| Cycle {
        refusal: ACCEPTED,
        length,
    };
    let refused = |refusal: Refusal| Cycle {
        refusal: refusal as u8,
        length: 0,
    };
    let lengths = [2, 2, 0, 0];
    for (session, length) in (1..).zip(lengths) {
        assert_eq!(report(session, &desk.table), accepted(length));
    }
    for session in [0, 5, 257, u64::MAX] {
        assert_eq!(report(session, &desk.table), refused(Refusal::BadNumber));
    }
    let mut bad = desk.table.clone();
    bad[session_at(1)][STAGE] = 0;
    assert_eq!(report(1, &bad), refused(Refusal::BadTable));
    assert_eq!(report(0, &bad), refused(Refusal::BadTable));
    bad.push(0);
    assert_eq!(report(0, &bad), refused(Refusal::BadSize));
    assert_eq!(report(1, &[]), refused(Refusal::BadSize));
    assert_eq!(report(1, &[1]), refused(Refusal::BadSize));
}

#[test]
fn report_of_the_example() {
    let mut desk = Desk::new(2, 2, 8);
    for (place, (verb, session, item)) in (1..).zip(printed_steps()) {
        desk.step(verb.into(), session.into(), item.into());
        // Closed by step 10; at step 19 the victim leaves the queue.
        let length = if (10..19).contains(&place) { 2 } else { 0 };
        for session in 1..=2 {
            assert_eq!(report(session, &desk.table), Cycle { refusal: 0, length });
        }
    }
}
