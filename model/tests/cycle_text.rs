//! F-4: the text of a cycle, its refusals and the bytes that it leaves; and read
//! back, beside the waits of the table.

use model::item::Item;
use model::layout::{session_at, table_length, MAX_SESSIONS, MAX_TEXT, STAGE};
use model::scenario::Random;
use model::table::Table;
use model::{cycle_text, report, start, step, Config, Ranks, Refusal, Text, ACCEPTED};

fn encoded(records: &Table) -> Vec<u8> {
    let mut bytes = vec![0; table_length(records.sessions.len(), records.items.len())];
    records.encode(&mut bytes);
    bytes
}

/// A table with items of these holders and queues.
fn table(sessions: usize, items: &[(u8, &[u8])]) -> Vec<u8> {
    let mut records = Table::fresh(Ranks::plain(sessions), items.len());
    for (item, &(holder, queue)) in records.items.iter_mut().zip(items) {
        *item = Item {
            holder,
            queue: queue.to_vec(),
        };
    }
    encoded(&records)
}

/// Session k waits at item k for the next session, the last for session 1.
fn cycle_of(sessions: usize) -> Vec<u8> {
    let mut records = Table::fresh(Ranks::plain(sessions), sessions);
    for (session, item) in (1..).zip(&mut records.items) {
        item.holder = session % sessions as u8 + 1;
        item.queue = vec![session];
    }
    encoded(&records)
}

/// What a buffer holds before the call.
fn pattern(room: usize) -> Vec<u8> {
    (0..room).map(|place| (place % 251) as u8 ^ 0xA5).collect()
}

/// The text that is written into a buffer of this length; what follows it must
/// be untouched.
#[track_caller]
fn written(session: u64, table: &[u8], room: usize) -> Vec<u8> {
    let mut buffer = pattern(room);
    let Text { refusal, length } = cycle_text(session, table, &mut buffer);
    assert_eq!(refusal, ACCEPTED);
    assert_eq!(buffer[length.into()..], pattern(room)[length.into()..]);
    buffer.truncate(length.into());
    buffer
}

/// A call that must be refused, with the buffer untouched.
#[track_caller]
fn refuses(session: u64, table: &[u8], room: usize, refusal: Refusal) {
    let mut buffer = pattern(room);
    let expected = Text {
        refusal: refusal as u8,
        length: 0,
    };
    assert_eq!(cycle_text(session, table, &mut buffer), expected);
    assert_eq!(buffer, pattern(room));
}

const OF_TWO: &str = "\
session 1 waits for item 2 held by session 2
session 2 waits for item 1 held by session 1
";

#[test]
fn the_printed_example() {
    let config = Config::plain(2, 2, 8);
    let (mut table, mut mail) = (
        vec![0; config.table_length()],
        vec![0; config.mail_length()],
    );
    start(&config, &mut table, &mut mail);
    let steps = [
        (1, 1, 1),
        (1, 2, 2),
        (3, 1, 1),
        (3, 2, 2),
        (4, 1, 1),
        (4, 2, 2),
        (1, 1, 2),
        (3, 1, 2),
        (1, 2, 1),
        (3, 2, 1),
    ];
    for (verb, session, item) in steps {
        for session in 1..=2 {
            refuses(session, &table, MAX_TEXT, Refusal::NoCycle);
        }
        let answer = step(verb, session, item, &mut table, &mut mail);
        assert_eq!(answer.refusal, ACCEPTED);
    }
    for session in 1..=2 {
        assert_eq!(written(session, &table, MAX_TEXT), OF_TWO.as_bytes());
    }
}

#[test]
fn a_cycle_of_64_has_the_longest_text() {
    let table = cycle_of(MAX_SESSIONS);
    let text = written(1, &table, MAX_TEXT);
    assert_eq!(text.len(), 3045);
    let text = String::from_utf8(text).unwrap();
    let lines: Vec<_> = text.split_terminator('\n').collect();
    assert_eq!(lines.len(), 64);
    assert_eq!(lines[0], "session 1 waits for item 1 held by session 2");
    assert_eq!(lines[8], "session 9 waits for item 9 held by session 10");
    assert_eq!(lines[62], "session 63 waits for item 63 held by session 64");
    assert_eq!(lines[63], "session 64 waits for item 64 held by session 1");
    refuses(1, &table, MAX_TEXT - 1, Refusal::ShortBuffer);
}

#[test]
fn the_same_from_every_member() {
    for sessions in 2..=MAX_SESSIONS {
        let table = cycle_of(sessions);
        let text = written(1, &table, MAX_TEXT);
        for session in 2..=sessions as u64 {
            assert_eq!(written(session, &table, MAX_TEXT), text);
        }
    }
    // 5 waits for 3, 3 for 4 and 4 for 5.
    let table = table(5, &[(5, &[4]), (3, &[5]), (4, &[3])]);
    let text = "\
session 3 waits for item 3 held by session 4
session 4 waits for item 1 held by session 5
session 5 waits for item 2 held by session 3
";
    for session in 3..=5 {
        assert_eq!(written(session, &table, MAX_TEXT), text.as_bytes());
    }
}

#[test]
fn buffers_of_any_length() {
    let length = OF_TWO.len();
    let table = table(2, &[(1, &[2]), (2, &[1])]);
    for room in 0..length {
        refuses(1, &table, room, Refusal::ShortBuffer);
    }
    for room in (length..length + 300).chain([MAX_TEXT, 1 << 16, (1 << 16) + 1, 1 << 20]) {
        assert_eq!(written(2, &table, room), OF_TWO.as_bytes());
    }
}

/// 1 and 2 wait for each other, 3 for 1 and 4 for 3; 5 stands in the queue of an
/// item that nobody holds.
fn with_sessions_on_no_cycle() -> Vec<u8> {
    table(6, &[(0, &[5]), (1, &[2, 3]), (2, &[1]), (3, &[4])])
}

#[test]
fn a_session_on_no_cycle() {
    let table = with_sessions_on_no_cycle();
    for session in 3..=6 {
        // 10 comes before 11.
        for room in [0, 1, MAX_TEXT] {
            refuses(session, &table, room, Refusal::NoCycle);
        }
    }
    for session in 1..=2 {
        refuses(session, &table, 0, Refusal::ShortBuffer);
    }
}

/// 2, 3 and 5 come before 10 and 11, and in that order.
#[test]
fn judged_like_a_report() {
    let table = with_sessions_on_no_cycle();
    let mut malformed = table.clone();
    malformed[session_at(1)][STAGE] = 0;
    let mut longer = malformed.clone();
    longer.push(0);
    for room in [0, MAX_TEXT] {
        for session in [0, 7, 257, 1 << 32, u64::MAX] {
            refuses(session, &table, room, Refusal::BadNumber);
        }
        for session in [0, 1, 3, u64::MAX] {
            refuses(session, &malformed, room, Refusal::BadTable);
            for table in [&longer[..], &[], &[1], &[1, 1]] {
                refuses(session, table, room, Refusal::BadSize);
            }
        }
    }
}

/// A session in several queues waits at the lowest-numbered item that is held.
#[test]
fn the_lowest_held_item_counts() {
    let table = table(
        3,
        &[
            (0, &[2, 1]),
            (3, &[1]),
            (2, &[1]),
            (0, &[3]),
            (1, &[2, 3]),
            (2, &[3, 1]),
        ],
    );
    let text = "\
session 1 waits for item 2 held by session 3
session 3 waits for item 5 held by session 1
";
    for session in [1, 3] {
        assert_eq!(written(session, &table, MAX_TEXT), text.as_bytes());
    }
    refuses(2, &table, MAX_TEXT, Refusal::NoCycle);
}

/// What is left to read of a text. The reader shares nothing with what writes
/// texts.
struct Reader<'a>(&'a [u8]);

impl Reader<'_> {
    fn words(&mut self, words: &str) -> Option<()> {
        self.0 = self.0.strip_prefix(words.as_bytes())?;
        Some(())
    }

    /// A number from 1 to 99 without a leading zero.
    fn number(&mut self) -> Option<u8> {
        let digits = self.0.iter().take_while(|byte| byte.is_ascii_digit());
        let (number, rest) = self.0.split_at(digits.count());
        self.0 = rest;
        match *number {
            [one @ b'1'..=b'9'] => Some(one - b'0'),
            [ten @ b'1'..=b'9', one] => Some(10 * (ten - b'0') + (one - b'0')),
            _ => None,
        }
    }
}

/// The session, the item and the holder of each line, if it is a text.
fn read(text: &[u8]) -> Option<Vec<(u8, u8, u8)>> {
    let mut reader = Reader(text);
    let mut lines = Vec::new();
    while !reader.0.is_empty() {
        reader.words("session ")?;
        let session = reader.number()?;
        reader.words(" waits for item ")?;
        let item = reader.number()?;
        reader.words(" held by session ")?;
        let holder = reader.number()?;
        reader.words("\n")?;
        lines.push((session, item, holder));
    }
    Some(lines)
}

#[test]
fn the_reader_takes_texts_alone() {
    assert_eq!(read(OF_TWO.as_bytes()), Some(vec![(1, 2, 2), (2, 1, 1)]));
    let line = "session 10 waits for item 64 held by session 9\n";
    assert_eq!(read(line.as_bytes()), Some(vec![(10, 64, 9)]));
    for (part, other) in [
        ("10", "010"),
        ("10", "0"),
        ("10", ""),
        ("10", "100"),
        ("64", "6 4"),
        ("9", "x"),
        ("item", "Item"),
        (" held", "  held"),
        ("\n", ""),
        ("\n", " \n"),
        ("\n", "\n\n"),
        ("\n", "\r\n"),
        ("\n", "\n\0"),
    ] {
        let changed = line.replacen(part, other, 1);
        assert_eq!(read(changed.as_bytes()), None, "{changed:?}");
    }
}

/// The item at which each session waits and its holder, or (0, 0): the items are
/// gone through from the last to the first, so that the lowest-numbered stays.
fn waits(records: &Table) -> Vec<(u8, u8)> {
    let mut waits = vec![(0, 0); records.sessions.len() + 1];
    for item in (1..=records.items.len() as u8).rev() {
        let record = records.item(item);
        for &waiting in record.queue.iter().filter(|_| record.holder != 0) {
            waits[usize::from(waiting)] = (item, record.holder);
        }
    }
    waits
}

/// Reads the text for a session back, beside the waits of the table; how many
/// lines it has, 0 if refused.
fn check(session: u8, table: &[u8], ranks: &[u8], waits: &[(u8, u8)]) -> usize {
    let mut at = session;
    let comes_back = (0..waits.len()).any(|_| {
        at = waits[usize::from(at)].1;
        at == session
    });
    if !comes_back {
        refuses(session.into(), table, 0, Refusal::NoCycle);
        refuses(session.into(), table, MAX_TEXT, Refusal::NoCycle);
        return 0;
    }
    let text = written(session.into(), table, MAX_TEXT + 50);
    let lines = read(&text).unwrap();
    // Each line is a wait, and the next line goes on from its holder.
    let next = lines.iter().cycle().skip(1);
    for (&(waiting, item, holder), &(next, _, _)) in lines.iter().zip(next) {
        assert_eq!((item, holder), waits[usize::from(waiting)]);
        assert_eq!(holder, next);
    }
    // Round once, from the most senior, and the session asked about is there.
    let mut members: Vec<u8> = lines.iter().map(|&(member, _, _)| member).collect();
    assert!(members.contains(&session));
    let rank = |&&member: &&u8| ranks[usize::from(member) - 1];
    assert_eq!(members.iter().min_by_key(rank), members.first());
    members.sort_unstable();
    members.dedup();
    assert_eq!(members.len(), lines.len());
    assert_eq!(report(session.into(), table).length, lines.len() as u8);
    refuses(session.into(), table, text.len() - 1, Refusal::ShortBuffer);
    lines.len()
}

/// Any ranks, holders and queues, and some sessions that wait in a cycle, unless
/// one of them stands in the queue of a lower-numbered item that is held.
fn drawn(random: &mut Random) -> Table {
    let most = if random.one_in(4) { 64 } else { 8 };
    let members = random.between(1, most);
    let (sessions, items) = (random.between(members, most), random.between(members, most));
    let ranks = Ranks::decode(&random.order(sessions)).unwrap();
    let mut records = Table::fresh(ranks, items as usize);
    let waiting_one_in = match random.between(1, 3) {
        1 => random.between(2, 10),
        2 => random.between(11, 1000),
        _ => u64::MAX,
    };
    for item in &mut records.items {
        item.holder = random.between(0, sessions) as u8;
        item.queue = random.order(sessions);
        item.queue.retain(|_| random.one_in(waiting_one_in));
    }
    let cycle = &random.order(sessions)[..members as usize];
    let holders = cycle.iter().cycle().skip(1);
    let items = random.order(items);
    for ((&member, &holder), &item) in cycle.iter().zip(holders).zip(&items) {
        let record = records.item_mut(item);
        record.holder = holder;
        if !record.queue.contains(&member) {
            record.queue.push(member);
        }
    }
    for item in &mut records.items {
        item.queue.retain(|&waiting| waiting != item.holder);
    }
    records
}

#[test]
fn read_back_from_drawn_tables() {
    let mut random = Random::new(1);
    let mut texts = [0; MAX_SESSIONS + 1];
    for _ in 0..5_000 {
        let records = drawn(&mut random);
        let (table, waits) = (encoded(&records), waits(&records));
        let ranks = records.ranks.bytes();
        for session in 1..=records.sessions.len() as u8 {
            texts[check(session, &table, ranks, &waits)] += 1;
        }
    }
    println!("texts by their lines, 0 if refused: {texts:?}");
    // Of every length but 1: no session waits for itself.
    for (lines, &texts) in texts.iter().enumerate() {
        assert_eq!(texts == 0, lines == 1, "{lines} lines");
    }
}
