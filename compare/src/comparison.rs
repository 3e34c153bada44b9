//! One call to the subject and to the model, on equal bytes: answers, all
//! buffers and the bytes beside them are compared.

use crate::coverage::Coverage;
use crate::numbers::{DELIVER_TO_ITEM, DELIVER_TO_SESSION, GROWING, TO_ITEM};
use crate::stream::{Call, Stream, Which};
use model::item::Item;
use model::layout::{
    body_at, item_at, ranks_at, read_u16, route_at, session_at, write_u16, BODY_SIZE, DIRECTION,
    HELD, MAIL_CAPACITY, MAIL_COUNT, MAIL_HEADER, QUEUE, QUEUE_LENGTH, ROUTE_ITEM, ROUTE_SESSION,
    ROUTE_SIZE, STAGE, TABLE_HEADER, TABLE_ITEMS, TABLE_SESSIONS,
};
use model::session::Session;
use model::{Answer, Calls, Config, Cycle, Drained, Text, ACCEPTED};
use std::fmt::Debug;

/// The two buffers of a lock manager.
#[derive(Clone, PartialEq, Eq, Debug, Default)]
pub struct Buffers {
    pub table: Vec<u8>,
    pub mail: Vec<u8>,
}

impl Buffers {
    /// Buffers of the lengths that a start asks for, filled with one byte.
    pub fn filled(config: &Config, filler: u8) -> Buffers {
        Buffers {
            table: vec![filler; config.table_length()],
            mail: vec![filler; config.mail_length()],
        }
    }

    /// What the buffers carry of a config, written there.
    pub fn set_config(&mut self, config: &Config) {
        self.table[TABLE_SESSIONS] = config.sessions as u8;
        self.table[TABLE_ITEMS] = config.items as u8;
        write_u16(&mut self.mail[MAIL_CAPACITY], config.capacity as usize);
        self.set_ranks(config.ranks);
    }

    pub fn ranks(&self) -> &[u8] {
        &self.table[ranks_at(self.sessions(), self.items())]
    }

    pub fn ranks_mut(&mut self) -> &mut [u8] {
        let bytes = ranks_at(self.sessions(), self.items());
        &mut self.table[bytes]
    }

    pub fn set_ranks(&mut self, ranks: &[u8]) {
        self.ranks_mut().copy_from_slice(ranks);
    }

    pub fn session(&self, session: usize) -> &[u8] {
        &self.table[session_at(session)]
    }

    /// The records of a well-formed table.
    pub fn session_record(&self, session: u8) -> Session {
        let record = Session::decode(self.session(session.into()), self.sessions(), self.items());
        record.expect("a table that was judged")
    }

    pub fn item_record(&self, item: u8) -> Item {
        let record = Item::decode(self.item(item.into()), self.sessions());
        record.expect("a table that was judged")
    }

    pub fn session_mut(&mut self, session: usize) -> &mut [u8] {
        &mut self.table[session_at(session)]
    }

    pub fn item(&self, item: usize) -> &[u8] {
        &self.table[item_at(self.sessions(), item)]
    }

    pub fn item_mut(&mut self, item: usize) -> &mut [u8] {
        let bytes = item_at(self.sessions(), item);
        &mut self.table[bytes]
    }

    fn sessions(&self) -> usize {
        self.table[TABLE_SESSIONS].into()
    }

    fn items(&self) -> usize {
        self.table[TABLE_ITEMS].into()
    }

    pub fn capacity(&self) -> usize {
        read_u16(&self.mail[MAIL_CAPACITY]).into()
    }

    pub fn count(&self) -> usize {
        read_u16(&self.mail[MAIL_COUNT]).into()
    }

    pub fn set_count(&mut self, count: usize) {
        write_u16(&mut self.mail[MAIL_COUNT], count);
    }

    pub fn route(&self, place: usize) -> &[u8] {
        &self.mail[route_at(place)]
    }

    /// The step that delivers a message of well-formed mail: verb, session, item.
    pub fn delivery(&self, place: usize) -> (u64, u64, u64) {
        let route = self.route(place);
        let verb = match route[DIRECTION] {
            TO_ITEM => DELIVER_TO_ITEM,
            _ => DELIVER_TO_SESSION,
        };
        (verb, route[ROUTE_SESSION].into(), route[ROUTE_ITEM].into())
    }

    pub fn body(&self, place: usize) -> &[u8] {
        &self.mail[body_at(self.capacity(), place)]
    }

    pub fn set_message(&mut self, place: usize, route: [u8; ROUTE_SIZE], body: [u8; BODY_SIZE]) {
        let capacity = self.capacity();
        self.mail[route_at(place)].copy_from_slice(&route);
        self.mail[body_at(capacity, place)].copy_from_slice(&body);
    }
}

/// The items in the mask of a session's record.
pub fn held(session: &[u8]) -> u64 {
    u64::from_le_bytes(session[HELD].try_into().unwrap())
}

/// The sessions in the queue of an item's record.
pub fn queue(item: &[u8]) -> &[u8] {
    &item[QUEUE][..usize::from(item[QUEUE_LENGTH])]
}

/// Bytes that the subject gets, between others that it must not touch. The
/// place moves from call to call, so that every alignment comes.
#[derive(Default)]
struct Guarded {
    bytes: Vec<u8>,
    place: usize,
    length: usize,
}

const GUARD: usize = 64;
const GUARD_BYTE: u8 = 0xA5;
const ALIGNMENTS: usize = 16;

impl Guarded {
    fn load(&mut self, bytes: &[u8]) {
        self.place = GUARD + (self.place + 1) % ALIGNMENTS;
        self.length = bytes.len();
        let total = self.place + self.length + GUARD;
        if self.bytes.len() < total {
            self.bytes.resize(total, 0);
        }
        self.bytes[..self.place].fill(GUARD_BYTE);
        self.bytes[self.place..][..self.length].copy_from_slice(bytes);
        self.bytes[self.place + self.length..][..GUARD].fill(GUARD_BYTE);
    }

    fn lent(&mut self) -> &mut [u8] {
        &mut self.bytes[self.place..self.place + self.length]
    }

    /// What is wrong with the bytes after the call, if anything.
    fn differs(&self, expected: &[u8]) -> Option<String> {
        let (before, rest) = self.bytes.split_at(self.place);
        let (lent, after) = rest.split_at(self.length);
        if lent != expected {
            let place = lent.iter().zip(expected).position(|(a, b)| a != b)?;
            let (found, wanted) = (lent[place], expected[place]);
            return Some(format!("byte {place} is {found}, not {wanted}"));
        }
        if before.iter().any(|&b| b != GUARD_BYTE) {
            return Some("a byte before the buffer has changed".to_string());
        }
        if after[..GUARD].iter().any(|&b| b != GUARD_BYTE) {
            return Some("a byte behind the buffer has changed".to_string());
        }
        None
    }
}

/// The comparison of a subject with the model. Every call leaves in the
/// caller's buffers what the model leaves, and fails if the subject differs.
pub struct Comparison {
    subject: Box<dyn Calls>,
    pub coverage: Coverage,
    /// Where calls are written, if anywhere.
    pub stream: Option<Stream>,
    ranks: Guarded,
    table: Guarded,
    mail: Guarded,
    text: Guarded,
    /// The first byte of the last pattern in the buffer of a text.
    pattern: u8,
    after: Buffers,
}

impl Comparison {
    pub fn new(subject: impl Calls + 'static) -> Comparison {
        Comparison {
            subject: Box::new(subject),
            coverage: Coverage::new(),
            stream: None,
            ranks: Guarded::default(),
            table: Guarded::default(),
            mail: Guarded::default(),
            text: Guarded::default(),
            pattern: 0,
            after: Buffers::default(),
        }
    }

    fn load(&mut self, buffers: &Buffers) {
        self.table.load(&buffers.table);
        self.mail.load(&buffers.mail);
        self.after.table.clone_from(&buffers.table);
        self.after.mail.clone_from(&buffers.mail);
    }

    /// Fails unless the subject left in both buffers what the model left.
    fn same_buffers(&self, call: &str, before: &Buffers) -> Result<(), String> {
        same_bytes(call, before, "table", &self.table, &self.after.table)?;
        same_bytes(call, before, "mail", &self.mail, &self.after.mail)
    }

    pub fn start(&mut self, config: &Config, buffers: &mut Buffers) -> Result<u8, String> {
        self.load(buffers);
        self.ranks.load(config.ranks);
        let lent = config.with_ranks(self.ranks.lent());
        let (table, mail) = (self.table.lent(), self.mail.lent());
        let found = self.subject.start(&lent, table, mail);
        let after = &mut self.after;
        let expected = model::start(config, &mut after.table, &mut after.mail);
        let (numbers, ranks) = (config.numbers(), config.ranks.len());
        let call = format!("start {numbers:?} with {ranks} ranks");
        same_answer(&call, buffers, found, expected)?;
        self.same_buffers(&call, buffers)?;
        same_bytes(&call, buffers, "ranks", &self.ranks, config.ranks)?;
        self.coverage.start(config, buffers, expected);
        if let Some(stream) = &mut self.stream {
            stream.call(&Call {
                seldom: self.coverage.met_seldom(),
                which: Which::Start,
                numbers: &config.numbers(),
                lent: &[config.ranks, &buffers.table, &buffers.mail],
                answer: &[expected.into()],
                written: &[&self.after.table, &self.after.mail],
            })?;
        }
        std::mem::swap(buffers, &mut self.after);
        Ok(expected)
    }

    pub fn step(
        &mut self,
        verb: u64,
        session: u64,
        item: u64,
        buffers: &mut Buffers,
    ) -> Result<Answer, String> {
        self.load(buffers);
        let found = self
            .subject
            .step(verb, session, item, self.table.lent(), self.mail.lent());
        let after = &mut self.after;
        let expected = model::step(verb, session, item, &mut after.table, &mut after.mail);
        let call = format!("step {verb} {session} {item}");
        same_answer(&call, buffers, found, expected)?;
        self.same_buffers(&call, buffers)?;
        self.coverage.step([verb, session, item], buffers, expected);
        if let Some(stream) = &mut self.stream {
            let Answer {
                refusal,
                sent,
                closed,
                victim,
                initiator,
            } = expected;
            let answer = [refusal, sent, closed, victim, initiator].map(u64::from);
            stream.call(&Call {
                seldom: self.coverage.met_seldom(),
                which: Which::Step,
                numbers: &[verb, session, item],
                lent: &[&buffers.table, &buffers.mail],
                answer: &answer,
                written: &[&self.after.table, &self.after.mail],
            })?;
        }
        std::mem::swap(buffers, &mut self.after);
        Ok(expected)
    }

    pub fn report(&mut self, session: u64, buffers: &Buffers) -> Result<Cycle, String> {
        self.table.load(&buffers.table);
        let found = self.subject.report(session, self.table.lent());
        let expected = model::report(session, &buffers.table);
        let call = format!("report {session}");
        same_answer(&call, buffers, found, expected)?;
        same_bytes(&call, buffers, "table", &self.table, &buffers.table)?;
        self.coverage.report(session, buffers, expected);
        if let Some(stream) = &mut self.stream {
            stream.call(&Call {
                seldom: self.coverage.met_seldom(),
                which: Which::Report,
                numbers: &[session],
                lent: &[&buffers.table],
                answer: &[expected.refusal.into(), expected.length.into()],
                written: &[],
            })?;
        }
        Ok(expected)
    }

    pub fn drain(&mut self, limit: u64, buffers: &mut Buffers) -> Result<Drained, String> {
        self.load(buffers);
        let (table, mail) = (self.table.lent(), self.mail.lent());
        let found = self.subject.drain(limit, table, mail);
        let after = &mut self.after;
        let expected = model::drain(limit, &mut after.table, &mut after.mail);
        let call = format!("drain {limit}");
        same_answer(&call, buffers, found, expected)?;
        self.same_buffers(&call, buffers)?;
        self.coverage.drain(limit, buffers, expected);
        if let Some(stream) = &mut self.stream {
            stream.call(&Call {
                seldom: self.coverage.met_seldom(),
                which: Which::Drain,
                numbers: &[limit],
                lent: &[&buffers.table, &buffers.mail],
                answer: &[
                    expected.refusal.into(),
                    expected.made,
                    expected.ending.into(),
                ],
                written: &[&self.after.table, &self.after.mail],
            })?;
        }
        std::mem::swap(buffers, &mut self.after);
        Ok(expected)
    }

    /// A text into a buffer of so many bytes. These hold a pattern, which is
    /// another one at each call.
    pub fn cycle_text(
        &mut self,
        session: u64,
        room: usize,
        buffers: &Buffers,
    ) -> Result<Text, String> {
        self.pattern = self.pattern.wrapping_add(1);
        let byte = |place: usize| self.pattern.wrapping_add(place as u8);
        let lent: Vec<u8> = (0..room).map(byte).collect();
        let mut text = lent.clone();
        self.table.load(&buffers.table);
        self.text.load(&lent);
        let found = self
            .subject
            .cycle_text(session, self.table.lent(), self.text.lent());
        let expected = model::cycle_text(session, &buffers.table, &mut text);
        let call = format!("cycle text {session} into {room} bytes");
        same_answer(&call, buffers, found, expected)?;
        same_bytes(&call, buffers, "text", &self.text, &text)?;
        same_bytes(&call, buffers, "table", &self.table, &buffers.table)?;
        self.coverage.cycle_text(session, buffers, expected, room);
        if let Some(stream) = &mut self.stream {
            stream.call(&Call {
                seldom: self.coverage.met_seldom(),
                which: Which::CycleText,
                numbers: &[session],
                lent: &[&buffers.table, &lent],
                answer: &[expected.refusal.into(), expected.length.into()],
                written: &[&text],
            })?;
        }
        Ok(expected)
    }

    pub fn reopen(&mut self, session: u64, buffers: &mut Buffers) -> Result<u8, String> {
        self.load(buffers);
        let (table, mail) = (self.table.lent(), self.mail.lent());
        let found = self.subject.reopen(session, table, mail);
        let after = &mut self.after;
        let expected = model::reopen(session, &mut after.table, &after.mail);
        let call = format!("reopen {session}");
        same_answer(&call, buffers, found, expected)?;
        self.same_buffers(&call, buffers)?;
        let right = match expected {
            ACCEPTED => reopened_alone(session, buffers, &self.after),
            _ => *buffers == self.after,
        };
        if !right {
            let sizes = sizes(buffers);
            return Err(format!(
                "{call} {sizes}: other bytes than a reopening leaves"
            ));
        }
        self.coverage.reopen(session, buffers, expected);
        if let Some(stream) = &mut self.stream {
            stream.call(&Call {
                seldom: self.coverage.met_seldom(),
                which: Which::Reopen,
                numbers: &[session],
                lent: &[&buffers.table, &buffers.mail],
                answer: &[expected.into()],
                written: &[&self.after.table],
            })?;
        }
        std::mem::swap(buffers, &mut self.after);
        Ok(expected)
    }
}

/// Whether the record of a session is that of a fresh one, and every other byte is
/// as it was.
fn reopened_alone(session: u64, before: &Buffers, after: &Buffers) -> bool {
    let mut expected = before.clone();
    let record = expected.session_mut(session as usize);
    record.fill(0);
    record[STAGE] = GROWING;
    *after == expected
}

/// Fails unless the subject answered what the model answered.
fn same_answer<A: PartialEq + Debug>(
    call: &str,
    before: &Buffers,
    found: A,
    expected: A,
) -> Result<(), String> {
    if found == expected {
        return Ok(());
    }
    let sizes = sizes(before);
    Err(format!(
        "{call} {sizes}: answers {found:?}, not {expected:?}"
    ))
}

/// Fails unless the subject left these bytes in one of its buffers.
fn same_bytes(
    call: &str,
    before: &Buffers,
    name: &str,
    found: &Guarded,
    expected: &[u8],
) -> Result<(), String> {
    match found.differs(expected) {
        None => Ok(()),
        Some(text) => Err(format!("{call} {}: {name}: {text}", sizes(before))),
    }
}

/// The buffers in a few words.
fn sizes(buffers: &Buffers) -> String {
    let start = |bytes: &[u8], n: usize| format!("{:?}", &bytes[..n.min(bytes.len())]);
    format!(
        "on a table of {} bytes {} and mail of {} bytes {}",
        buffers.table.len(),
        start(&buffers.table, TABLE_HEADER),
        buffers.mail.len(),
        start(&buffers.mail, MAIL_HEADER),
    )
}
