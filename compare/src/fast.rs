//! The six calls written for speed, as a measure for the library: the form
//! is checked by loops without early exit that the compiler can vectorise, and
//! the buffers are changed in place. Tested equal to the model.

use crate::numbers::{
    kind::*, CLEANING, GROWING, ROLLED_BACK, SHRINKING, TO_ITEM, TO_SESSION, WAITING, WITHDRAWING,
};
use model::layout::{
    body_at, item_at, items_end, mail_length, ranks_at, read_u16, route_at, routes_end, session_at,
    table_length, within, write_u16, AWAITED, BODY_SIZE, DIRECTION, HELD, HOLDER, ITEM_SIZE,
    JUNIORS, MAIL_CAPACITY, MAIL_COUNT, MAIL_HEADER, MAX_CAPACITY, MAX_ITEMS, MAX_SESSIONS, QUEUE,
    QUEUE_LENGTH, ROUTE_ITEM, ROUTE_SESSION, ROUTE_SIZE, SESSION_SIZE, STAGE, TABLE_HEADER,
    TABLE_ITEMS, TABLE_SESSIONS,
};
use model::mailbox::count;
use model::{Answer, Calls, Config, Cycle, Drained, Ending, Refusal, Text, Verb, ACCEPTED};

type SessionBytes = [u8; SESSION_SIZE];
type ItemBytes = [u8; ITEM_SIZE];

/// Route and body have one size, which the block check below relies on.
const ENTRY: usize = ROUTE_SIZE;
const _: () = assert!(ROUTE_SIZE == BODY_SIZE);

/// The numbers that the buffers carry, once their lengths match.
#[derive(Clone, Copy)]
struct Size {
    sessions: usize,
    items: usize,
}

fn size(table: &[u8]) -> Option<Size> {
    if table.len() < TABLE_HEADER {
        return None;
    }
    let sessions = within(table[TABLE_SESSIONS].into(), MAX_SESSIONS)?;
    let items = within(table[TABLE_ITEMS].into(), MAX_ITEMS)?;
    (table.len() == table_length(sessions, items)).then_some(Size { sessions, items })
}

fn capacity(mail: &[u8]) -> Option<usize> {
    if mail.len() < MAIL_HEADER {
        return None;
    }
    let capacity = within(read_u16(&mail[MAIL_CAPACITY]).into(), MAX_CAPACITY)?;
    (mail.len() == mail_length(capacity)).then_some(capacity)
}

/// `number` as often as there can be sessions, then as many zeros: read from n
/// places before the middle, the bounds of n numbers and the zeros behind them.
type Bounds = [u8; 2 * MAX_SESSIONS];

fn bounds(number: usize) -> Bounds {
    let mut bounds = [0; 2 * MAX_SESSIONS];
    bounds[..MAX_SESSIONS].fill(number as u8);
    bounds
}

fn bounds_of(bounds: &Bounds, n: usize) -> &[u8; MAX_SESSIONS] {
    bounds[MAX_SESSIONS - n..][..MAX_SESSIONS]
        .try_into()
        .unwrap()
}

/// Bits of the stages 2, 4, 5, which await an item.
const AWAITING: u32 = 1 << WAITING | 1 << CLEANING | 1 << WITHDRAWING;

fn table_well_formed(table: &[u8], size: Size) -> bool {
    let bounds = bounds(size.sessions);
    let records = &table[TABLE_HEADER..items_end(size.sessions, size.items)];
    let (sessions, items) = records.split_at(SESSION_SIZE * size.sessions);
    let spare_items = !0u64 ^ (!0 >> (MAX_ITEMS - size.items));
    let last_session = size.sessions as u8;

    let juniors_at_most = bounds_of(&bounds, size.sessions);
    let mut over = [0u8; MAX_SESSIONS];
    let mut wrong = false;
    for record in sessions.chunks_exact(SESSION_SIZE) {
        let record: &SessionBytes = record.try_into().unwrap();
        let stage = record[STAGE];
        let awaits = (AWAITING >> (stage & 31) & 1) as u8;
        wrong |= stage.wrapping_sub(GROWING) > ROLLED_BACK - GROWING;
        wrong |= record[AWAITED] < awaits;
        wrong |= record[AWAITED] > awaits * size.items as u8;
        wrong |= held(record) & spare_items != 0;
        for k in 0..MAX_SESSIONS {
            over[k] |= record[JUNIORS.start + k].saturating_sub(juniors_at_most[k]);
        }
    }
    for record in items.chunks_exact(ITEM_SIZE) {
        let record: &ItemBytes = record.try_into().unwrap();
        let length = usize::from(record[QUEUE_LENGTH]).min(MAX_SESSIONS);
        wrong |= record[HOLDER] > last_session;
        wrong |= record[QUEUE_LENGTH] > last_session;
        let waiting_at_most = bounds_of(&bounds, length);
        for k in 0..MAX_SESSIONS {
            let waiting = record[QUEUE.start + k];
            let missing = if waiting == 0 { waiting_at_most[k] } else { 0 };
            over[k] |= waiting.saturating_sub(waiting_at_most[k]) | missing;
        }
        // Sessions as bits: distinct if there are as many, and without the
        // holder's. Bit 0 is session 64, which is no matter: numbers out of
        // bounds have been seen above.
        let mut members = 0u64;
        for &waiting in &record[QUEUE][..length] {
            members |= 1 << (waiting & 63);
        }
        wrong |= members.count_ones() as usize != length;
        wrong |= record[HOLDER] != 0 && members >> (record[HOLDER] & 63) & 1 != 0;
    }
    wrong |= !ranks_well_formed(ranks(table, size));
    !wrong && over.iter().fold(0, |all, &byte| all | byte) == 0
}

/// The rank of each session.
fn ranks(table: &[u8], size: Size) -> &[u8] {
    &table[ranks_at(size.sessions, size.items)]
}

/// Ranks as bits: those from 1 to S, of which there are as many as sessions.
fn ranks_well_formed(ranks: &[u8]) -> bool {
    let mut seen = 0u64;
    let mut wrong = false;
    for &rank in ranks {
        let bit = rank.wrapping_sub(1);
        wrong |= usize::from(bit) >= ranks.len();
        seen |= 1 << (bit & 63);
    }
    !wrong && seen.count_ones() as usize == ranks.len()
}

fn rank(ranks: &[u8], session: u8) -> u8 {
    ranks[usize::from(session) - 1]
}

fn senior(ranks: &[u8], session: u8, other: u8) -> bool {
    rank(ranks, session) < rank(ranks, other)
}

/// Entries that are checked or searched at once, and their bytes in each array.
const BLOCK: usize = 16;
const CELLS: usize = ENTRY * BLOCK;

/// The bytes of a block that are an entry's first, second and third.
const FIRST: [u8; CELLS] = cells(0);
const SECOND: [u8; CELLS] = cells(1);
const THIRD: [u8; CELLS] = cells(2);

const fn cells(place: usize) -> [u8; CELLS] {
    let mut cells = [0; CELLS];
    let mut k = place;
    while k < CELLS {
        cells[k] = 255;
        k += ENTRY;
    }
    cells
}

/// All bits, or none.
fn all(condition: bool) -> u8 {
    if condition {
        255
    } else {
        0
    }
}

fn any_set(bytes: &[u8]) -> bool {
    bytes.iter().fold(0, |all, &byte| all | byte) != 0
}

/// What is wrong with a byte of an entry. `place` has all bits in the one of
/// `FIRST`, `SECOND`, `THIRD` that it is; `kind` is the kind of its entry.
#[inline(always)]
fn wrong_byte(route: u8, body: u8, kind: u8, place: [u8; 3], most: u8, sessions: u8) -> u8 {
    let [first, second, _] = place;
    // Routes: each byte less 1 is at most 1, S - 1, M - 1 in turn.
    let route_over = route.wrapping_sub(1).saturating_sub(most);
    // Kinds are 1 to 10; a and b are 1 to S, or 0 and 0.
    let with_sessions = all(kind == PROBE) | all(kind == CLEAN) | all(kind == ABORT);
    let low = (first | with_sessions) & 1;
    let high = (first & WITHDRAWN) | (!first & with_sessions & sessions);
    let out = body.saturating_sub(high) | low.saturating_sub(body);
    // Kinds 1, 2, 5, 6 go to an item alone, 7 to 10 to a session alone.
    let to_session = all(route == TO_SESSION);
    let for_session = all(kind >= GRANT);
    let for_item = !for_session & all(kind.wrapping_sub(1) & 2 == 0);
    let astray = first & ((to_session & for_item) | (!to_session & for_session));
    // An abort's a is the session addressed.
    let misaddressed = second & all(kind == ABORT) & (body ^ route);
    route_over | out | astray | misaddressed
}

fn mail_well_formed(mail: &[u8], capacity: usize, size: Size) -> bool {
    let count = count(mail);
    if count > capacity {
        return false;
    }
    let routes = MAIL_HEADER;
    let bodies = routes_end(capacity);
    let used = ENTRY * count;
    if any_set(&mail[routes + used..bodies]) | any_set(&mail[bodies + used..]) {
        return false;
    }

    let sessions = size.sessions as u8;
    let mut most = [0u8; CELLS];
    for entry in most.chunks_exact_mut(ENTRY) {
        entry.copy_from_slice(&[1, sessions - 1, size.items as u8 - 1]);
    }
    let mut wrong = [0u8; CELLS];
    let whole = used - used % CELLS;
    for block in (0..whole).step_by(CELLS) {
        let route = &mail[routes + block..][..CELLS];
        let body = &mail[bodies + block - 2..][..CELLS + 2];
        let (route, body) = (route.try_into().unwrap(), body.try_into().unwrap());
        check_block(&mut wrong, route, body, &most, sessions);
    }
    // The rest, filled up with requests of session 1 to item 1.
    let rest = used - whole;
    if rest > 0 {
        let mut route = [1; CELLS];
        let mut body = [0; CELLS + 2];
        for entry in body[2..].chunks_exact_mut(ENTRY) {
            entry[0] = REQUEST;
        }
        route[..rest].copy_from_slice(&mail[routes + whole..][..rest]);
        body[2..2 + rest].copy_from_slice(&mail[bodies + whole..][..rest]);
        check_block(&mut wrong, &route, &body, &most, sessions);
    }
    !any_set(&wrong)
}

/// Notes what is wrong with a block of entries. The bodies have the two bytes
/// before them: the kind of a byte's entry is the byte itself, or stands one or
/// two before.
fn check_block(
    wrong: &mut [u8; CELLS],
    route: &[u8; CELLS],
    body: &[u8; CELLS + 2],
    most: &[u8; CELLS],
    sessions: u8,
) {
    for k in 0..CELLS {
        let place = [FIRST[k], SECOND[k], THIRD[k]];
        let kind = (body[k + 2] & place[0]) | (body[k + 1] & place[1]) | (body[k] & place[2]);
        wrong[k] |= wrong_byte(route[k], body[k + 2], kind, place, most[k], sessions);
    }
}

fn held(record: &SessionBytes) -> u64 {
    u64::from_le_bytes(record[HELD].try_into().unwrap())
}

fn set_held(record: &mut SessionBytes, held: u64) {
    record[HELD].copy_from_slice(&held.to_le_bytes());
}

fn bit(item: u8) -> u64 {
    1 << (item - 1)
}

/// Messages of one step: the other party and the body. A step sends at most
/// 127: a clean to the holder, and a probe and a resend for each of 63.
struct Sends {
    count: usize,
    messages: [[u8; 4]; 128],
}

impl Sends {
    fn new() -> Sends {
        Sends {
            count: 0,
            messages: [[0; 4]; 128],
        }
    }

    fn push(&mut self, to: u8, kind: u8, a: u8, b: u8) {
        self.messages[self.count] = [to, kind, a, b];
        self.count += 1;
    }

    fn stored_probes(&mut self, to: u8, record: &SessionBytes) {
        for (initiator, &junior) in (1..).zip(&record[JUNIORS]) {
            if junior != 0 {
                self.push(to, PROBE, initiator, junior);
            }
        }
    }

    fn push_to_held(&mut self, mut held: u64, kind: u8) {
        while held != 0 {
            self.push(held.trailing_zeros() as u8 + 1, kind, 0, 0);
            held &= held - 1;
        }
    }

    /// Probes of the waiting sessions senior to the holder, then resends to all
    /// but one.
    fn probes_and_resends(&mut self, ranks: &[u8], holder: u8, queue: &[u8], but: u8) {
        for &waiting in queue {
            if senior(ranks, waiting, holder) {
                self.push(holder, PROBE, waiting, holder);
            }
        }
        self.resends(queue, but);
    }

    /// Resends to all but one.
    fn resends(&mut self, queue: &[u8], but: u8) {
        for &waiting in queue {
            if waiting != but {
                self.push(waiting, RESEND, 0, 0);
            }
        }
    }
}

fn session_record(table: &[u8], session: usize) -> &SessionBytes {
    table[session_at(session)].try_into().unwrap()
}

fn item_record(table: &[u8], size: Size, item: usize) -> &ItemBytes {
    table[item_at(size.sessions, item)].try_into().unwrap()
}

/// For each session what is noted of its wait, given the item and the holder, or
/// 0 where it waits for none. The lowest-numbered item is written last.
#[inline(always)]
fn waits(table: &[u8], size: Size, noted: impl Fn(usize, u8) -> u8) -> [u8; MAX_SESSIONS + 1] {
    let mut waits = [0u8; MAX_SESSIONS + 1];
    for item in (1..=size.items).rev() {
        let record = item_record(table, size, item);
        if record[HOLDER] != 0 {
            for &waiting in &record[QUEUE][..usize::from(record[QUEUE_LENGTH])] {
                waits[usize::from(waiting)] = noted(item, record[HOLDER]);
            }
        }
    }
    waits
}

/// The length of the cycle on which a session lies, or 0.
fn cycle_length(table: &[u8], size: Size, session: u8) -> u8 {
    let waits_for = waits(table, size, |_, holder| holder);
    let mut at = session;
    for length in 1..=size.sessions as u8 {
        at = waits_for[usize::from(at)];
        if at == session {
            return length;
        }
        if at == 0 {
            break;
        }
    }
    0
}

fn start(config: &Config, table: &mut [u8], mail: &mut [u8]) -> Result<u8, Refusal> {
    let numbers = (
        within(config.sessions, MAX_SESSIONS),
        within(config.items, MAX_ITEMS),
        within(config.capacity, MAX_CAPACITY),
    );
    let (Some(sessions), Some(items), Some(capacity)) = numbers else {
        return Err(Refusal::BadSize);
    };
    let lengths = [table.len(), mail.len(), config.ranks.len()];
    if lengths != [config.table_length(), config.mail_length(), sessions] {
        return Err(Refusal::BadSize);
    }
    if !ranks_well_formed(config.ranks) {
        return Err(Refusal::BadRanks);
    }
    table.fill(0);
    mail.fill(0);
    table[TABLE_SESSIONS] = sessions as u8;
    table[TABLE_ITEMS] = items as u8;
    for session in 1..=sessions {
        table[session_at(session)][STAGE] = GROWING;
    }
    table[ranks_at(sessions, items)].copy_from_slice(config.ranks);
    write_u16(&mut mail[MAIL_CAPACITY], capacity);
    Ok(ACCEPTED)
}

/// The causes of a call that reads the table alone; the numbers that the table
/// carries, and the session.
fn judge_reading(session: u64, table: &[u8]) -> Result<(Size, u8), Refusal> {
    let size = size(table).ok_or(Refusal::BadSize)?;
    if !table_well_formed(table, size) {
        return Err(Refusal::BadTable);
    }
    let session = within(session, size.sessions).ok_or(Refusal::BadNumber)?;
    Ok((size, session as u8))
}

fn report(session: u64, table: &[u8]) -> Result<Cycle, Refusal> {
    let (size, session) = judge_reading(session, table)?;
    Ok(Cycle {
        refusal: ACCEPTED,
        length: cycle_length(table, size, session),
    })
}

/// The cycle is gone round twice: for its most senior session and the length of
/// the text, then to write it.
fn cycle_text(session: u64, table: &[u8], text: &mut [u8]) -> Result<Text, Refusal> {
    let (size, session) = judge_reading(session, table)?;
    let waits_at = waits(table, size, |item, _| item as u8);
    let holder = |item: u8| item_record(table, size, item.into())[HOLDER];
    let ranks = ranks(table, size);

    let (mut at, mut first, mut length) = (session, session, 0);
    for _ in 0..size.sessions {
        let item = waits_at[usize::from(at)];
        if item == 0 {
            return Err(Refusal::NoCycle);
        }
        // A session's number stands in two lines: as the holder, and as it waits.
        length += SESSION.len() + AT_ITEM.len() + HELD_BY.len() + 1;
        length += 2 * digits(at) + digits(item);
        if senior(ranks, at, first) {
            first = at;
        }
        at = holder(item);
        if at == session {
            break;
        }
    }
    if at != session {
        return Err(Refusal::NoCycle);
    }
    let mut rest = text.get_mut(..length).ok_or(Refusal::ShortBuffer)?;
    at = first;
    while !rest.is_empty() {
        let item = waits_at[usize::from(at)];
        rest = put_number(put(rest, SESSION), at);
        rest = put_number(put(rest, AT_ITEM), item);
        at = holder(item);
        rest = put_number(put(rest, HELD_BY), at);
        rest = put(rest, b"\n");
    }
    Ok(Text {
        refusal: ACCEPTED,
        length: length as u16,
    })
}

const SESSION: &[u8; 8] = b"session ";
const AT_ITEM: &[u8; 16] = b" waits for item ";
const HELD_BY: &[u8; 17] = b" held by session ";

/// The digits of a number up to 99.
fn digits(number: u8) -> usize {
    1 + usize::from(number > 9)
}

/// Writes bytes; what is left behind them.
fn put<'a, const N: usize>(text: &'a mut [u8], bytes: &[u8; N]) -> &'a mut [u8] {
    let (place, rest) = text.split_at_mut(N);
    place.copy_from_slice(bytes);
    rest
}

/// Writes a number up to 99.
fn put_number(text: &mut [u8], number: u8) -> &mut [u8] {
    let ones = b'0' + number % 10;
    if number > 9 {
        put(text, &[b'0' + number / 10, ones])
    } else {
        put(text, &[ones])
    }
}

fn step(
    verb: u64,
    session: u64,
    item: u64,
    table: &mut [u8],
    mail: &mut [u8],
) -> Result<Answer, Refusal> {
    let verb = Verb::decode(verb).ok_or(Refusal::BadVerb)?;
    let (size, capacity) = judge(table, mail)?;
    let session = within(session, size.sessions).ok_or(Refusal::BadNumber)?;
    let item = within(item, size.items).ok_or(Refusal::BadNumber)?;
    let (t, x) = (session as u8, item as u8);
    let count = count(mail);

    let mut sends = Sends::new();
    let mut answer = Answer::default();
    match verb {
        Verb::Request | Verb::Release => {
            let mut record = *session_record(table, session);
            let holds = held(&record) & bit(x) != 0;
            if verb == Verb::Request {
                if record[STAGE] != GROWING {
                    return Err(Refusal::WrongStage);
                }
                if holds {
                    return Err(Refusal::WrongItem);
                }
                sends.push(x, REQUEST, 0, 0);
                sends.stored_probes(x, &record);
                record[STAGE] = WAITING;
                record[AWAITED] = x;
            } else {
                if record[STAGE] != GROWING && record[STAGE] != SHRINKING {
                    return Err(Refusal::WrongStage);
                }
                if !holds {
                    return Err(Refusal::WrongItem);
                }
                sends.push(x, RELEASE, 0, 0);
                let left = held(&record) & !bit(x);
                set_held(&mut record, left);
                record[STAGE] = SHRINKING;
                record[JUNIORS].fill(0);
            }
            if count + sends.count > capacity {
                return Err(Refusal::MailFull);
            }
            table[session_at(session)].copy_from_slice(&record);
            append(mail, capacity, count, [TO_ITEM, t, x], &sends);
            write_u16(&mut mail[MAIL_COUNT], count + sends.count);
        }
        Verb::DeliverToItem | Verb::DeliverToSession => {
            let route = match verb {
                Verb::DeliverToItem => [TO_ITEM, t, x],
                _ => [TO_SESSION, t, x],
            };
            let place = find(mail, count, route).ok_or(Refusal::NoMessage)?;
            let body = body(mail, capacity, place);
            let (record, joined) = receive(table, size, route, body, &mut sends, &mut answer);
            if count - 1 + sends.count > capacity {
                return Err(Refusal::MailFull);
            }
            record.write(table, size, route);
            if joined && cycle_length(table, size, t) != 0 {
                answer.closed = 1;
            }
            remove(mail, capacity, count, place, 1);
            append(mail, capacity, count - 1, answering(route), &sends);
            write_u16(&mut mail[MAIL_COUNT], count - 1 + sends.count);
        }
    }
    answer.sent = sends.count as u8;
    Ok(answer)
}

/// The causes that lie in the buffers; the numbers that these carry.
fn judge(table: &[u8], mail: &[u8]) -> Result<(Size, usize), Refusal> {
    let size = size(table).ok_or(Refusal::BadSize)?;
    let capacity = capacity(mail).ok_or(Refusal::BadSize)?;
    if !table_well_formed(table, size) {
        return Err(Refusal::BadTable);
    }
    if !mail_well_formed(mail, capacity, size) {
        return Err(Refusal::BadMail);
    }
    Ok((size, capacity))
}

/// The buffers are judged once. The messages left are those from `front` on and
/// before `end`: the delivered ones stay in front of them until the drain ends,
/// or until what is sent finds no room behind them.
fn drain(limit: u64, table: &mut [u8], mail: &mut [u8]) -> Result<Drained, Refusal> {
    let (size, capacity) = judge(table, mail)?;
    let (mut front, mut end) = (0, count(mail));
    let mut made = 0;
    let mut sends = Sends::new();
    let ending = loop {
        if front == end {
            break Ending::Empty;
        }
        let route = mail[route_at(front)].try_into().unwrap();
        let body = body(mail, capacity, front);
        sends.count = 0;
        let (record, _) = receive(table, size, route, body, &mut sends, &mut Answer::default());
        if end - front - 1 + sends.count > capacity {
            break Ending::Full;
        }
        if made == limit {
            break Ending::Limit;
        }
        record.write(table, size, route);
        front += 1;
        made += 1;
        if end + sends.count > capacity {
            remove(mail, capacity, end, 0, front);
            end -= front;
            front = 0;
        }
        append(mail, capacity, end, answering(route), &sends);
        end += sends.count;
    };
    if front > 0 {
        remove(mail, capacity, end, 0, front);
    }
    write_u16(&mut mail[MAIL_COUNT], end - front);
    Ok(Drained {
        refusal: ACCEPTED,
        made,
        ending: ending as u8,
    })
}

fn reopen(session: u64, table: &mut [u8], mail: &[u8]) -> Result<u8, Refusal> {
    let (size, capacity) = judge(table, mail)?;
    let session = within(session, size.sessions).ok_or(Refusal::BadNumber)?;
    let record = session_record(table, session);
    let done = match record[STAGE] {
        SHRINKING => held(record) == 0,
        stage => stage == ROLLED_BACK,
    };
    if !done || named_in_table(table, size, session) || named_in_mail(mail, capacity, session) {
        return Err(Refusal::InUse);
    }
    let record = &mut table[session_at(session)];
    record.fill(0);
    record[STAGE] = GROWING;
    Ok(ACCEPTED)
}

/// Whether a holder, a queue or a stored probe of a well-formed table names a
/// session. Behind a queue there are zeros.
fn named_in_table(table: &[u8], size: Size, session: usize) -> bool {
    let own = session as u8;
    let records = &table[TABLE_HEADER..items_end(size.sessions, size.items)];
    let (sessions, items) = records.split_at(SESSION_SIZE * size.sessions);
    let mut named = 0;
    for record in sessions.chunks_exact(SESSION_SIZE) {
        let juniors: &[u8; MAX_SESSIONS] = record[JUNIORS].try_into().unwrap();
        named |= juniors[session - 1] | any_equal(juniors, own);
    }
    for record in items.chunks_exact(ITEM_SIZE) {
        let queue: &[u8; MAX_SESSIONS] = record[QUEUE].try_into().unwrap();
        named |= all(record[HOLDER] == own) | any_equal(queue, own);
    }
    named != 0
}

fn any_equal(bytes: &[u8; MAX_SESSIONS], number: u8) -> u8 {
    bytes.iter().fold(0, |any, &b| any | all(b == number))
}

/// Whether a message of well-formed mail names a session: the second byte of a
/// route, or the second or third of a body, which are zeros where they are none.
fn named_in_mail(mail: &[u8], capacity: usize, session: usize) -> bool {
    let own = session as u8;
    let used = ENTRY * count(mail);
    let routes = &mail[MAIL_HEADER..][..used];
    let bodies = &mail[routes_end(capacity)..][..used];
    let mut named = [0u8; CELLS];
    let (mut routes, mut bodies) = (routes.chunks_exact(CELLS), bodies.chunks_exact(CELLS));
    for (route, body) in (&mut routes).zip(&mut bodies) {
        for k in 0..CELLS {
            let in_route = SECOND[k] & all(route[k] == own);
            named[k] |= in_route | !FIRST[k] & all(body[k] == own);
        }
    }
    let rest = routes.remainder().iter().zip(bodies.remainder());
    for (k, (&route, &body)) in rest.enumerate() {
        named[k] |= SECOND[k] & all(route == own) | !FIRST[k] & all(body == own);
    }
    any_set(&named)
}

/// The record of a message's receiver after the delivery.
enum Record {
    Item(ItemBytes),
    Session(SessionBytes),
}

impl Record {
    fn write(&self, table: &mut [u8], size: Size, [_, t, x]: [u8; ROUTE_SIZE]) {
        match self {
            Record::Item(record) => table[item_at(size.sessions, x.into())].copy_from_slice(record),
            Record::Session(record) => table[session_at(t.into())].copy_from_slice(record),
        }
    }
}

/// A message comes to its receiver; whether its sender joined a queue.
fn receive(
    table: &[u8],
    size: Size,
    [direction, t, x]: [u8; ROUTE_SIZE],
    body: [u8; BODY_SIZE],
    sends: &mut Sends,
    answer: &mut Answer,
) -> (Record, bool) {
    let ranks = ranks(table, size);
    if direction == TO_ITEM {
        let mut record = *item_record(table, size, x.into());
        let joined = at_item(&mut record, ranks, t, body, sends, answer);
        (Record::Item(record), joined)
    } else {
        let mut record = *session_record(table, t.into());
        at_session(&mut record, ranks, t, x, body, sends);
        (Record::Session(record), false)
    }
}

/// An item receives a message; whether the sender joined its queue.
fn at_item(
    record: &mut ItemBytes,
    ranks: &[u8],
    from: u8,
    [kind, a, b]: [u8; 3],
    sends: &mut Sends,
    answer: &mut Answer,
) -> bool {
    let holder = record[HOLDER];
    let length = usize::from(record[QUEUE_LENGTH]);
    let queue = &record[QUEUE][..length];
    match kind {
        REQUEST => {
            if from == holder || queue.contains(&from) {
                return false;
            }
            if holder == 0 {
                record[HOLDER] = from;
                sends.push(from, GRANT, 0, 0);
                return false;
            }
            record[QUEUE][length] = from;
            record[QUEUE_LENGTH] += 1;
            if senior(ranks, from, holder) {
                sends.push(holder, PROBE, from, holder);
            }
            return true;
        }
        RELEASE if from == holder => {
            if length == 0 {
                record[HOLDER] = 0;
                return false;
            }
            // By rank, with the session below it: nobody left causes a probe.
            let ranked = |&w: &u8| u16::from_be_bytes([rank(ranks, w), w]);
            let [_, next] = queue
                .iter()
                .map(ranked)
                .fold(u16::MAX, u16::min)
                .to_be_bytes();
            record[HOLDER] = next;
            leave_queue(record, next);
            sends.push(next, GRANT, 0, 0);
            sends.resends(&record[QUEUE][..length - 1], 0);
        }
        PROBE if holder != 0 && !senior(ranks, holder, a) && queue.contains(&from) => {
            if holder == a {
                answer.victim = b;
                answer.initiator = a;
                sends.push(b, ABORT, b, a);
            } else {
                sends.push(holder, PROBE, a, b);
            }
        }
        CLEAN if holder != 0 => {
            sends.push(holder, CLEAN, a, b);
            sends.probes_and_resends(ranks, holder, queue, from);
        }
        REBROADCAST if holder != 0 => sends.probes_and_resends(ranks, holder, queue, 0),
        WITHDRAW => {
            leave_queue(record, from);
            sends.push(from, WITHDRAWN, 0, 0);
        }
        _ => {}
    }
    false
}

/// A session leaves the queue, if it stands there, and those behind it close up.
fn leave_queue(record: &mut ItemBytes, session: u8) {
    let length = usize::from(record[QUEUE_LENGTH]);
    let queue = &mut record[QUEUE][..length];
    if let Some(place) = queue.iter().position(|&waiting| waiting == session) {
        queue.copy_within(place + 1.., place);
        queue[length - 1] = 0;
        record[QUEUE_LENGTH] -= 1;
    }
}

/// Session `own` receives a message from an item.
fn at_session(
    record: &mut SessionBytes,
    ranks: &[u8],
    own: u8,
    from: u8,
    [kind, a, b]: [u8; 3],
    sends: &mut Sends,
) {
    let awaited = record[AWAITED];
    match (kind, record[STAGE]) {
        (GRANT, WAITING) if from == awaited => {
            let more = held(record) | bit(awaited);
            set_held(record, more);
            record[STAGE] = GROWING;
            record[AWAITED] = 0;
        }
        (PROBE, stage @ (GROWING | WAITING)) => {
            let junior = if senior(ranks, b, own) { own } else { b };
            let stored = &mut record[JUNIORS][usize::from(a) - 1];
            if *stored == 0 || senior(ranks, *stored, junior) {
                *stored = junior;
                if stage == WAITING {
                    sends.push(awaited, PROBE, a, junior);
                }
            }
        }
        (RESEND, WAITING) if from == awaited => sends.stored_probes(awaited, record),
        (ABORT, WAITING) => {
            sends.push(awaited, CLEAN, a, b);
            record[JUNIORS].fill(0);
            record[STAGE] = CLEANING;
        }
        (CLEAN, stage @ (GROWING | WAITING)) => {
            sends.push_to_held(held(record) & !bit(from), REBROADCAST);
            if stage == WAITING {
                sends.push(awaited, CLEAN, a, b);
            }
            record[JUNIORS].fill(0);
        }
        (CLEAN, CLEANING) if a == own => {
            sends.push(awaited, WITHDRAW, 0, 0);
            record[STAGE] = WITHDRAWING;
        }
        (WITHDRAWN, WITHDRAWING) => {
            sends.push_to_held(held(record), RELEASE);
            set_held(record, 0);
            record[AWAITED] = 0;
            record[STAGE] = ROLLED_BACK;
        }
        _ => {}
    }
}

/// The place of the earliest message on a route. Blocks are passed by the item up
/// to one that has it, from there by item and session up to one that has both in
/// a message, from there by the whole route; then the messages one by one.
#[inline(always)]
fn find(mail: &[u8], count: usize, [direction, session, item]: [u8; ROUTE_SIZE]) -> Option<usize> {
    let routes = &mail[MAIL_HEADER..route_at(count).start];
    let place = pass(routes, 0, |[_, _, x]| all(x == item));
    let place = pass(routes, place, |[_, t, x]| {
        all(x == item) & all(t == session)
    });
    let place = pass(routes, place, |[d, t, x]| {
        all(x == item) & all(t == session) & all(d == direction)
    });
    routes[ENTRY * place..]
        .chunks_exact(ENTRY)
        .position(|route| {
            route[ROUTE_ITEM] == item
                && route[ROUTE_SESSION] == session
                && route[DIRECTION] == direction
        })
        .map(|found| place + found)
}

/// The first place, from this one on in steps of a block, whose block has a route
/// for which `same` gives all bits, or from which at most a block is left. Each
/// byte of a block is tested as the first of a route, hence two bytes more, and
/// `FIRST` keeps those that are.
#[inline(always)]
fn pass(routes: &[u8], mut place: usize, same: impl Fn([u8; ENTRY]) -> u8) -> usize {
    while let Some(bytes) = routes[ENTRY * place..].first_chunk::<{ CELLS + 2 }>() {
        let mut found = 0;
        for k in 0..CELLS {
            found |= FIRST[k] & same([bytes[k], bytes[k + 1], bytes[k + 2]]);
        }
        if found != 0 {
            break;
        }
        place += BLOCK;
    }
    place
}

fn body(mail: &[u8], capacity: usize, place: usize) -> [u8; BODY_SIZE] {
    mail[body_at(capacity, place)].try_into().unwrap()
}

/// Takes so many messages from a place on out; those behind them close up.
#[inline(always)]
fn remove(mail: &mut [u8], capacity: usize, count: usize, place: usize, taken: usize) {
    let (routes, bodies) = mail[MAIL_HEADER..].split_at_mut(ENTRY * capacity);
    for entries in [routes, bodies] {
        entries.copy_within(ENTRY * (place + taken)..ENTRY * count, ENTRY * place);
        entries[ENTRY * (count - taken)..ENTRY * count].fill(0);
    }
}

/// The route back to the sender.
fn answering([direction, t, x]: [u8; ROUTE_SIZE]) -> [u8; ROUTE_SIZE] {
    let back = if direction == TO_ITEM {
        TO_SESSION
    } else {
        TO_ITEM
    };
    [back, t, x]
}

/// Appends messages of session t or item x behind `count` others.
fn append(
    mail: &mut [u8],
    capacity: usize,
    count: usize,
    [direction, t, x]: [u8; ROUTE_SIZE],
    sends: &Sends,
) {
    let total = count + sends.count;
    let (routes, bodies) = mail[MAIL_HEADER..].split_at_mut(ENTRY * capacity);
    let places = routes[ENTRY * count..ENTRY * total]
        .chunks_exact_mut(ENTRY)
        .zip(bodies[ENTRY * count..ENTRY * total].chunks_exact_mut(ENTRY));
    for ((route, body), &[to, kind, a, b]) in places.zip(&sends.messages) {
        let (session, item) = if direction == TO_ITEM {
            (t, to)
        } else {
            (to, x)
        };
        route.copy_from_slice(&[direction, session, item]);
        body.copy_from_slice(&[kind, a, b]);
    }
}

/// The same rules as the model's, written for speed.
pub struct Fast;

impl Calls for Fast {
    fn start(&self, config: &Config, table: &mut [u8], mail: &mut [u8]) -> u8 {
        start(config, table, mail).unwrap_or_else(u8::from)
    }

    fn step(&self, v: u64, s: u64, i: u64, table: &mut [u8], mail: &mut [u8]) -> Answer {
        step(v, s, i, table, mail).unwrap_or_else(Answer::from)
    }

    fn report(&self, session: u64, table: &[u8]) -> Cycle {
        report(session, table).unwrap_or_else(Cycle::from)
    }

    fn drain(&self, limit: u64, table: &mut [u8], mail: &mut [u8]) -> Drained {
        drain(limit, table, mail).unwrap_or_else(Drained::from)
    }

    fn cycle_text(&self, session: u64, table: &[u8], text: &mut [u8]) -> Text {
        cycle_text(session, table, text).unwrap_or_else(Text::from)
    }

    fn reopen(&self, session: u64, table: &mut [u8], mail: &[u8]) -> u8 {
        reopen(session, table, mail).unwrap_or_else(u8::from)
    }
}
