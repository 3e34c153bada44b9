//! Bounds, sizes and places of the buffers, each named here once. Later
//! bytes are appended: to the ends of the records, and behind the items.
//! "All multi-byte values are little-endian and unsigned".

use std::ops::Range;

/// "S sessions and M items, each 1 to 64, numbered from 1."
pub const MAX_SESSIONS: usize = 64;
pub const MAX_ITEMS: usize = 64;

/// "C from 1 to 4,096".
pub const MAX_CAPACITY: usize = 4096;

/// The length of the longest text: that of a cycle of all sessions.
pub const MAX_TEXT: usize = 3045;

/// The table: "S, M, then the session records, then the item records". F-6:
/// "The ranks stand in the table behind the item records, S more bytes".
pub const TABLE_SESSIONS: usize = 0;
pub const TABLE_ITEMS: usize = 1;
pub const TABLE_HEADER: usize = 2;

/// A session: "stage (1), awaited item or 0 (1), held items as a mask (8), and
/// for each initiator 1 to 64 the junior of the stored probe, or 0 (64)".
pub const STAGE: usize = 0;
pub const AWAITED: usize = 1;
pub const HELD: Range<usize> = 2..10;
pub const JUNIORS: Range<usize> = HELD.end..HELD.end + MAX_SESSIONS;
pub const SESSION_SIZE: usize = JUNIORS.end;

/// An item: "holder or 0 (1), length of its line (1), waiting sessions in
/// order, then zeros (64)".
pub const HOLDER: usize = 0;
pub const QUEUE_LENGTH: usize = 1;
pub const QUEUE: Range<usize> = 2..2 + MAX_SESSIONS;
pub const ITEM_SIZE: usize = QUEUE.end;

/// The mail: "C (2), count (2), then two parallel arrays of C entries: route
/// (direction, session, item) and body (kind, a, b), one byte each".
pub const MAIL_CAPACITY: Range<usize> = 0..2;
pub const MAIL_COUNT: Range<usize> = 2..4;
pub const MAIL_HEADER: usize = MAIL_COUNT.end;

pub const DIRECTION: usize = 0;
pub const ROUTE_SESSION: usize = 1;
pub const ROUTE_ITEM: usize = 2;
pub const ROUTE_SIZE: usize = 3;

pub const KIND: usize = 0;
pub const BODY_A: usize = 1;
pub const BODY_B: usize = 2;
pub const BODY_SIZE: usize = 3;

/// The bytes of a session's record. Sessions and items are numbered from 1.
pub fn session_at(session: usize) -> Range<usize> {
    record(TABLE_HEADER, SESSION_SIZE, session - 1)
}

/// The bytes of an item's record, behind so many sessions.
pub fn item_at(sessions: usize, item: usize) -> Range<usize> {
    record(sessions_end(sessions), ITEM_SIZE, item - 1)
}

fn sessions_end(sessions: usize) -> usize {
    TABLE_HEADER + SESSION_SIZE * sessions
}

/// Where the item records end.
pub fn items_end(sessions: usize, items: usize) -> usize {
    sessions_end(sessions) + ITEM_SIZE * items
}

/// The bytes of the ranks, one for each session.
pub fn ranks_at(sessions: usize, items: usize) -> Range<usize> {
    let begin = items_end(sessions, items);
    begin..begin + sessions
}

/// The bytes of the route of a message, 0 being the oldest.
pub fn route_at(place: usize) -> Range<usize> {
    record(MAIL_HEADER, ROUTE_SIZE, place)
}

/// The bytes of the body of a message, behind as many routes as the capacity.
pub fn body_at(capacity: usize, place: usize) -> Range<usize> {
    record(routes_end(capacity), BODY_SIZE, place)
}

/// Where the routes end and the bodies begin.
pub fn routes_end(capacity: usize) -> usize {
    MAIL_HEADER + ROUTE_SIZE * capacity
}

fn record(begin: usize, size: usize, place: usize) -> Range<usize> {
    begin + size * place..begin + size * (place + 1)
}

/// "The table has 2 + 74 × S + 66 × M bytes", F-6: "S more".
pub fn table_length(sessions: usize, items: usize) -> usize {
    ranks_at(sessions, items).end
}

/// "The mail has 4 + 6 × C bytes".
pub fn mail_length(capacity: usize) -> usize {
    routes_end(capacity) + BODY_SIZE * capacity
}

/// A number as a count or an index, if it lies in 1 to `max`.
pub fn within(number: u64, max: usize) -> Option<usize> {
    let number = usize::try_from(number).ok()?;
    (1..=max).contains(&number).then_some(number)
}

/// Whether no byte stands twice.
pub fn distinct(bytes: &[u8]) -> bool {
    (1..bytes.len()).all(|k| !bytes[..k].contains(&bytes[k]))
}

pub fn read_u16(bytes: &[u8]) -> u16 {
    u16::from_le_bytes([bytes[0], bytes[1]])
}

pub fn write_u16(bytes: &mut [u8], number: usize) {
    bytes.copy_from_slice(&(number as u16).to_le_bytes());
}
