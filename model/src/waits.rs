//! Who waits for whom, and the deadlock cycles (01: rings) of a table, read
//! from the queues and holders of the items alone.

use crate::table::Table;
use std::fmt::{self, Display, Formatter};

/// A session, the item at which it waits, and that item's holder.
#[derive(Clone, Copy, PartialEq, Eq, Debug)]
pub struct Wait {
    pub session: u8,
    pub item: u8,
    pub holder: u8,
}

/// F-4: "`session 3 waits for item 7 held by session 5`".
impl Display for Wait {
    fn fmt(&self, out: &mut Formatter<'_>) -> fmt::Result {
        let Wait {
            session,
            item,
            holder,
        } = self;
        write!(
            out,
            "session {session} waits for item {item} held by session {holder}"
        )
    }
}

/// "T waits for H when T stands in the line of an item held by H (of several
/// held items in whose lines T stands, the lowest-numbered)."
pub fn wait_of(table: &Table, session: u8) -> Option<Wait> {
    (1..)
        .zip(&table.items)
        .find(|(_, record)| record.holder != 0 && record.queue.contains(&session))
        .map(|(item, record)| Wait {
            session,
            item,
            holder: record.holder,
        })
}

pub fn waits_for(table: &Table, session: u8) -> Option<u8> {
    wait_of(table, session).map(|wait| wait.holder)
}

/// The members of the cycle on which a session lies, from that session on;
/// empty if it lies on none. "A ring is a session reached from itself by one
/// such wait or more, with every session passed on the way."
pub fn cycle_members(table: &Table, session: u8) -> Vec<u8> {
    let mut members = vec![session];
    let mut last = session;
    while let Some(next) = waits_for(table, last) {
        if next == session {
            return members;
        }
        if members.contains(&next) {
            break; // leads into a cycle without lying on it
        }
        members.push(next);
        last = next;
    }
    Vec::new()
}

/// The waits of the cycle on which a session lies, F-4: "from its most senior
/// session, one [..] for each member, [..] going round once"; empty if it lies
/// on none.
pub fn cycle_waits(table: &Table, session: u8) -> Vec<Wait> {
    let mut members = cycle_members(table, session);
    let first = table.ranks.most_senior(&members).unwrap_or(0);
    members.rotate_left(first);
    let wait = |&member: &u8| wait_of(table, member);
    members.iter().filter_map(wait).collect()
}

/// F-4: lines, "each ended by a line feed", "one after another".
pub fn text_of(waits: &[Wait]) -> String {
    waits.iter().map(|wait| format!("{wait}\n")).collect()
}

/// The standing cycles: each "is one ring whichever member it is read from",
/// so it is counted at its lowest-numbered member.
pub fn standing_cycles(table: &Table) -> usize {
    (1..=table.sessions.len() as u8)
        .filter(|session| cycle_members(table, *session).iter().min() == Some(session))
        .count()
}
