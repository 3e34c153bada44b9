//! F-7: where an "entry of the mail (in its route, a or b, where a and b are
//! sessions)", a line, a holder or a "stored probe (as initiator or junior)" names a
//! session.

use crate::mailbox::{Direction, Mailbox, Message};
use crate::table::Table;

/// A place at which a session is named, so that it may not be reopened.
#[derive(Clone, Copy, PartialEq, Eq, Debug)]
pub enum Named {
    Message {
        part: Part,
        direction: Direction,
        kind: u8,
    },
    Queue,
    Holder,
    /// In a probe that is stored by the session itself or by another, as initiator
    /// or as junior.
    Probe {
        own: bool,
        initiator: bool,
    },
}

/// Which part of a message names a session.
#[derive(Clone, Copy, PartialEq, Eq, Debug)]
pub enum Part {
    Route,
    A,
    B,
}

/// All such places, in both buffers. The session's own record counts too.
pub fn names(table: &Table, mailbox: &Mailbox, session: u8) -> Vec<Named> {
    let messages = mailbox.messages.iter();
    let mut names: Vec<Named> = messages.flat_map(|&m| by_message(m, session)).collect();
    for item in &table.items {
        if item.holder == session {
            names.push(Named::Holder);
        }
        if item.queue.contains(&session) {
            names.push(Named::Queue);
        }
    }
    for (owner, record) in (1..).zip(&table.sessions) {
        let own = owner == session;
        for (initiator, junior) in record.probes() {
            if initiator == session {
                let initiator = true;
                names.push(Named::Probe { own, initiator });
            }
            if junior == session {
                let initiator = false;
                names.push(Named::Probe { own, initiator });
            }
        }
    }
    names
}

/// Those in one message.
pub fn by_message(message: Message, session: u8) -> Vec<Named> {
    let Message { route, body } = message;
    let mut parts = vec![(Part::Route, route.session)];
    if let Some((a, b)) = body.sessions() {
        parts.extend([(Part::A, a), (Part::B, b)]);
    }
    parts.retain(|&(_, name)| name == session);
    let named = |(part, _)| Named::Message {
        part,
        direction: route.direction,
        kind: body.kind(),
    };
    parts.into_iter().map(named).collect()
}
