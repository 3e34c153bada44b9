//! The mailbox (01: the mail): messages (01: entries) in order of sending,
//! each on a route and with a body.

use crate::layout::{
    body_at, mail_length, read_u16, route_at, routes_end, within, write_u16, BODY_A, BODY_B,
    BODY_SIZE, DIRECTION, KIND, MAIL_CAPACITY, MAIL_COUNT, MAIL_HEADER, MAX_CAPACITY, MAX_ITEMS,
    MAX_SESSIONS, ROUTE_ITEM, ROUTE_SESSION, ROUTE_SIZE,
};

/// "Direction 1 runs session to item, 2 item to session."
#[derive(Clone, Copy, PartialEq, Eq, Debug)]
#[repr(u8)]
pub enum Direction {
    ToItem = 1,
    ToSession = 2,
}

#[derive(Clone, Copy, PartialEq, Eq, Debug)]
pub struct Route {
    pub direction: Direction,
    pub session: u8,
    pub item: u8,
}

/// The kinds of message, with their a and b by name.
#[derive(Clone, Copy, PartialEq, Eq, Debug)]
pub enum Body {
    Request,
    Release,
    Probe { initiator: u8, junior: u8 },
    Clean { victim: u8, initiator: u8 },
    Rebroadcast,
    Withdraw,
    Grant,
    Resend,
    Abort { victim: u8, initiator: u8 },
    Withdrawn,
}

/// "Kinds: 1 request, 2 release, 3 probe (initiator, junior), ..."
pub mod kind {
    pub const REQUEST: u8 = 1;
    pub const RELEASE: u8 = 2;
    pub const PROBE: u8 = 3;
    pub const CLEAN: u8 = 4;
    pub const REBROADCAST: u8 = 5;
    pub const WITHDRAW: u8 = 6;
    pub const GRANT: u8 = 7;
    pub const RESEND: u8 = 8;
    pub const ABORT: u8 = 9;
    pub const WITHDRAWN: u8 = 10;
}

impl Body {
    fn encode(self) -> [u8; BODY_SIZE] {
        match self {
            Body::Request => [kind::REQUEST, 0, 0],
            Body::Release => [kind::RELEASE, 0, 0],
            Body::Probe { initiator, junior } => [kind::PROBE, initiator, junior],
            Body::Clean { victim, initiator } => [kind::CLEAN, victim, initiator],
            Body::Rebroadcast => [kind::REBROADCAST, 0, 0],
            Body::Withdraw => [kind::WITHDRAW, 0, 0],
            Body::Grant => [kind::GRANT, 0, 0],
            Body::Resend => [kind::RESEND, 0, 0],
            Body::Abort { victim, initiator } => [kind::ABORT, victim, initiator],
            Body::Withdrawn => [kind::WITHDRAWN, 0, 0],
        }
    }

    /// Its number.
    pub fn kind(self) -> u8 {
        self.encode()[KIND]
    }

    /// "Kinds 3, 4 and 9 have a and b in 1 to S; the others have zeros."
    fn decode(bytes: &[u8], sessions: usize) -> Option<Body> {
        let (a, b) = (bytes[BODY_A], bytes[BODY_B]);
        let body = match bytes[KIND] {
            kind::REQUEST => Body::Request,
            kind::RELEASE => Body::Release,
            kind::PROBE => Body::Probe {
                initiator: a,
                junior: b,
            },
            kind::CLEAN => Body::Clean {
                victim: a,
                initiator: b,
            },
            kind::REBROADCAST => Body::Rebroadcast,
            kind::WITHDRAW => Body::Withdraw,
            kind::GRANT => Body::Grant,
            kind::RESEND => Body::Resend,
            kind::ABORT => Body::Abort {
                victim: a,
                initiator: b,
            },
            kind::WITHDRAWN => Body::Withdrawn,
            _ => return None,
        };
        let in_bounds = match body {
            Body::Probe { .. } | Body::Clean { .. } | Body::Abort { .. } => {
                within(a.into(), sessions).is_some() && within(b.into(), sessions).is_some()
            }
            _ => a == 0 && b == 0,
        };
        in_bounds.then_some(body)
    }

    /// The a and b of the kinds in which they are sessions.
    pub fn sessions(self) -> Option<(u8, u8)> {
        match self {
            Body::Probe { initiator, junior } => Some((initiator, junior)),
            Body::Clean { victim, initiator } | Body::Abort { victim, initiator } => {
                Some((victim, initiator))
            }
            _ => None,
        }
    }

    /// "Direction 1 carries 1 to 6; direction 2 carries 3, 4, 7 to 10." and
    /// "In an abort, a is the session addressed."
    fn may_travel(self, route: Route) -> bool {
        match self {
            Body::Request | Body::Release | Body::Rebroadcast | Body::Withdraw => {
                route.direction == Direction::ToItem
            }
            Body::Probe { .. } | Body::Clean { .. } => true,
            Body::Grant | Body::Resend | Body::Withdrawn => route.direction == Direction::ToSession,
            Body::Abort { victim, .. } => {
                route.direction == Direction::ToSession && victim == route.session
            }
        }
    }
}

impl Route {
    fn encode(self) -> [u8; ROUTE_SIZE] {
        [self.direction as u8, self.session, self.item]
    }

    /// "route (direction, session 1 to S, item 1 to M)".
    fn decode(bytes: &[u8], sessions: usize, items: usize) -> Option<Route> {
        let direction = [Direction::ToItem, Direction::ToSession]
            .into_iter()
            .find(|direction| *direction as u8 == bytes[DIRECTION])?;
        let (session, item) = (bytes[ROUTE_SESSION], bytes[ROUTE_ITEM]);
        within(session.into(), sessions)?;
        within(item.into(), items)?;
        Some(Route {
            direction,
            session,
            item,
        })
    }
}

#[derive(Clone, Copy, PartialEq, Eq, Debug)]
pub struct Message {
    pub route: Route,
    pub body: Body,
}

impl Message {
    /// The message at a place, if it is well-formed.
    fn decode(
        mail: &[u8],
        capacity: usize,
        place: usize,
        sessions: usize,
        items: usize,
    ) -> Option<Message> {
        let route = Route::decode(&mail[route_at(place)], sessions, items)?;
        let body = Body::decode(&mail[body_at(capacity, place)], sessions)?;
        body.may_travel(route).then_some(Message { route, body })
    }
}

/// The number of messages in the mail; "Mail is empty when its count is 0."
pub fn count(mail: &[u8]) -> usize {
    read_u16(&mail[MAIL_COUNT]).into()
}

/// The message at a place of well-formed mail, 0 being the oldest.
pub fn message(mail: &[u8], place: usize) -> Message {
    let capacity = read_u16(&mail[MAIL_CAPACITY]).into();
    let message = Message::decode(mail, capacity, place, MAX_SESSIONS, MAX_ITEMS);
    message.expect("a message of well-formed mail")
}

#[derive(Clone, PartialEq, Eq, Debug)]
pub struct Mailbox {
    pub capacity: usize,
    /// In order of sending.
    pub messages: Vec<Message>,
}

impl Mailbox {
    /// "empty mail of capacity C".
    pub fn empty(capacity: usize) -> Mailbox {
        Mailbox {
            capacity,
            messages: Vec::new(),
        }
    }

    /// C, if it is within its bounds and the length matches.
    pub fn capacity(mail: &[u8]) -> Option<usize> {
        if mail.len() < MAIL_HEADER {
            return None;
        }
        let capacity = within(read_u16(&mail[MAIL_CAPACITY]).into(), MAX_CAPACITY)?;
        (mail.len() == mail_length(capacity)).then_some(capacity)
    }

    /// The messages, if the mail is well-formed (01: in form). The length has
    /// been judged before.
    pub fn decode(mail: &[u8], sessions: usize, items: usize) -> Option<Mailbox> {
        let capacity = Mailbox::capacity(mail)?;
        let count = count(mail);
        if count > capacity {
            return None;
        }
        // "unused ones are zero"
        let unused_routes = &mail[route_at(count).start..routes_end(capacity)];
        let unused_bodies = &mail[body_at(capacity, count).start..mail_length(capacity)];
        if unused_routes.iter().chain(unused_bodies).any(|&b| b != 0) {
            return None;
        }
        let message = |place| Message::decode(mail, capacity, place, sessions, items);
        Some(Mailbox {
            capacity,
            messages: (0..count).map(message).collect::<Option<_>>()?,
        })
    }

    /// Writes "C (2), count (2), then two parallel arrays of C entries".
    pub fn encode(&self, mail: &mut [u8]) {
        mail.fill(0);
        write_u16(&mut mail[MAIL_CAPACITY], self.capacity);
        write_u16(&mut mail[MAIL_COUNT], self.messages.len());
        for (place, message) in self.messages.iter().enumerate() {
            mail[route_at(place)].copy_from_slice(&message.route.encode());
            mail[body_at(self.capacity, place)].copy_from_slice(&message.body.encode());
        }
    }

    /// "Delivery takes the earliest entry of one route, and the rest close up."
    pub fn take(&mut self, route: Route) -> Option<Body> {
        let place = self.messages.iter().position(|m| m.route == route)?;
        Some(self.messages.remove(place).body)
    }
}
