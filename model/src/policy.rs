//! What the parties do on delivery, as a value that a step is given.

use crate::item::{self, Item};
use crate::mailbox::Body;
use crate::ranks::Ranks;
use crate::session::{self, Session};

/// What an item and a session do with a message. A test may give a step another
/// policy than the rules, to show that it would notice.
#[derive(Clone, Copy)]
pub struct Policy {
    /// An item, and the session from which the message comes.
    pub item: fn(Item, u8, Body, &Ranks) -> item::Outcome,
    /// A session, its number, and the item from which the message comes.
    pub session: fn(Session, u8, u8, Body, &Ranks) -> session::Outcome,
}

/// The rules.
pub const RULES: Policy = Policy {
    item: Item::receive,
    session: Session::receive,
};
