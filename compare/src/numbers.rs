//! The model's numbers as constants, for code that works on bytes.

use model::mailbox::Direction;
use model::session::Stage;
use model::Verb;

pub use model::mailbox::kind;

/// Verbs of a step.
pub const REQUEST: u64 = Verb::Request as u64;
pub const RELEASE: u64 = Verb::Release as u64;
pub const DELIVER_TO_ITEM: u64 = Verb::DeliverToItem as u64;
pub const DELIVER_TO_SESSION: u64 = Verb::DeliverToSession as u64;

/// Directions of a message.
pub const TO_ITEM: u8 = Direction::ToItem as u8;
pub const TO_SESSION: u8 = Direction::ToSession as u8;

/// The direction in which a verb delivers.
pub fn delivered_direction(verb: u64) -> Option<u8> {
    match verb {
        DELIVER_TO_ITEM => Some(TO_ITEM),
        DELIVER_TO_SESSION => Some(TO_SESSION),
        _ => None,
    }
}

/// Stages of a session.
pub const GROWING: u8 = Stage::Growing as u8;
pub const WAITING: u8 = Stage::Waiting as u8;
pub const SHRINKING: u8 = Stage::Shrinking as u8;
pub const CLEANING: u8 = Stage::Cleaning as u8;
pub const WITHDRAWING: u8 = Stage::Withdrawing as u8;
pub const ROLLED_BACK: u8 = Stage::RolledBack as u8;
