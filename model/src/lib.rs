//! A plain model of the lock manager (01: the desk), written from document 01,
//! the requests of document 02 that have landed and the recorded readings of
//! them, without sight of the product's code, to check the product against.
//!
//! A call decodes the lent buffers into records, applies one rule and encodes
//! what follows. Comments in quotation marks are the words of 01, or of 02
//! where the name of a request stands before them, as `F-1:`.

pub mod answers;
pub mod branch;
pub mod calls;
pub mod config;
pub mod demand3;
pub mod item;
pub mod layout;
pub mod mailbox;
pub mod names;
pub mod policy;
pub mod ranks;
pub mod replay;
pub mod scenario;
pub mod session;
pub mod statement;
pub mod table;
pub mod waits;

pub use answers::{Answer, Cycle, Drained, Ending, Refusal, Text, Verb, ACCEPTED};
pub use calls::{cycle_text, drain, reopen, report, start, step, Calls};
pub use config::Config;
pub use policy::{Policy, RULES};
pub use ranks::Ranks;
pub use replay::replay;
pub use statement::statement;
