//! The lock manager's library beside the Rust model: both get the same calls on
//! the same bytes, and every answer and every byte left must be equal.

pub mod cases;
pub mod comparison;
pub mod coverage;
pub mod edges;
pub mod fast;
pub mod forge;
pub mod library;
pub mod numbers;
pub mod program;
pub mod stream;
