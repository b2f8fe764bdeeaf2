//! The causal node in plain Rust: a second implementation, written from documents 01 and 02 and the
//! readings of their open points, not from the proved code or its definitions.
//!
//! It is compared with the proved implementation by differential tests, and is the yardstick of its benchmark.
#![forbid(unsafe_code)]

pub mod boundary;
pub mod ceiling;
pub mod cursor;
pub mod draft;
pub mod event;
pub mod frame;
pub mod history;
pub mod host;
pub mod image;
pub mod list;
pub mod load;
pub mod node;
pub mod plant;
pub mod program;
pub mod random;
pub mod record;
pub mod recount;
pub mod rights;
pub mod shelf;
pub mod text;
pub mod trail;
pub mod xorshift;
pub mod yard;

pub use load::load;
pub use node::{deliver, offer, send, set_up, DeliverAnswer, OfferAnswer, SendAnswer};
pub use record::Record;
pub use yard::yard;

/// A refusal is its number.
pub type Refusal = u8;
