//! Cases for differential tests of the causal node and the trail: sound, damaged and at every bound, from a seed.
#![forbid(unsafe_code)]

pub mod bounds;
pub mod case;
pub mod counts;
pub mod first_line;
pub mod frames;
pub mod generator;
pub mod images;
pub mod loads;
pub mod neighbours;
pub mod records;
pub mod shelves;
pub mod states;
pub mod texts;
pub mod topics;
pub mod trails;
pub mod yards;

pub use case::{Answer, Buffers, Call, Case, Outcome, Stepped, Walked};
pub use generator::Generator;
pub use images::Made;
