//! The proved node and trail beside the second implementation, call by call: returned number, image, answer and every
//! byte of every buffer; and the programs beside it, input by input.
#![forbid(unsafe_code)]

pub mod arguments;
pub mod caps;
pub mod ceilings;
pub mod crafted;
pub mod difference;
pub mod hostile;
pub mod lists;
pub mod pair;
pub mod printed;
pub mod program;
pub mod run;
pub mod stored;
pub mod taken;
pub mod trails;

pub use difference::Difference;
pub use pair::{compare, Lent};
