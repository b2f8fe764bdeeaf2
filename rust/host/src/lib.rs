//! The proved causal node for a host program in Rust.
//!
//! Nodes talk over links that lose, repeat, delay and reorder. Of two messages to one node, the one whose sending
//! happened before the other's is delivered first. A host sets each node up once, sends, offers what its links bring,
//! and delivers; `docs/host.md` has its duties, and what happens when one is not done.
//!
//! ```
//! use host::{Class, Delivered, Node, Output};
//!
//! // The cover tells the archive "closing" and then the camera "closed"; the camera reports to the archive. The first
//! // byte of each body is its topic: the cover's is a motion, the camera's an exposure.
//! let [mut cover, mut camera, mut archive] = [0, 2, 3].map(|me| Node::set_up(me, 4, 4).unwrap());
//! let mut output = Output::new();
//! let closing = cover.send(3, Class::Mover, b"\x01closing", &mut output)?.issued.to_vec();
//! let closed = cover.send(2, Class::Mover, b"\x02closed", &mut output)?.issued.to_vec();
//! camera.offer(&closed)?;
//! assert_eq!(camera.deliver(&mut output)?.frame().unwrap().body, b"\x02closed");
//! let report = camera.send(3, Class::Camera, b"\x20report", &mut output)?.issued.to_vec();
//!
//! // The report arrives first, and has to wait.
//! archive.offer(&report)?;
//! assert!(matches!(archive.deliver(&mut output)?, Delivered::None { looked: 1 }));
//! archive.offer(&closing)?;
//! for expected in [&b"\x01closing"[..], b"\x20report"] {
//!     assert_eq!(archive.deliver(&mut output)?.frame().unwrap().body, expected);
//! }
//! # Ok::<(), host::Refusal>(())
//! ```
//!
//! [`Class`] is what a node is and [`topics`] what a body is about: together they decide who may say what.
//!
//! [`trail`] is the trail, the file in which an archive keeps its delivered frames. [`lent`] has the calls as they are
//! exported, over lent slices of any length; a host needs it only where it cannot use [`Node`]. The crate needs nothing
//! but the archive `libhost.a`, which `rust/archives host` writes.
#![deny(unsafe_code)]
#![warn(missing_docs)]

mod answers;
mod class;
mod frames;
#[allow(unsafe_code)]
pub mod lent;
mod node;
mod refusal;
pub mod sizes;
pub mod topics;
pub mod trail;

pub use answers::{Delivered, Delivery, Output, Sent};
pub use class::Class;
pub use frames::{Frame, Frames, Kind};
pub use node::Node;
pub use refusal::Refusal;
