//! Topics, for a host that chooses one: the first byte of a body says what it is about.
//!
//! Whether a class may send a topic is asked of the node, which refuses a send without the right with 21.
//!
//! ```
//! use host::{topics, Class, Node, Output};
//!
//! let (mut camera, mut output) = (Node::set_up(2, 4, 4)?, Output::new());
//! let body = [&[*topics::EXPOSURE.start()], &b"report"[..]].concat();
//! let sent = camera.send(3, Class::Camera, &body, &mut output)?;
//! assert_eq!(sent.issued[8..15], *b"\x20report");
//! # Ok::<(), host::Refusal>(())
//! ```

use std::ops::RangeInclusive;

/// Motion.
pub const MOTION: RangeInclusive<u8> = 0..=31;
/// Exposure.
pub const EXPOSURE: RangeInclusive<u8> = 32..=95;
/// Filing.
pub const FILING: RangeInclusive<u8> = 96..=127;
/// Notes.
pub const NOTES: RangeInclusive<u8> = 128..=255;
/// The topic of an empty body.
pub const EMPTY: u8 = 128;
