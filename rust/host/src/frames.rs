//! Frames as bytes: cutting an output, or the front of a trail, into the frames that lie there end to end.

use crate::sizes::{FRAME, SHORTEST};
use std::iter::FusedIterator;

/// Where the entries of a frame start.
const HEADER: usize = 8;
/// Bytes of an entry: row, column, value (four).
const ENTRY: usize = 6;

/// What a frame is.
#[derive(Clone, Copy, Debug, PartialEq, Eq, Hash)]
pub enum Kind {
    /// A message of a node's user.
    User = 1,
    /// A frame that the algorithm adds: it has no body, and is brought and delivered like others.
    Extra = 2,
}

impl Kind {
    /// The kind with this byte.
    pub fn of(byte: u8) -> Option<Kind> {
        [Kind::User, Kind::Extra].into_iter().find(|kind| *kind as u8 == byte)
    }
}

/// One frame of an output: 12 + 6 × e + b bytes by its own e and b, and at most 802.
///
/// It is cut out and not checked. What a node issued is sound; what a link brings is checked by an offer.
#[derive(Clone, Copy, Debug, PartialEq, Eq)]
pub struct Frame<'a> {
    bytes: &'a [u8],
}

impl<'a> Frame<'a> {
    /// The frame at the front of the bytes, if it is there whole.
    pub fn first_of(bytes: &'a [u8]) -> Option<Frame<'a>> {
        Some(Frame { bytes: bytes.get(..length_of(bytes)?)? })
    }

    /// The whole frame, as it is to be transmitted.
    pub fn bytes(&self) -> &'a [u8] {
        self.bytes
    }

    /// What it is; none where its first byte is no kind.
    pub fn kind(&self) -> Option<Kind> {
        Kind::of(self.bytes[0])
    }

    /// The node that issued it.
    pub fn from(&self) -> usize {
        self.bytes[1] as usize
    }

    /// The node that it is to be brought to.
    pub fn to(&self) -> usize {
        self.bytes[2] as usize
    }

    /// Its number among the frames between these two nodes, counted from 1: with from and to it names the frame, and a
    /// delivery answers with it.
    pub fn number(&self) -> u32 {
        let (from, to) = (self.bytes[1], self.bytes[2]);
        let entries = &self.bytes[HEADER..HEADER + ENTRY * self.bytes[3] as usize];
        let before = entries.chunks_exact(ENTRY).find(|entry| entry[0] == from && entry[1] == to);
        before.map_or(1, |entry| u32::from_le_bytes([entry[2], entry[3], entry[4], entry[5]]).saturating_add(1))
    }
}

/// How long the frame at the front of the bytes says that it is, where a frame can be so long.
fn length_of(bytes: &[u8]) -> Option<usize> {
    let [_, _, _, e, b, ..] = *bytes else {
        return None;
    };
    Some(SHORTEST + ENTRY * usize::from(e) + usize::from(b)).filter(|length| *length <= FRAME)
}

/// The frames that lie end to end from the front of some bytes, up to where there is no whole frame.
///
/// ```
/// use host::Frames;
///
/// let frame = [0x01, 0x00, 0x01, 0x00, 0x01, 0x03, 0x03, 0x00, 0x4F, 0x09, 0x00, 0x51, 0x03];
/// let bytes = [&frame[..], &frame, b"cut"].concat();
/// let mut frames = Frames::new(&bytes);
/// assert!(frames.by_ref().map(|frame| frame.bytes()).eq([frame, frame]));
/// assert_eq!(frames.rest(), b"cut");
/// ```
#[derive(Clone, Debug)]
pub struct Frames<'a> {
    rest: &'a [u8],
}

impl<'a> Frames<'a> {
    /// The frames of these bytes.
    pub fn new(bytes: &'a [u8]) -> Frames<'a> {
        Frames { rest: bytes }
    }

    /// What has not been cut yet; after the last frame it is empty, unless the bytes end in something else.
    pub fn rest(&self) -> &'a [u8] {
        self.rest
    }
}

impl<'a> Iterator for Frames<'a> {
    type Item = Frame<'a>;

    fn next(&mut self) -> Option<Frame<'a>> {
        let frame = Frame::first_of(self.rest)?;
        self.rest = &self.rest[frame.bytes.len()..];
        Some(frame)
    }
}

impl FusedIterator for Frames<'_> {}
