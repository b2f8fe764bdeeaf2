//! The trail of the proved code: a file of frames end to end, written on at its end and walked back from there.
//!
//! A file here is bytes in memory: of one that has room behind what is written, a walk is lent the bytes in use alone.
//!
//! ```
//! use host::trail::{largest, write, Walk};
//!
//! let frame = [0x01, 0x00, 0x01, 0x00, 0x01, 0x03, 0x03, 0x00, 0x4F, 0x09, 0x00, 0x51, 0x03];
//! let (mut file, mut used) = ([0; 64], 0);
//! write(&mut file, &mut used, &frame)?;
//! write(&mut file, &mut used, &frame)?;
//! let mut walk = Walk::new(&file[..used], 8);
//! for shown in walk.by_ref() {
//!     assert_eq!(file[shown?.range()], frame);
//! }
//! assert_eq!(walk.largest(), Some(0));
//! assert_eq!(largest(&file[..used], 8), Ok(0));
//! # Ok::<(), host::Refusal>(())
//! ```

use crate::lent::{self, Cursor, Place};
use crate::refusal::Refusal;
use std::iter::FusedIterator;
use std::ops::{Range, RangeInclusive};

/// How many successive frames a window may have.
pub const WINDOWS: RangeInclusive<usize> = 1..=64;

/// Writes one frame on behind the bytes in use, the number of which grows by it; 19 for a frame that is not sound on
/// its own, 3 where it does not fit, and then file and number stay.
pub fn write(file: &mut [u8], used: &mut usize, frame: &[u8]) -> Result<(), Refusal> {
    Refusal::unless_zero(lent::write(file, used, frame))
}

/// The largest count of extra frames in any window of w successive frames (1 to 64) of a file; 19 when w is out of
/// range or the file is damaged.
pub fn largest(file: &[u8], w: usize) -> Result<usize, Refusal> {
    let mut most = 0;
    Refusal::unless_zero(lent::walk(file, w, &mut most)).map(|()| most)
}

/// Where a frame is in a file.
#[derive(Clone, Copy, Debug, PartialEq, Eq)]
pub struct Shown {
    /// Its first byte.
    pub start: usize,
    /// How many bytes it has.
    pub length: usize,
}

impl Shown {
    /// The frame's bytes in its file.
    pub fn range(&self) -> Range<usize> {
        self.start..self.start + self.length
    }
}

/// A walk from a file's end back to its start: it gives each frame's place, the last first, or 19 and then no more.
#[derive(Clone, Debug)]
pub struct Walk<'a> {
    file: &'a [u8],
    cursor: Cursor,
    state: State,
}

/// How far a walk came.
#[derive(Clone, Copy, Debug, PartialEq, Eq)]
enum State {
    Going,
    AtStart,
    Refused,
}

impl<'a> Walk<'a> {
    /// A walk over the bytes in use with windows of w successive frames (1 to 64, or the first step is refused).
    pub fn new(file: &'a [u8], w: usize) -> Walk<'a> {
        Walk { file, cursor: lent::walk_start(file, w), state: State::Going }
    }

    /// How many bytes are left in front of where the walk stands; after a refusal no sound frame ends there.
    pub fn left(&self) -> usize {
        self.cursor[0] as usize
    }

    /// The largest count of extra frames in any window, once the walk has come to the start.
    pub fn largest(&self) -> Option<usize> {
        (self.state == State::AtStart).then_some(self.cursor[4] as usize)
    }

    /// One step on: a place, or none at the start.
    fn step(&mut self) -> Result<Option<Shown>, Refusal> {
        let mut place: Place = [0; 2];
        Refusal::unless_zero(lent::step(self.file, &mut self.cursor, &mut place))?;
        let [start, length] = place.map(|number| number as usize);
        Ok((length > 0).then_some(Shown { start, length }))
    }
}

impl Iterator for Walk<'_> {
    type Item = Result<Shown, Refusal>;

    fn next(&mut self) -> Option<Result<Shown, Refusal>> {
        if self.state != State::Going {
            return None;
        }
        let step = self.step();
        self.state = match step {
            Ok(Some(_)) => State::Going,
            Ok(None) => State::AtStart,
            Err(_) => State::Refused,
        };
        step.transpose()
    }
}

impl FusedIterator for Walk<'_> {}
