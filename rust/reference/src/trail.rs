//! The trail: a file of frames end to end, written on at its end and read back from there.

use crate::frame::{Frame, EXTRA, TRAILER};
use crate::Refusal;
use std::ops::RangeInclusive;

/// How many successive frames a window may have.
pub const WINDOWS: RangeInclusive<usize> = 1..=64;

/// A frame of a file, and where it starts there.
#[derive(Clone, Copy, Debug)]
pub struct Shown<'a> {
    pub start: usize,
    pub frame: Frame<'a>,
}

impl Shown<'_> {
    /// How many bytes the frame has.
    pub fn length(&self) -> usize {
        self.frame.bytes().len()
    }

    /// Whether it is an extra frame.
    pub fn is_extra(&self) -> bool {
        self.frame.kind() == EXTRA
    }
}

/// Writes one frame on behind the bytes in use and gives the number in use after it; 19 for a frame that is not sound
/// on its own, then 3 where it does not fit.
pub fn write(file: &mut [u8], used: usize, frame: &[u8]) -> Result<usize, Refusal> {
    Frame::check_alone(frame).or(Err(19))?;
    let room = file.get_mut(used..).unwrap_or_default();
    room.get_mut(..frame.len()).ok_or(3)?.copy_from_slice(frame);
    Ok(used + frame.len())
}

/// The frames of a file, the last first, up to its start or up to 19 where there is no sound frame.
pub fn back(file: &[u8]) -> impl Iterator<Item = Result<Shown<'_>, Refusal>> {
    let mut left = file;
    std::iter::from_fn(move || {
        if left.is_empty() {
            return None;
        }
        let shown = last_of(left);
        left = shown.map_or(&[], |shown| &left[..shown.start]);
        Some(shown.ok_or(19))
    })
}

/// The frame that the trailer at the end of the bytes points back to, if it is there and sound on its own.
pub fn last_of(bytes: &[u8]) -> Option<Shown<'_>> {
    let [low, high, ..] = *bytes.last_chunk::<TRAILER>()?;
    let length = u16::from_le_bytes([low, high]) as usize + TRAILER;
    let start = bytes.len().checked_sub(length)?;
    let frame = Frame::check_alone(&bytes[start..]).ok()?;
    Some(Shown { start, frame })
}

/// The largest count of extra frames in any window of w successive frames of a file, the whole file where it has fewer;
/// 19 when w is out of range or the file is damaged.
pub fn walk(file: &[u8], w: usize) -> Result<usize, Refusal> {
    let mut window = Window::new(w)?;
    for shown in back(file) {
        window.add(shown?.is_extra());
    }
    Ok(window.most)
}

/// The last w frames, how many of them are extra frames, and the most that were so far.
struct Window {
    /// A ring: whether each of the last w is an extra frame, false where there was none yet.
    kinds: [bool; *WINDOWS.end()],
    w: usize,
    /// The place of the oldest in the ring.
    oldest: usize,
    extras: usize,
    most: usize,
}

impl Window {
    /// A window before its first frame; 19 when w is out of range.
    fn new(w: usize) -> Result<Window, Refusal> {
        if !WINDOWS.contains(&w) {
            return Err(19);
        }
        Ok(Window { kinds: [false; *WINDOWS.end()], w, oldest: 0, extras: 0, most: 0 })
    }

    /// Takes in the next frame, for which the oldest of w leaves.
    fn add(&mut self, extra: bool) {
        let leaves = std::mem::replace(&mut self.kinds[self.oldest], extra);
        self.oldest = if self.oldest + 1 == self.w { 0 } else { self.oldest + 1 };
        self.extras = self.extras + usize::from(extra) - usize::from(leaves);
        self.most = self.most.max(self.extras);
    }
}

/// The largest count of extra frames in any w successive ones of these, or in all of them where they are fewer than w,
/// counted anew for each window; w is not 0.
pub fn largest(w: usize, extras: &[bool]) -> usize {
    let count = |window: &[bool]| window.iter().filter(|extra| **extra).count();
    if extras.len() < w {
        return count(extras);
    }
    extras.windows(w).map(count).max().unwrap_or(0)
}
