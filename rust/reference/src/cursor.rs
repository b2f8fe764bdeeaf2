//! A walk of a trail one step at a time, by five numbers that the caller keeps between the steps.

use crate::trail::{last_of, Shown, WINDOWS};
use crate::Refusal;

/// Where a walk stands and what its window has. The caller may bring any five numbers.
#[derive(Clone, Copy, Debug, PartialEq, Eq)]
pub struct Cursor {
    /// What is left is in front of this, and all of the file where it is above the file's length.
    pub end: u64,
    /// Successive frames of a window.
    pub w: u64,
    /// Bit i is 1 where the frame shown i + 1 steps ago was an extra frame.
    pub kinds: u64,
    /// Extra frames among the last w shown.
    pub extras: u64,
    /// The largest count so far.
    pub most: u64,
}

impl Cursor {
    /// The start of a walk.
    pub fn start(file: &[u8], w: usize) -> Cursor {
        Cursor { end: file.len() as u64, w: w as u64, kinds: 0, extras: 0, most: 0 }
    }

    /// The cursor with these numbers.
    pub fn of([end, w, kinds, extras, most]: [u64; 5]) -> Cursor {
        Cursor { end, w, kinds, extras, most }
    }

    /// The five numbers in their order.
    pub fn numbers(&self) -> [u64; 5] {
        [self.end, self.w, self.kinds, self.extras, self.most]
    }

    /// Shows the last frame of what is left, and the cursor behind it; nothing where nothing is left; 19 when w is out
    /// of range, and then where there is no sound frame.
    pub fn step<'a>(&self, file: &'a [u8]) -> Result<Option<(Shown<'a>, Cursor)>, Refusal> {
        if !usize::try_from(self.w).is_ok_and(|w| WINDOWS.contains(&w)) {
            return Err(19);
        }
        let end = usize::try_from(self.end).map_or(file.len(), |end| end.min(file.len()));
        if end == 0 {
            return Ok(None);
        }
        let shown = last_of(&file[..end]).ok_or(19)?;
        Ok(Some((shown, self.after(&shown))))
    }

    /// The cursor after a frame is shown, w being in range.
    fn after(&self, shown: &Shown) -> Cursor {
        let (extra, leaves) = (u64::from(shown.is_extra()), self.kinds >> (self.w - 1) & 1);
        let extras = (self.extras.min(self.w) + extra).saturating_sub(leaves);
        let most = self.most.max(extras);
        Cursor { end: shown.start as u64, w: self.w, kinds: self.kinds << 1 | extra, extras, most }
    }
}
