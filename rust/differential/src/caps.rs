//! What lists met of nodes whose caps differ.

use reference::frame::{Frame, EXTRA};
use reference::history::{ensure, Wrong};
use reference::Record;
use std::cmp::Ordering;

/// How often lists came to frames of senders with another cap; pairs are of user frames and of extra frames.
#[derive(Clone, Copy, Debug, Default)]
pub struct Caps {
    /// Lists with one cap for all nodes.
    pub alike: usize,
    /// Lists with the least cap beside the largest.
    pub apart: usize,
    /// Frames held at a node with a larger cap than the sender's.
    pub from_smaller: [usize; 2],
    /// Frames held at a node with a smaller cap than the sender's.
    pub from_larger: [usize; 2],
    /// Frames held that carry more entries than the node's cap; an extra frame carries one column, which is fewer.
    pub beyond: usize,
    /// Such frames delivered.
    pub beyond_delivered: usize,
    /// Such frames whose delivery issued extra frames.
    pub beyond_trimmed: usize,
}

impl Caps {
    /// Takes up a list of nodes with these caps.
    pub fn list(&mut self, caps: &[usize]) {
        let n = caps.len();
        self.alike += usize::from(caps.iter().all(|cap| *cap == caps[0]));
        self.apart += usize::from(caps.contains(&n) && caps.contains(&(n * n)));
    }

    /// Takes up a frame that is held at a node.
    pub fn held(&mut self, node: &Record, frame: Frame) -> Result<(), Wrong> {
        let (extra, own) = (frame.kind() == EXTRA, node.cap as usize);
        let beyond = frame.entry_count() > own;
        ensure(!beyond || !extra, || format!("an extra frame carries {} entries to cap {own}", frame.entry_count()))?;
        self.beyond += usize::from(beyond);
        match frame.cap().cmp(&own) {
            Ordering::Less => self.from_smaller[usize::from(extra)] += 1,
            Ordering::Equal => (),
            Ordering::Greater => self.from_larger[usize::from(extra)] += 1,
        }
        Ok(())
    }

    /// Takes up a delivery at a node that issued so many extra frames.
    pub fn delivered(&mut self, node: &Record, frame: Frame, extras: usize) {
        let beyond = frame.entry_count() > node.cap as usize;
        self.beyond_delivered += usize::from(beyond);
        self.beyond_trimmed += usize::from(beyond && extras > 0);
    }
}
