//! What a line of the yard did, as events that print as the yard's lines.

use crate::Refusal;
use std::fmt::{self, Display, Formatter};

/// One line that the yard prints for a step; issues are counted from 1.
#[derive(Clone, Copy, Debug, PartialEq, Eq)]
pub enum Event {
    /// A frame was issued by a send or, if it is extra, by trim.
    Issued { extra: bool, issue: usize, from: usize, to: usize, entries: usize },
    /// An offer was accepted; held counts the frames now held there.
    Held { issue: usize, held: usize },
    /// A frame was delivered.
    Delivered { node: usize, issue: usize, looked: usize },
    /// No held frame was deliverable.
    None { node: usize, looked: usize },
    /// The line was refused.
    Refused(Refusal),
}

impl Display for Event {
    fn fmt(&self, f: &mut Formatter<'_>) -> fmt::Result {
        match self {
            Event::Issued { extra, issue, from, to, entries } => {
                let letter = if *extra { 'X' } else { 'S' };
                write!(f, "{letter} {issue} {from} {to} {entries}")
            }
            Event::Held { issue, held } => write!(f, "A {issue} {held}"),
            Event::Delivered { node, issue, looked } => write!(f, "D {node} {issue} {looked}"),
            Event::None { node, looked } => write!(f, "N {node} {looked}"),
            Event::Refused(number) => write!(f, "R {number}"),
        }
    }
}
