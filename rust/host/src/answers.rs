//! What the calls write: their outputs, and their answers as structs.

use crate::frames::{Frames, Kind};
use crate::sizes::{ANSWER, BODY, OUTPUT};
use std::fmt::{self, Debug, Formatter};

/// The buffers that a send or a deliver writes to, to be used again for any call of any node.
#[derive(Clone)]
pub struct Output {
    pub(crate) frames: [u8; OUTPUT],
    pub(crate) body: [u8; BODY],
}

impl Output {
    /// Buffers of the sizes that are needed.
    pub fn new() -> Output {
        Output { frames: [0; OUTPUT], body: [0; BODY] }
    }
}

impl Default for Output {
    fn default() -> Output {
        Output::new()
    }
}

impl Debug for Output {
    fn fmt(&self, f: &mut Formatter<'_>) -> fmt::Result {
        f.debug_struct("Output").finish_non_exhaustive()
    }
}

/// What a send answers: the frames that it issued, the user frame first and then any extra ones.
#[must_use = "the issued frames have to be kept and transmitted: the node does not issue them again"]
#[derive(Clone, Copy, Debug)]
pub struct Sent<'o> {
    /// How many of the frames are extra ones.
    pub extras: usize,
    /// The frames end to end.
    pub issued: &'o [u8],
}

impl<'o> Sent<'o> {
    /// The frames, in the order in which they were issued.
    pub fn frames(&self) -> Frames<'o> {
        Frames::new(self.issued)
    }

    /// What an answer says of a send.
    pub(crate) fn read(answer: &[u8; ANSWER], output: &'o Output) -> Sent<'o> {
        let [.., extras, low, high] = *answer;
        Sent { extras: extras as usize, issued: &output.frames[..usize::from(u16::from_le_bytes([low, high]))] }
    }
}

/// What a deliver answers.
#[must_use = "a frame that was delivered is not delivered again"]
#[derive(Clone, Copy, Debug)]
pub enum Delivered<'o> {
    /// The first held frame that could be delivered.
    Frame(Delivery<'o>),
    /// No held frame can be delivered yet; looked is how many were tried, which is all that are held.
    None {
        /// Frames tried.
        looked: usize,
    },
}

/// A delivered frame, and what was issued with its delivery.
#[must_use = "a frame that was delivered is not delivered again"]
#[derive(Clone, Copy, Debug)]
pub struct Delivery<'o> {
    /// A message for the user, or an extra frame, which has no body.
    pub kind: Kind,
    /// The node that issued it.
    pub from: usize,
    /// Its number among the frames from there to here.
    pub number: u32,
    /// The held frames tried, this one the last.
    pub looked: usize,
    /// The message's body.
    pub body: &'o [u8],
    /// How many extra frames were issued.
    pub extras: usize,
    /// These frames end to end.
    pub issued: &'o [u8],
}

impl<'o> Delivery<'o> {
    /// The extra frames that the delivery issued.
    pub fn frames(&self) -> Frames<'o> {
        Frames::new(self.issued)
    }
}

impl<'o> Delivered<'o> {
    /// The delivered frame, if there is one.
    pub fn frame(self) -> Option<Delivery<'o>> {
        match self {
            Delivered::Frame(delivery) => Some(delivery),
            Delivered::None { .. } => None,
        }
    }

    /// What an answer says of a deliver.
    pub(crate) fn read(answer: &[u8; ANSWER], output: &'o Output) -> Delivered<'o> {
        let [kind, from, n0, n1, n2, n3, looked, body, ..] = *answer;
        let looked = usize::from(looked);
        let Some(kind) = Kind::of(kind) else {
            return Delivered::None { looked };
        };
        let Sent { extras, issued } = Sent::read(answer, output);
        let number = u32::from_le_bytes([n0, n1, n2, n3]);
        let body = &output.body[..usize::from(body)];
        Delivered::Frame(Delivery { kind, from: usize::from(from), number, looked, body, extras, issued })
    }
}
