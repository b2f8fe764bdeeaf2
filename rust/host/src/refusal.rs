//! Why a call says no.

use std::error::Error;
use std::fmt::{self, Display, Formatter};

/// A refusal of a call, by document 01's number. Nothing has changed: the node and every buffer are as they were.
///
/// ```
/// use host::{Node, Refusal};
///
/// let refused = Node::set_up(0, 2, 5).unwrap_err();
/// assert_eq!((refused, refused.number()), (Refusal::OutOfRange, 1));
/// assert!(refused.to_string().starts_with("1: n, me or cap is out of range"));
/// ```
#[derive(Clone, Copy, Debug, PartialEq, Eq, Hash, PartialOrd, Ord)]
#[non_exhaustive]
#[repr(u8)]
pub enum Refusal {
    /// n, me or cap of a set-up is out of range.
    OutOfRange = 1,
    /// A lent buffer is too short, or the queue has another length; of a trail's write, that there is no room.
    TooShort = 3,
    /// The hold-back queue does not belong to the image.
    WrongQueue = 4,
    /// A count has come to 1,000,000,000.
    CountedOut = 5,
    /// The destination is the node itself, or no node.
    Destination = 6,
    /// The body has more than 64 bytes.
    LongBody = 7,
    /// The frame's length or its trailer is wrong.
    DamagedFrame = 8,
    /// The frame's kind is unknown, or its zero byte is not zero.
    UnknownKind = 9,
    /// The frame is of another plant.
    OtherPlant = 10,
    /// The frame's parts break a rule.
    BadParts = 11,
    /// The frame is for another node.
    OtherNode = 12,
    /// The frame knows of more frames from this node than it issued.
    NotIssued = 13,
    /// The frame was delivered before.
    Delivered = 14,
    /// The frame is held already.
    Held = 15,
    /// The hold-back queue is full, or has one place left, which is kept for a frame that can be delivered.
    QueueFull = 16,
    /// The trail is damaged there, the frame to write is not sound, or the window is not 1 to 64.
    Trail = 19,
    /// The image has another length, a bad trailer, or a record that breaks a rule.
    Image = 20,
    /// The class has no right to the body's topic, or is no class.
    NoRight = 21,
}

impl Refusal {
    /// Every refusal of the host's calls, by rising number.
    pub const ALL: [Refusal; 18] = [
        Refusal::OutOfRange,
        Refusal::TooShort,
        Refusal::WrongQueue,
        Refusal::CountedOut,
        Refusal::Destination,
        Refusal::LongBody,
        Refusal::DamagedFrame,
        Refusal::UnknownKind,
        Refusal::OtherPlant,
        Refusal::BadParts,
        Refusal::OtherNode,
        Refusal::NotIssued,
        Refusal::Delivered,
        Refusal::Held,
        Refusal::QueueFull,
        Refusal::Trail,
        Refusal::Image,
        Refusal::NoRight,
    ];

    /// The refusal's number.
    pub fn number(self) -> u8 {
        self as u8
    }

    /// The refusal with this number.
    pub fn of(number: u8) -> Option<Refusal> {
        Refusal::ALL.into_iter().find(|refusal| refusal.number() == number)
    }

    /// The result of a call that returned this number. The archive returns 0 and the numbers above, and no other.
    pub(crate) fn unless_zero(number: u8) -> Result<(), Refusal> {
        match (number, Refusal::of(number)) {
            (0, _) => Ok(()),
            (_, Some(refusal)) => Err(refusal),
            (_, None) => panic!("the linked archive is not of this crate's time: it gave the refusal {number}"),
        }
    }

    /// What is wrong.
    fn what_is_wrong(self) -> &'static str {
        match self {
            Refusal::OutOfRange => "n, me or cap is out of range",
            Refusal::TooShort => "a lent buffer is too short, or the queue has not 12,832 bytes",
            Refusal::WrongQueue => "the hold-back queue does not belong to this image, or was changed",
            Refusal::CountedOut => "this node has counted 1,000,000,000 frames",
            Refusal::Destination => "the destination is this node itself, or no node",
            Refusal::LongBody => "the body has more than 64 bytes",
            Refusal::DamagedFrame => "the frame's length, count or sum is wrong",
            Refusal::UnknownKind => "the frame's kind is unknown, or its zero byte is not zero",
            Refusal::OtherPlant => "the frame is of another plant: n, cap, from or to does not fit",
            Refusal::BadParts => "the frame's entries or its body break a rule",
            Refusal::OtherNode => "the frame is for another node",
            Refusal::NotIssued => "the frame tells of more frames from this node than it has issued",
            Refusal::Delivered => "the frame was delivered before",
            Refusal::Held => "the frame is held already",
            Refusal::QueueFull => "16 frames are held, or 15 are and this one has to wait",
            Refusal::Trail => "the window is not 1 to 64, or the frame there or to be written is not sound",
            Refusal::Image => "the image has another length, a bad trailer, or a record that breaks a rule",
            Refusal::NoRight => "the class is above 3, or has no right to the topic, the body's first byte",
        }
    }

    /// What to do.
    fn what_to_do(self) -> &'static str {
        match self {
            Refusal::OutOfRange => "give n 2 to 12, me below n, cap n to n times n",
            Refusal::TooShort => "lend what the sizes say; for a write, start another file or lend more room",
            Refusal::WrongQueue | Refusal::Image => {
                "go on with the latest image and queue, stored together, or set the whole plant up anew"
            }
            Refusal::CountedOut => "set the whole plant up anew",
            Refusal::Destination => "name another node below n",
            Refusal::LongBody => "shorten it, or send it in parts",
            Refusal::DamagedFrame => "drop it, a good copy may be offered later",
            Refusal::UnknownKind | Refusal::BadParts => "drop it, no node issued it so",
            Refusal::OtherPlant => "drop it, and see that all nodes were set up with one n",
            Refusal::OtherNode => "bring it to the node that its byte 2 names",
            Refusal::NotIssued => {
                "drop it; if it comes again, this node is not the latest: set the whole plant up anew"
            }
            Refusal::Delivered | Refusal::Held => "nothing, drop it",
            Refusal::QueueFull => "deliver until there is none, then offer it again",
            Refusal::Trail => "choose another window, or see docs/trail.md",
            Refusal::NoRight => "choose a topic that this node's class may send, or leave it to a node that may",
        }
    }
}

impl Display for Refusal {
    fn fmt(&self, f: &mut Formatter<'_>) -> fmt::Result {
        write!(f, "{}: {}; to do: {}", self.number(), self.what_is_wrong(), self.what_to_do())
    }
}

impl Error for Refusal {}
