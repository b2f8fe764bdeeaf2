//! Where a frame's cap and its entries stand: at the bounds of checks 10 and 11, and beside the cap of the node that is
//! brought the frame.

use reference::record::in_range;
use reference::Refusal;

/// What is met by a frame's cap or its number of entries; from [`Bound::Full`] on, the cap is in range.
#[derive(Clone, Copy, Debug, PartialEq, Eq, PartialOrd, Ord)]
pub enum Bound {
    /// The cap is 0.
    Zero,
    /// The cap is n − 1.
    BelowN,
    /// The cap is n.
    AtN,
    /// The cap is n × n.
    AtSquare,
    /// The cap is n × n + 1.
    AboveSquare,
    /// The cap is 255.
    Byte,
    /// There are as many entries as the cap.
    Full,
    /// There is one entry more than the cap.
    Overfull,
    /// The cap is below the node's own.
    Smaller,
    /// The cap is above the node's own.
    Larger,
    /// There are more entries than the node's own cap, and no more than the frame's.
    Beyond,
}

impl Bound {
    /// All of them: first those of a frame alone, then those beside a node's own cap.
    pub const ALL: [Bound; 11] = [
        Bound::Zero,
        Bound::BelowN,
        Bound::AtN,
        Bound::AtSquare,
        Bound::AboveSquare,
        Bound::Byte,
        Bound::Full,
        Bound::Overfull,
        Bound::Smaller,
        Bound::Larger,
        Bound::Beyond,
    ];
    /// How many of them are of a frame alone.
    pub const ALONE: usize = 8;

    /// The check that is met then, if one is.
    pub fn check(self) -> Option<Refusal> {
        match self {
            Bound::Zero | Bound::BelowN | Bound::AboveSquare | Bound::Byte => Some(10),
            Bound::Overfull => Some(11),
            _ => None,
        }
    }
}

/// What is met by bytes, read as a frame of so many nodes, at a node with this cap if there is one.
pub fn met(n: usize, own: Option<usize>, frame: &[u8]) -> Vec<Bound> {
    let [_, _, _, e, _, _, cap, ..] = frame else {
        return Vec::new();
    };
    let (e, cap) = (usize::from(*e), usize::from(*cap));
    let sound = in_range(0, n, cap);
    let is_met = |bound: &Bound| match (bound, own) {
        (Bound::Zero, _) => cap == 0,
        (Bound::BelowN, _) => cap + 1 == n,
        (Bound::AtN, _) => cap == n,
        (Bound::AtSquare, _) => cap == n * n,
        (Bound::AboveSquare, _) => cap == n * n + 1,
        (Bound::Byte, _) => cap == 255,
        (Bound::Full, _) => sound && e == cap,
        (Bound::Overfull, _) => sound && e == cap + 1,
        (Bound::Smaller, Some(own)) => sound && cap < own,
        (Bound::Larger, Some(own)) => sound && cap > own,
        (Bound::Beyond, Some(own)) => sound && e <= cap && e > own,
        (Bound::Smaller | Bound::Larger | Bound::Beyond, None) => false,
    };
    Bound::ALL.into_iter().filter(is_met).collect()
}
