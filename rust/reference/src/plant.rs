//! A simulated plant: n nodes, their shelves, the frames issued so far under a limit, and the tally.

use crate::list::List;
use crate::{DeliverAnswer, OfferAnswer, Refusal, SendAnswer};
use std::cmp::Ordering;
use std::fmt::{self, Display, Formatter};
use std::ops::RangeInclusive;

/// Nodes that a plant may have.
pub const NODES: RangeInclusive<usize> = 2..=4;
/// The class of every send of a plant.
pub const CLASS: usize = 0;

/// User frames, extras, frames delivered, delays (frames that were not deliverable when their offer was accepted), and
/// the extras' [`share`].
#[derive(Clone, Copy, Debug, Default, PartialEq, Eq)]
pub struct Tally {
    pub users: usize,
    pub extras: usize,
    pub delivered: usize,
    pub delays: usize,
    pub share: usize,
}

impl Tally {
    /// Counts issued frames.
    fn count_issued(&mut self, users: usize, extras: usize) {
        self.users += users;
        self.extras += extras;
        self.share = share(self.extras, self.users);
    }
}

/// Prints the five T numbers.
impl Display for Tally {
    fn fmt(&self, f: &mut Formatter<'_>) -> fmt::Result {
        let Tally { users, extras, delivered, delays, share } = self;
        write!(f, "{users} {extras} {delivered} {delays} {share}")
    }
}

/// Extras per hundred user frames to the nearest whole, exact halves to the even neighbour, and 0 without user frames.
pub fn share(extras: usize, users: usize) -> usize {
    if users == 0 {
        return 0;
    }
    let (below, rest) = (100 * extras / users, 100 * extras % users);
    match (2 * rest).cmp(&users) {
        Ordering::Less => below,
        Ordering::Equal => below + below % 2,
        Ordering::Greater => below + 1,
    }
}

/// The nodes with what they issued, how many frames they may issue in all, and the tally of their steps.
#[derive(Clone, Debug)]
pub struct Plant {
    pub list: List,
    pub tally: Tally,
    issues: usize,
}

impl Plant {
    /// A plant of nodes with these caps before its first step; 1 when their number or a cap is out of range.
    pub fn start(caps: &[usize], issues: usize) -> Result<Plant, Refusal> {
        Ok(Plant { list: List::start(caps)?, tally: Tally::default(), issues })
    }

    /// A send from i with an empty body; nothing with fewer than n issues left.
    pub fn send(&mut self, i: usize, j: usize) -> Option<SendAnswer> {
        if !self.has_room() {
            return None;
        }
        let answer = self.list.send(i, j, CLASS, &[]);
        if let SendAnswer::Sent { extras, .. } = answer {
            self.tally.count_issued(1, extras);
        }
        Some(answer)
    }

    /// An offer of an issued frame, counted from 0, at its destination. A frame is accepted at most once, so a delay is
    /// counted once, and a refused offer counts nothing.
    pub fn offer(&mut self, issue: usize) -> OfferAnswer {
        let answer = self.list.offer(self.list.frame(issue).to(), issue);
        if let OfferAnswer::Held { deliverable: false, .. } = answer {
            self.tally.delays += 1;
        }
        answer
    }

    /// A deliver at a node; nothing with fewer than n issues left. An answer of none counts nothing.
    pub fn deliver(&mut self, node: usize) -> Option<DeliverAnswer> {
        if !self.has_room() {
            return None;
        }
        let (answer, _) = self.list.deliver(node);
        if let DeliverAnswer::Delivered(delivery) = answer {
            self.tally.delivered += 1;
            self.tally.count_issued(0, delivery.extras);
        }
        Some(answer)
    }

    /// Whether at least n issues are left, as many as a step can make.
    fn has_room(&self) -> bool {
        self.list.issued.len() + self.list.n() <= self.issues
    }
}
