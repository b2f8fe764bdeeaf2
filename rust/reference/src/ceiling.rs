//! The ceiling on extras, for whoever plans the bus: what the calls of a list reported is held against the frames that
//! they issued, and against the bandwidth that is reserved for them.

use crate::frame::{Frame, ENTRY, EXTRA, SHORTEST, USER};
use crate::history::{ensure, Wrong};
use crate::{DeliverAnswer, Record, SendAnswer};
use std::iter::Sum;

/// What the answer to a call says became of it.
#[derive(Clone, Copy, Debug, PartialEq, Eq)]
pub enum Said {
    /// A send was accepted.
    Sent,
    /// A frame of this kind was delivered.
    Delivered(u8),
    /// Neither of these: a frame is held, none is deliverable, or the call was refused.
    Neither,
}

/// A step of a list, as its caller sees it.
#[derive(Clone, Copy, Debug, PartialEq, Eq)]
pub struct Step {
    /// The node at which the call was made.
    pub node: usize,
    pub said: Said,
    /// How many extra frames the answer reports.
    pub reported: usize,
    /// How many frames of the log this step issued, of either kind.
    pub issued: usize,
}

/// What the answers of lists come to.
#[derive(Clone, Copy, Debug, Default, PartialEq, Eq)]
pub struct Counts {
    /// User frames issued: the accepted sends.
    pub sent: usize,
    /// User frames delivered: the deliveries whose answer says so.
    pub delivered: usize,
    /// Extra frames that sends reported.
    pub extras_of_sends: usize,
    /// Extra frames that deliveries reported.
    pub extras_of_deliveries: usize,
    /// Deliveries that reported more than one.
    pub several: usize,
    /// The most that one delivery reported.
    pub most: usize,
}

impl Step {
    /// A send at a node and how many frames it issued.
    pub fn send(node: usize, answer: &SendAnswer, issued: usize) -> Step {
        match answer {
            SendAnswer::Sent { extras, .. } => Step { node, said: Said::Sent, reported: *extras, issued },
            SendAnswer::Refused(_) => Step { node, said: Said::Neither, reported: 0, issued },
        }
    }

    /// An offer at a node, which has no frame output, and whose answer has no such number.
    pub fn offer(node: usize) -> Step {
        Step { node, said: Said::Neither, reported: 0, issued: 0 }
    }

    /// A deliver at a node and how many frames it issued.
    pub fn deliver(node: usize, answer: &DeliverAnswer, issued: usize) -> Step {
        match answer {
            DeliverAnswer::Delivered(delivery) => {
                Step { node, said: Said::Delivered(delivery.kind), reported: delivery.extras, issued }
            }
            DeliverAnswer::None { .. } | DeliverAnswer::Refused(_) => {
                Step { node, said: Said::Neither, reported: 0, issued }
            }
        }
    }

    /// How many user frames such a step issues.
    fn users(&self) -> usize {
        usize::from(self.said == Said::Sent)
    }

    /// How many extra frames such a step may issue among n nodes: trim takes each of the n − 1 columns at most once, and
    /// after a send, which lets one entry more stand at most, it takes one.
    fn most_extras(&self, n: usize) -> usize {
        match self.said {
            Said::Sent => 1,
            Said::Delivered(USER) => n - 1,
            _ => 0,
        }
    }
}

impl Counts {
    /// What the answers of these steps come to.
    pub fn of<'a>(steps: impl IntoIterator<Item = &'a Step>) -> Counts {
        let mut counts = Counts::default();
        steps.into_iter().for_each(|step| counts.add(step));
        counts
    }

    /// Counts a step.
    fn add(&mut self, step: &Step) {
        let reported = step.reported;
        match step.said {
            Said::Sent => {
                self.sent += 1;
                self.extras_of_sends += reported;
            }
            Said::Delivered(kind) => {
                self.delivered += usize::from(kind == USER);
                self.extras_of_deliveries += reported;
                self.several += usize::from(reported > 1);
                self.most = self.most.max(reported);
            }
            Said::Neither => (),
        }
    }

    /// The extra frames that the answers reported together.
    pub fn extras(&self) -> usize {
        self.extras_of_sends + self.extras_of_deliveries
    }

    /// The extra frames are at most the user frames issued plus (n − 1) × the user frames delivered.
    pub fn within_ceiling(&self, n: usize) -> Result<(), Wrong> {
        let (extras, ceiling) = (self.extras(), self.sent + (n - 1) * self.delivered);
        ensure(extras <= ceiling, || format!("{extras} extras in all are above the ceiling of {ceiling}"))
    }
}

/// What several lists come to.
impl Sum for Counts {
    fn sum<I: Iterator<Item = Counts>>(lists: I) -> Counts {
        lists.fold(Counts::default(), |all, list| Counts {
            sent: all.sent + list.sent,
            delivered: all.delivered + list.delivered,
            extras_of_sends: all.extras_of_sends + list.extras_of_sends,
            extras_of_deliveries: all.extras_of_deliveries + list.extras_of_deliveries,
            several: all.several + list.several,
            most: all.most.max(list.most),
        })
    }
}

/// The least cap under which a node among n issues no extra frame: so many entries have room in its matrix.
pub fn large_cap(n: usize) -> usize {
    (n - 1) * (n - 1)
}

/// The most bytes of a frame of this kind from a node with this cap: a user frame carries what may stand, an extra frame
/// one column.
pub fn longest(kind: u8, n: usize, cap: usize) -> usize {
    match kind {
        USER => SHORTEST + ENTRY * cap.min(large_cap(n)) + Record::BODY,
        _ => SHORTEST + ENTRY * (n - 1),
    }
}

/// Holds a list of nodes with these caps to the ceiling after each of its steps, and gives what its answers come to. The
/// log has the issued frames in their order.
pub fn check(caps: &[usize], steps: &[Step], log: &[Vec<u8>]) -> Result<Counts, Wrong> {
    let (mut counts, mut rest) = (Counts::default(), log);
    for (index, step) in steps.iter().enumerate() {
        let (issued, later) = rest.split_at_checked(step.issued).ok_or("the log ends before the list")?;
        let checked = check_step(caps, step, issued).and_then(|()| {
            counts.add(step);
            counts.within_ceiling(caps.len())
        });
        checked.map_err(|wrong| format!("step {index}, {step:?}: {wrong}"))?;
        rest = later;
    }
    ensure(rest.is_empty(), || format!("no step issued the last {} frames of the log", rest.len()))?;
    Ok(counts)
}

/// A step reports the extra frames that it issued, no more than such a step may issue, and none under a large cap; a send
/// issues one user frame, and no other step does.
fn check_step(caps: &[usize], step: &Step, issued: &[Vec<u8>]) -> Result<(), Wrong> {
    let n = caps.len();
    let cap = *caps.get(step.node).ok_or("there is no such node")?;
    let (mut users, mut extras) = (0, 0);
    for bytes in issued {
        match check_frame(step.node, n, cap, bytes)? {
            USER => users += 1,
            _ => extras += 1,
        }
    }
    let (reported, most) = (step.reported, step.most_extras(n));
    ensure(users == step.users(), || format!("it issued {users} user frames"))?;
    ensure(extras == reported, || format!("it issued {extras} extras and reports {reported}"))?;
    ensure(extras <= most, || format!("it issued {extras} extras, and {most} are the most"))?;
    ensure(extras == 0 || cap < large_cap(n), || format!("it issued {extras} extras under a cap of {cap}"))
}

/// A frame that a node issued is a whole user or extra frame from there, and within the bytes reserved for it; gives its
/// kind.
fn check_frame(node: usize, n: usize, cap: usize, bytes: &[u8]) -> Result<u8, Wrong> {
    let frame = Frame::first_of(bytes).filter(|frame| frame.bytes().len() == bytes.len());
    let (kind, from) = frame.map(|frame| (frame.kind(), frame.from())).ok_or("an issued frame is not whole")?;
    ensure(matches!(kind, USER | EXTRA), || format!("it issued a frame of kind {kind}"))?;
    ensure(from == node, || format!("it issued a frame from {from}"))?;
    let (length, longest) = (bytes.len(), longest(kind, n, cap));
    ensure(length <= longest, || format!("it issued {length} bytes of kind {kind}, and {longest} are the most"))?;
    Ok(kind)
}
