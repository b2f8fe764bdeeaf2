//! The history of a list: its accepted steps and issued frames, from which happened before is computed without the
//! nodes' counts. What contradicts demand 3 is told in words.

use crate::frame::{Frame, USER};
use crate::node::Delivery;
use crate::rights::{may_send, Table};
use std::collections::HashMap;

/// What is wrong, in words.
pub type Wrong = String;

/// From, to and number, which name one issued frame.
type Label = (usize, usize, u32);

/// The events that happened before one, as a set of bits.
type Past = Vec<u64>;

/// What the history says of an issued frame.
#[derive(Clone, Debug)]
struct Issue {
    kind: u8,
    to: usize,
    /// The class handed to its send; nothing in an extra.
    class: Option<usize>,
    /// The body given to its send; none in an extra.
    body: Vec<u8>,
    /// The event of the step that issued it.
    event: usize,
    held: bool,
    /// The event of its delivery.
    delivered: Option<usize>,
}

/// Accepted steps, each an event, and the frames in issue order, counted from 0.
#[derive(Clone, Debug)]
pub struct History {
    /// The cap of each node.
    caps: Vec<usize>,
    issues: Vec<Issue>,
    labels: HashMap<Label, usize>,
    pasts: Vec<Past>,
    /// The last event of each node.
    last_at: Vec<Option<usize>>,
    /// How many frames are held at each node.
    held_at: Vec<usize>,
}

impl History {
    /// The history of a list of nodes with these caps before its first step.
    pub fn start(caps: &[usize]) -> History {
        let (caps, last_at, held_at) = (caps.to_vec(), vec![None; caps.len()], vec![0; caps.len()]);
        History { caps, issues: Vec::new(), labels: HashMap::new(), pasts: Vec::new(), last_at, held_at }
    }

    /// An accepted send and the frames that it issued: the user frame first, then extras.
    pub fn send(&mut self, node: usize, to: usize, class: usize, body: &[u8], issued: &[Vec<u8>]) -> Result<(), Wrong> {
        let event = self.event(node, None);
        let (user, extras) = issued.split_first().ok_or("a send issued nothing")?;
        ensure(user[0] == USER && user[2] as usize == to, || format!("a send to {to} issued {user:02X?} first"))?;
        self.issue(event, node, Some(class), body, user)?;
        self.issue_extras(event, node, extras)
    }

    /// An accepted offer of an issued frame, which it gives: the frame was neither held nor delivered before.
    pub fn offer(&mut self, node: usize, frame: &[u8]) -> Result<usize, Wrong> {
        let frame = Frame::first_of(frame).ok_or("what was held is no whole frame")?;
        let issue = self.find(frame.from(), frame.to(), frame.number()).ok_or("what was held was not issued")?;
        self.event(node, None);
        let Issue { to, held, delivered, .. } = self.issues[issue];
        ensure(to == node, || format!("issue {issue} to {to} was held at {node}"))?;
        ensure(!held && delivered.is_none(), || format!("issue {issue} was held again"))?;
        self.issues[issue].held = true;
        self.held_at[node] += 1;
        Ok(issue)
    }

    /// A deliver that answered none.
    pub fn none(&mut self, node: usize) {
        self.event(node, None);
    }

    /// A delivery, the body that it wrote and the extras that it issued: the frame, which it gives, was issued and held, it
    /// was not delivered before, and the body is the one that was sent.
    pub fn delivery(
        &mut self,
        node: usize,
        delivery: &Delivery,
        body: &[u8],
        issued: &[Vec<u8>],
    ) -> Result<usize, Wrong> {
        let issue = self.find(delivery.from, node, delivery.number).ok_or("what was delivered was not issued")?;
        let Issue { kind, event: sent, delivered, held, .. } = self.issues[issue];
        ensure(delivered.is_none(), || format!("issue {issue} was delivered twice"))?;
        ensure(held, || format!("issue {issue} was delivered and not held"))?;
        ensure(delivery.kind == kind, || format!("issue {issue} was delivered as another kind"))?;
        ensure(body == self.issues[issue].body, || format!("issue {issue} was delivered with another body"))?;
        let event = self.event(node, (kind == USER).then_some(sent));
        (self.issues[issue].held, self.issues[issue].delivered) = (false, Some(event));
        self.held_at[node] -= 1;
        self.issue_extras(event, node, issued)?;
        Ok(issue)
    }

    /// Whether an issue was delivered.
    pub fn is_delivered(&self, issue: usize) -> bool {
        self.issues[issue].delivered.is_some()
    }

    /// Whether an issue is held.
    pub fn is_held(&self, issue: usize) -> bool {
        self.issues[issue].held
    }

    /// How many frames are held at a node.
    pub fn held_at(&self, node: usize) -> usize {
        self.held_at[node]
    }

    /// The issue with this from, to and number.
    pub fn find(&self, from: usize, to: usize, number: u32) -> Option<usize> {
        self.labels.get(&(from, to, number)).copied()
    }

    /// The earliest undelivered frame of the list.
    pub fn earliest(&self) -> Option<usize> {
        self.issues.iter().position(|issue| issue.delivered.is_none())
    }

    /// The earliest undelivered frame to a node.
    pub fn earliest_to(&self, node: usize) -> Option<usize> {
        self.issues.iter().position(|issue| issue.to == node && issue.delivered.is_none())
    }

    /// A message whose send happened before another's to the same node is delivered there before it.
    pub fn check_causal_order(&self) -> Result<(), Wrong> {
        let users = || self.issues.iter().enumerate().filter(|(_, issue)| issue.kind == USER);
        for (later, second) in users().filter(|(_, issue)| issue.delivered.is_some()) {
            for (earlier, first) in users().filter(|(_, issue)| issue.to == second.to) {
                let kept = first.delivered.is_some() && first.delivered < second.delivered;
                ensure(kept || !self.before(first.event, second.event), || {
                    format!(
                        "issue {earlier} was sent before issue {later} to {}, and not delivered before it",
                        first.to
                    )
                })?;
            }
        }
        Ok(())
    }

    /// In the log, which has the issued frames in their order, each user frame was issued by a send whose class may send
    /// its body by the table, none of motion by a class other than 0, and an extra frame has no body.
    pub fn rights_kept(&self, table: &Table, log: &[Vec<u8>]) -> Result<(), Wrong> {
        let (logged, issued) = (log.len(), self.issues.len());
        ensure(logged == issued, || format!("{logged} frames are in the log, and {issued} were issued"))?;
        for (issue, bytes) in log.iter().enumerate() {
            let frame = Frame::first_of(bytes).filter(|frame| frame.bytes().len() == bytes.len());
            let frame = frame.ok_or_else(|| format!("issue {issue} is not whole in the log"))?;
            let Issue { kind, class, .. } = self.issues[issue];
            let same = frame.kind() == kind && self.find(frame.from(), frame.to(), frame.number()) == Some(issue);
            ensure(same, || format!("issue {issue} is another frame in the log"))?;
            check_rights(table, issue, class, body_of(bytes))?;
        }
        Ok(())
    }

    /// Adds an event: an earlier accepted step of one node comes before a later one, and a user send before that
    /// message's delivery.
    fn event(&mut self, node: usize, sent: Option<usize>) -> usize {
        let event = self.pasts.len();
        let mut past = vec![0; event / 64 + 1];
        for before in self.last_at[node].into_iter().chain(sent) {
            past.iter_mut().zip(&self.pasts[before]).for_each(|(word, more)| *word |= more);
            past[before / 64] |= 1 << (before % 64);
        }
        self.pasts.push(past);
        self.last_at[node] = Some(event);
        event
    }

    /// Whether an event happened before another.
    fn before(&self, first: usize, second: usize) -> bool {
        self.pasts[second].get(first / 64).is_some_and(|word| word >> (first % 64) & 1 == 1)
    }

    /// Takes up extras that an event's step issued.
    fn issue_extras(&mut self, event: usize, node: usize, extras: &[Vec<u8>]) -> Result<(), Wrong> {
        for extra in extras {
            ensure(extra[0] != USER, || format!("{extra:02X?} is no extra"))?;
            self.issue(event, node, None, &[], extra)?;
        }
        Ok(())
    }

    /// Takes up a frame that an event's step issued at a node: it carries the node's cap and at most so many entries, and
    /// no other frame has its from, to and number.
    fn issue(
        &mut self,
        event: usize,
        node: usize,
        class: Option<usize>,
        body: &[u8],
        bytes: &[u8],
    ) -> Result<(), Wrong> {
        let frame = Frame::first_of(bytes).ok_or("an issued frame is not whole")?;
        let (kind, from, to, number) = (frame.kind(), frame.from(), frame.to(), frame.number());
        let (cap, entries) = (self.caps[node], frame.entry_count());
        ensure(from == node, || format!("{node} issued a frame from {from}"))?;
        ensure(frame.cap() == cap, || format!("a frame of {node}, whose cap is {cap}, carries cap {}", frame.cap()))?;
        ensure(entries <= cap, || format!("a frame of {node}, whose cap is {cap}, carries {entries} entries"))?;
        let other = self.labels.insert((from, to, number), self.issues.len());
        ensure(other.is_none(), || format!("two frames from {from} to {to} have number {number}"))?;
        self.issues.push(Issue { kind, to, class, body: body.to_vec(), event, held: false, delivered: None });
        Ok(())
    }
}

/// A frame's body, read from its bytes: b of them behind e entries.
fn body_of(frame: &[u8]) -> &[u8] {
    let (e, b) = (frame[3] as usize, frame[4] as usize);
    &frame[8 + 6 * e..8 + 6 * e + b]
}

/// The class of an issue's send may send the body by the table, and motion only as class 0; without a send there is no
/// body.
fn check_rights(table: &Table, issue: usize, class: Option<usize>, body: &[u8]) -> Result<(), Wrong> {
    let Some(class) = class else {
        return ensure(body.is_empty(), || format!("issue {issue} is an extra with a body"));
    };
    let motion = body.first().is_some_and(|topic| *topic < 32);
    ensure(!motion || class == 0, || format!("issue {issue} is motion from class {class}"))?;
    ensure(may_send(table, class, body), || format!("issue {issue} came from class {class} without the right"))
}

/// Says what is wrong unless a condition holds.
pub fn ensure(holds: bool, wrong: impl FnOnce() -> Wrong) -> Result<(), Wrong> {
    if holds {
        Ok(())
    } else {
        Err(wrong())
    }
}
