//! What became of each frame of a run, and which steps are marked.

use reference::event::Event;
use reference::yard::{Line, Run, Step};
use reference::Refusal;

/// An issued frame and what became of it; steps are counted from 0.
#[derive(Clone, Debug, PartialEq, Eq)]
pub struct Frame {
    pub extra: bool,
    /// Counted from 1, as in the yard.
    pub issue: usize,
    pub from: usize,
    pub to: usize,
    pub entries: usize,
    /// The step that issued it.
    pub step: usize,
    /// Its place among the events of that step.
    pub place: usize,
    /// Its time in the hold-back queue; none if no offer of it was accepted.
    pub held: Option<Held>,
}

/// A frame's time in the hold-back queue.
#[derive(Clone, Copy, Debug, PartialEq, Eq)]
pub struct Held {
    /// The step of the accepted offer.
    pub from: usize,
    /// The step of the delivery; none if the frame is held at the end.
    pub until: Option<usize>,
    /// The lane in which it is drawn, so that frames held at one time do not cover one another.
    pub lane: usize,
}

/// What is marked at a step.
#[derive(Clone, Copy, Debug, PartialEq, Eq)]
pub enum Sign {
    /// No held frame was deliverable.
    Wait,
    /// The line was refused.
    Refused(Refusal),
}

/// A marked step and its node; none for a line that names no node or issue of the run.
#[derive(Clone, Copy, Debug, PartialEq, Eq)]
pub struct Mark {
    pub step: usize,
    pub node: Option<usize>,
    pub sign: Sign,
}

/// The frames in issue order, and the marks in step order.
#[derive(Clone, Debug, Default, PartialEq, Eq)]
pub struct Story {
    pub frames: Vec<Frame>,
    pub marks: Vec<Mark>,
}

impl Story {
    /// The story of a run.
    pub fn of(run: &Run) -> Story {
        let mut story = Story::default();
        for (step, line) in run.lines.iter().enumerate() {
            for (place, event) in line.events.iter().enumerate() {
                story.add(run.n(), step, line, place, *event);
            }
        }
        story
    }

    /// Takes up one event of a step.
    fn add(&mut self, n: usize, step: usize, line: &Line, place: usize, event: Event) {
        match event {
            Event::Issued { extra, issue, from, to, entries } => {
                self.frames.push(Frame { extra, issue, from, to, entries, step, place, held: None });
            }
            Event::Held { issue, .. } => {
                let lane = self.free_lane(self.frames[issue - 1].to);
                self.frames[issue - 1].held = Some(Held { from: step, until: None, lane });
            }
            Event::Delivered { issue, .. } => {
                let held = self.frames[issue - 1].held.as_mut();
                held.expect("a delivered frame was held").until = Some(step);
            }
            Event::None { node, .. } => self.marks.push(Mark { step, node: Some(node), sign: Sign::Wait }),
            Event::Refused(number) => {
                let node = self.node_of(n, line.step);
                self.marks.push(Mark { step, node, sign: Sign::Refused(number) });
            }
        }
    }

    /// The lowest lane of a node in which no frame is held now.
    fn free_lane(&self, node: usize) -> usize {
        let held_now = |held: &Held| held.until.is_none();
        let here =
            || self.frames.iter().filter(|frame| frame.to == node).filter_map(|frame| frame.held).filter(held_now);
        (0..).find(|lane| here().all(|held| held.lane != *lane)).expect("lanes do not end")
    }

    /// The node at which a refused line is marked: the sender, the destination of the offered issue, or the receiver.
    fn node_of(&self, n: usize, step: Option<Step>) -> Option<usize> {
        let node = match step? {
            Step::Send(node, _) | Step::Deliver(node) => node,
            Step::Offer(issue) => self.frames.get(issue.checked_sub(1)?)?.to,
        };
        Some(node).filter(|node| *node < n)
    }
}
