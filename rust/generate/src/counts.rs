//! How often each answer of each call is met.

use crate::bounds::{met, Bound};
use crate::case::{Answer, Buffers, Call, Case, Outcome};
use crate::images::Made;
use crate::shelves::frame_at;
use reference::{DeliverAnswer, OfferAnswer, Record, SendAnswer};
use std::collections::BTreeMap;

/// What a call is lent.
pub type Lent = &'static str;

/// Where a call is lent a frame: offered, held or written.
#[derive(Clone, Copy, Debug, PartialEq, Eq, PartialOrd, Ord)]
pub enum Place {
    Offered,
    Held,
    Written,
}

impl Place {
    /// The number that is due for a frame here which stands so, 0 where it is taken.
    fn due(self, bound: Bound) -> u8 {
        match (bound.check(), self) {
            (None, _) => 0,
            (Some(check), Place::Offered) => check,
            (_, Place::Held) => 4,
            (_, Place::Written) => 19,
        }
    }

    /// What frames here can meet: a trail's have no node beside whose cap they stand.
    fn bounds(self) -> &'static [Bound] {
        match self {
            Place::Written => &Bound::ALL[..Bound::ALONE],
            _ => &Bound::ALL,
        }
    }
}

/// Counts by call and by what was answered, by how its image was made, by the lengths that it was lent, by how its frames'
/// caps stand, and the most bytes that a call issued or held.
#[derive(Clone, Debug, Default)]
pub struct Counts {
    counts: BTreeMap<(&'static str, String), usize>,
    made: BTreeMap<(&'static str, Made, u8), usize>,
    lengths: BTreeMap<(&'static str, Lent, usize, u8), usize>,
    bounds: BTreeMap<(&'static str, Place, Bound, u8), usize>,
    largest: BTreeMap<&'static str, usize>,
}

impl Counts {
    /// Counts a case's outcome; a yard is counted by the lines that it prints, a load by its table or its refusal.
    pub fn add(&mut self, case: &Case, outcome: &Outcome) {
        for label in labels(&outcome.answer) {
            *self.counts.entry((case.call.name(), label)).or_default() += 1;
        }
        let (call, number) = (case.call.name(), outcome.answer.number());
        *self.made.entry((call, case.made, number)).or_default() += 1;
        for (lent, length) in lengths(case) {
            *self.lengths.entry((call, lent, length, number)).or_default() += 1;
        }
        for (place, bound) in bounds(case) {
            *self.bounds.entry((call, place, bound, number)).or_default() += 1;
        }
        let largest = self.largest.entry(call).or_default();
        *largest = bytes_of(case, &outcome.answer).max(*largest);
    }

    /// How often a call with an image so made gave a number, 0 where it was taken.
    pub fn of_made(&self, call: &'static str, made: Made, number: u8) -> usize {
        self.made.get(&(call, made, number)).copied().unwrap_or(0)
    }

    /// How often a call that was lent this with so many bytes gave a number, 0 where it was taken.
    pub fn of_length(&self, call: &'static str, lent: Lent, length: usize, number: u8) -> usize {
        self.lengths.get(&(call, lent, length, number)).copied().unwrap_or(0)
    }

    /// How often a call with a frame at this place that stands so gave a number, 0 where it was taken.
    fn of_bound(&self, call: &'static str, place: Place, bound: Bound, number: u8) -> usize {
        self.bounds.get(&(call, place, bound, number)).copied().unwrap_or(0)
    }

    /// What frames at this place of a call met less often than this with the number that is due, or met and were taken
    /// where they must not be.
    pub fn missed(&self, call: &'static str, place: Place, least: usize) -> Vec<(Bound, usize)> {
        let due = |bound: &Bound| self.of_bound(call, place, *bound, place.due(*bound));
        let wrong = |bound: &Bound| place.due(*bound) > 0 && self.of_bound(call, place, *bound, 0) > 0;
        let missed = place.bounds().iter().filter(|bound| due(bound) < least || wrong(bound));
        missed.map(|bound| (*bound, due(bound))).collect()
    }

    /// The most bytes that a send or a deliver issued, or that an offered and held frame had.
    pub fn largest(&self, call: &'static str) -> usize {
        self.largest.get(call).copied().unwrap_or(0)
    }

    /// How often a call gave a refusal.
    pub fn of(&self, call: &'static str, number: u8) -> usize {
        self.counts.get(&(call, format!("{number:>2}"))).copied().unwrap_or(0)
    }

    /// One line for each call and label, then the most bytes of each call.
    pub fn table(&self) -> String {
        let line = |call: &str, label: &str, count: usize| format!("{call:8} {label:24} {count:>8}\n");
        let counts = self.counts.iter().map(|((call, label), count)| line(call, label, *count));
        let largest = self.largest.iter().filter(|(_, bytes)| **bytes > 0);
        counts.chain(largest.map(|(call, bytes)| line(call, "most bytes", *bytes))).collect()
    }
}

/// What a call of the node is lent and only reads or writes, with its length.
fn lengths(case: &Case) -> Vec<(Lent, usize)> {
    let Buffers { shelf, out, body_out, answer, .. } = &case.buffers;
    let (image, answer) = (("image", case.image.len()), ("answer", answer.len()));
    let (shelf, out) = (("shelf", shelf.len()), ("frame output", out.len()));
    match &case.call {
        Call::SetUp { .. } => vec![image],
        Call::Send { body, .. } => vec![image, answer, out, ("body", body.len())],
        Call::Offer { frame } => vec![image, answer, shelf, ("frame", frame.len())],
        Call::Deliver => vec![image, answer, shelf, out, ("body output", body_out.len())],
        _ => vec![],
    }
}

/// How the caps and entries of the frames that a call is lent stand; of an offer and a deliver only where the image is
/// sound and the frame has the record's n, and of a write where that is in range.
fn bounds(case: &Case) -> Vec<(Place, Bound)> {
    let at = |place, n: usize, own, frame: &[u8]| {
        let same = frame.get(5).is_some_and(|byte| *byte as usize == n);
        let met = if same { met(n, own, frame) } else { Vec::new() };
        met.into_iter().map(move |bound| (place, bound))
    };
    if let Call::Write { frame, .. } = &case.call {
        let n = frame.get(5).map_or(0, |n| *n as usize);
        return if (2..=Record::NODES).contains(&n) {
            at(Place::Written, n, None, frame).collect()
        } else {
            Vec::new()
        };
    }
    let Some(Record { n, cap, held, .. }) = Record::of_sound_image(&case.image) else {
        return Vec::new();
    };
    let beside = |place, frame: &[u8]| at(place, n as usize, Some(cap as usize), frame);
    let shelf = (0..held as usize).filter_map(|place| frame_at(&case.buffers.shelf, place));
    let mut bounds: Vec<_> = shelf.flat_map(|frame| beside(Place::Held, frame.bytes())).collect();
    if let Call::Offer { frame } = &case.call {
        bounds.extend(beside(Place::Offered, frame));
    }
    bounds
}

/// The bytes that a step issued, or that an offered and held frame has.
fn bytes_of(case: &Case, answer: &Answer) -> usize {
    match (answer, &case.call) {
        (Answer::Send(SendAnswer::Sent { bytes, .. }), _) => *bytes,
        (Answer::Deliver(DeliverAnswer::Delivered(delivery)), _) => delivery.bytes,
        (Answer::Offer(OfferAnswer::Held { .. }), Call::Offer { frame }) => frame.len(),
        _ => 0,
    }
}

/// What an answer is counted as.
fn labels(answer: &Answer) -> Vec<String> {
    match answer {
        Answer::Yard(printed) => printed_labels(printed),
        Answer::Load(printed) if !printed.starts_with(b"R") => vec!["table".to_string()],
        Answer::Load(printed) => printed_labels(printed),
        answer if answer.number() > 0 => vec![format!("{:>2}", answer.number())],
        answer => vec![taken_label(answer)],
    }
}

/// What an answer that is no refusal is counted as.
fn taken_label(answer: &Answer) -> String {
    match answer {
        Answer::Send(SendAnswer::Sent { extras, .. }) => format!("sent, {extras} extras"),
        Answer::Offer(OfferAnswer::Held { deliverable: true, .. }) => "held, deliverable".to_string(),
        Answer::Offer(_) => "held, waiting".to_string(),
        Answer::Deliver(DeliverAnswer::None { looked: 0 }) => "none, nothing held".to_string(),
        Answer::Deliver(DeliverAnswer::None { .. }) => "none".to_string(),
        Answer::Deliver(DeliverAnswer::Delivered(delivery)) => {
            format!("kind {}, {} extras", delivery.kind, delivery.extras)
        }
        Answer::Step(Ok(None)) => "the start".to_string(),
        Answer::Step(Ok(Some(frame))) if frame.is_extra => "an extra frame".to_string(),
        Answer::Step(_) => "a user frame".to_string(),
        _ => "taken".to_string(),
    }
}

/// The first fields of the refusals, and the letters of the other lines, that are printed.
fn printed_labels(printed: &[u8]) -> Vec<String> {
    let text = String::from_utf8_lossy(printed);
    let label = |line: &str| match line.split_once(' ') {
        Some(("R", number)) => format!("{number:>2}"),
        _ => line.chars().take(1).collect(),
    };
    text.lines().map(label).collect()
}
