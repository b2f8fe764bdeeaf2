//! Whole lists on both implementations at once.
//!
//! Each side keeps its own images and shelves from step to step. After every step the returned number, image, answer
//! and buffers are compared, and what both answered goes into the list's history, of which demand 3's conclusions and the
//! ceiling on extras are then checked.

use crate::caps::Caps;
use crate::ceilings::Ceilings;
use crate::pair::{judge, run_lent, Lent};
use crate::Difference;
use generate::counts::Counts;
use generate::{Answer, Buffers, Call, Case, Made, Outcome};
use reference::ceiling;
use reference::frame::Frame;
use reference::history::{ensure, History, Wrong};
use reference::host::{read_answer, ANSWER};
use reference::image::IMAGE;
use reference::node::OUTPUT;
use reference::rights::{group, topic, CLASSES, GROUPS, OURS};
use reference::{shelf, DeliverAnswer, OfferAnswer, Record, SendAnswer};
use std::fmt::{Display, Formatter};

/// What fills lent outputs before a step.
const FILL: u8 = 0xC3;

/// A node on both sides: the reference's image and shelf, and those lent to the proved node.
#[derive(Clone, Debug)]
pub struct Seat {
    image: Vec<u8>,
    shelf: Vec<u8>,
    lent_image: Vec<u8>,
    lent_shelf: Vec<u8>,
}

impl Seat {
    /// The node's record.
    fn record(&self) -> Record {
        Record::of_sound_image(&self.image).expect("a list's image is sound")
    }
}

/// A list on both sides, its frames in issue order, its history, and what each of its steps reported.
#[derive(Clone, Debug)]
pub struct Pairs {
    pub seats: Vec<Seat>,
    pub issued: Vec<Vec<u8>>,
    pub history: History,
    pub totals: Totals,
    reports: Vec<ceiling::Step>,
    steps: usize,
}

/// What lists came to, one after another.
#[derive(Clone, Debug, Default)]
pub struct Totals {
    pub steps: usize,
    pub issued: usize,
    pub counts: Counts,
    pub reached: Reached,
    pub caps: Caps,
    pub ceilings: Ceilings,
}

/// How often lists came to what is rare.
#[derive(Clone, Copy, Debug, Default)]
pub struct Reached {
    /// Offers after which 15 frames are held.
    pub fifteen_held: usize,
    /// Offers after which 16 frames are held.
    pub sixteen_held: usize,
    /// Waiting frames refused because 15 are held.
    pub refused_at_fifteen: usize,
    /// Frames refused because 16 are held.
    pub refused_at_sixteen: usize,
    /// Issued frames offered at a node that is not their destination.
    pub astray: usize,
    /// Issued frames offered with unequal neighbours in front of their sum exchanged.
    pub exchanged: usize,
    /// Refused calls beside the list's own.
    pub strays: usize,
    /// Matrices that became full, with (n − 1) × (n − 1) entries.
    pub full: usize,
    /// Accepted sends, by the sender's class and the body's group.
    pub sent: [[usize; GROUPS]; CLASSES],
    /// Earliest undelivered frames that an offer had to take.
    pub earliest_taken: usize,
    /// Earliest undelivered frames that were held already.
    pub earliest_held: usize,
    /// Earliest undelivered frames that were not held where 16 others were.
    pub earliest_shut_out: usize,
}

/// What a call beside the list's own is lent: so many bytes of a node's latest image, the latest shelf of a node, which
/// may be another, and so many bytes for the answer.
#[derive(Clone, Copy, Debug)]
pub struct Stray {
    pub image: usize,
    pub image_length: usize,
    pub shelf: usize,
    pub answer_length: usize,
}

/// Why a list stops: the two sides differ, or what both answered breaks a conclusion of demand 3, who may say what, or the
/// ceiling on extras.
#[derive(Clone, Debug)]
pub enum Failure {
    Differs(Box<Difference>),
    Breaks(Wrong),
}

/// A step's result, or why the list stops.
pub type Step<T> = Result<T, Failure>;

impl From<Box<Difference>> for Failure {
    fn from(difference: Box<Difference>) -> Failure {
        Failure::Differs(difference)
    }
}

impl From<Wrong> for Failure {
    fn from(wrong: Wrong) -> Failure {
        Failure::Breaks(wrong)
    }
}

impl Display for Failure {
    fn fmt(&self, f: &mut Formatter<'_>) -> std::fmt::Result {
        match self {
            Failure::Differs(difference) => difference.fmt(f),
            Failure::Breaks(wrong) => write!(f, "BOTH SIDES BREAK DEMAND 3, THE RIGHTS OR THE CEILING: {wrong}"),
        }
    }
}

impl Display for Totals {
    fn fmt(&self, f: &mut Formatter<'_>) -> std::fmt::Result {
        let Totals { steps, issued, counts, reached, caps, ceilings } = self;
        writeln!(f, "{}{reached:#?}\n{caps:#?}\n{ceilings}", counts.table())?;
        write!(f, "{steps} steps compared, {issued} frames issued and delivered in causal order, no difference")
    }
}

impl Pairs {
    /// A list of nodes with these caps before its first step; their number and the caps have to be in range.
    pub fn start(caps: &[usize]) -> Step<Pairs> {
        Pairs::start_with(caps, Totals::default())
    }

    /// The same, with what earlier lists came to.
    pub fn start_with(caps: &[usize], totals: Totals) -> Step<Pairs> {
        let history = History::start(caps);
        let (seats, issued, reports) = (Vec::new(), Vec::new(), Vec::new());
        let mut pairs = Pairs { seats, issued, history, totals, reports, steps: 0 };
        pairs.totals.caps.list(caps);
        for (me, cap) in caps.iter().enumerate() {
            let call = Call::SetUp { me, n: caps.len(), cap: *cap };
            let case = Case { image: vec![FILL; IMAGE], ..Case::alone(call) };
            let found = run_lent(case.image.clone(), &case.call, &mut Buffers::default());
            let expected = pairs.check(&case, &found, &Buffers::default())?;
            let empty = vec![0; shelf::LENGTH];
            let (image, lent_image) = (expected.image, found.image);
            pairs.seats.push(Seat { image, shelf: empty.clone(), lent_image, lent_shelf: empty });
        }
        Ok(pairs)
    }

    /// The number of nodes.
    pub fn n(&self) -> usize {
        self.seats.len()
    }

    /// The caps of the nodes.
    pub fn caps(&self) -> Vec<usize> {
        self.seats.iter().map(|seat| seat.record().cap as usize).collect()
    }

    /// A send at a node, by any class.
    pub fn send(&mut self, node: usize, to: usize, class: usize, body: &[u8]) -> Step<SendAnswer> {
        let outcome = self.step(node, Call::Send { to, class, body: body.to_vec() })?;
        let Answer::Send(answer) = outcome.answer else { unreachable!("a send answers as one") };
        let first = self.issued.len();
        if let SendAnswer::Sent { bytes, .. } = answer {
            self.note_issued(&outcome.buffers.out[..bytes])?;
            self.history.send(node, to, class, body, &self.issued[first..])?;
            self.totals.reached.sent[class][group(topic(body)) as usize] += 1;
        }
        self.note_report(ceiling::Step::send(node, &answer, self.issued.len() - first), &outcome);
        self.check_node(node)?;
        Ok(answer)
    }

    /// An offer of any bytes at a node, which must be an issued frame's if they are taken.
    pub fn offer(&mut self, node: usize, frame: &[u8]) -> Step<OfferAnswer> {
        let outcome = self.step(node, Call::Offer { frame: frame.to_vec() })?;
        let Answer::Offer(answer) = outcome.answer else { unreachable!("an offer answers as one") };
        if let OfferAnswer::Held { .. } = answer {
            let issue = self.history.offer(node, frame)?;
            ensure(self.issued[issue] == frame, || format!("issue {issue} was held with other bytes"))?;
            self.totals.caps.held(&self.seats[node].record(), frame_of(frame))?;
        }
        self.note_report(ceiling::Step::offer(node), &outcome);
        self.note_offer(node, answer);
        self.check_node(node)?;
        Ok(answer)
    }

    /// An offer of an issued frame, counted from 0, at a node: any but its destination refuses it by 12.
    pub fn offer_issue(&mut self, node: usize, issue: usize) -> Step<OfferAnswer> {
        let frame = self.issued[issue].clone();
        let answer = self.offer(node, &frame)?;
        if frame[2] as usize != node {
            self.totals.reached.astray += 1;
            ensure(answer == OfferAnswer::Refused(12), || format!("issue {issue} at {node}: {answer:?}"))?;
        }
        Ok(answer)
    }

    /// A deliver at a node.
    pub fn deliver(&mut self, node: usize) -> Step<DeliverAnswer> {
        let outcome = self.step(node, Call::Deliver)?;
        let Answer::Deliver(answer) = outcome.answer else { unreachable!("a deliver answers as one") };
        let first = self.issued.len();
        match answer {
            DeliverAnswer::Delivered(delivery) => {
                self.note_issued(&outcome.buffers.out[..delivery.bytes])?;
                let body = &outcome.buffers.body_out[..delivery.body];
                let issue = self.history.delivery(node, &delivery, body, &self.issued[first..])?;
                let record = self.seats[node].record();
                self.totals.caps.delivered(&record, frame_of(&self.issued[issue]), delivery.extras);
            }
            DeliverAnswer::None { .. } => self.history.none(node),
            DeliverAnswer::Refused(number) => return Err(format!("a deliver in a list gave {number}").into()),
        }
        self.note_report(ceiling::Step::deliver(node, &answer, self.issued.len() - first), &outcome);
        self.check_node(node)?;
        Ok(answer)
    }

    /// An offer of any bytes and a deliver at a node that then goes back to where it was.
    pub fn try_frame(&mut self, node: usize, frame: &[u8]) -> Step<()> {
        self.aside(node, |pairs| {
            pairs.step(node, Call::Offer { frame: frame.to_vec() })?;
            pairs.step(node, Call::Deliver)?;
            Ok(())
        })
    }

    /// A call beside the list's own, which has to be refused; the list goes on with the bytes that it left.
    pub fn stray(&mut self, call: Call, stray: Stray) -> Step<()> {
        let Stray { image, image_length, shelf, answer_length } = stray;
        let lent = |shelf: &[u8]| {
            let (out, body_out) = (vec![FILL; OUTPUT], vec![FILL; Record::BODY]);
            Buffers { shelf: shelf.to_vec(), out, body_out, answer: vec![FILL; answer_length], ..Buffers::default() }
        };
        let (case_buffers, mut buffers) = (lent(&self.seats[shelf].shelf), lent(&self.seats[shelf].lent_shelf));
        let seat = &self.seats[image];
        let found = run_lent(seat.lent_image[..image_length].to_vec(), &call, &mut buffers);
        let case = Case { image: seat.image[..image_length].to_vec(), made: Made::Found, call, buffers: case_buffers };
        let expected = judge(&case, &found, &buffers)?;
        ensure(found.number != 0, || format!("a call beside the list is taken: {stray:?}, {:?}", case.call))?;
        self.totals.reached.strays += 1;
        let seat = &mut self.seats[image];
        seat.image[..image_length].copy_from_slice(&expected.image);
        seat.lent_image[..image_length].copy_from_slice(&found.image);
        let seat = &mut self.seats[shelf];
        (seat.shelf, seat.lent_shelf) = (expected.buffers.shelf, buffers.shelf);
        Ok(())
    }

    /// Demand 3's conclusions about the list so far, and who may say what. Once, kept and carried are checked in every step.
    pub fn check_conclusions(&mut self) -> Step<()> {
        self.history.check_causal_order()?;
        self.history.rights_kept(&OURS, &self.issued)?;
        self.check_progress()
    }

    /// At each node the earliest undelivered frame can go on; the list stays as it is.
    pub fn check_progress(&mut self) -> Step<()> {
        for node in 0..self.n() {
            if let Some(issue) = self.history.earliest_to(node) {
                self.aside(node, |pairs| pairs.go_on(node, issue))?;
            }
        }
        Ok(())
    }

    /// An offer takes the frame unless it is held or 16 are; then a deliver delivers a frame that was not delivered.
    fn go_on(&mut self, node: usize, issue: usize) -> Step<()> {
        let reached = &mut self.totals.reached;
        if self.history.is_held(issue) {
            reached.earliest_held += 1;
        } else if self.history.held_at(node) == Record::HELD {
            reached.earliest_shut_out += 1;
        } else {
            reached.earliest_taken += 1;
            let answer = self.step(node, Call::Offer { frame: self.issued[issue].clone() })?.answer;
            let taken = matches!(answer, Answer::Offer(OfferAnswer::Held { deliverable: true, .. }));
            ensure(taken, || format!("issue {issue}, the earliest undelivered to {node}, is not taken: {answer:?}"))?;
        }
        let answer = self.step(node, Call::Deliver)?.answer;
        let delivered = match &answer {
            Answer::Deliver(DeliverAnswer::Delivered(delivery)) => {
                self.history.find(delivery.from, node, delivery.number)
            }
            _ => None,
        };
        let new = delivered.is_some_and(|issue| !self.history.is_delivered(issue));
        ensure(new, || format!("issue {issue}, the earliest undelivered to {node}, does not go on: {answer:?}"))?;
        Ok(())
    }

    /// Runs calls at a node that then goes back to where it was.
    fn aside(&mut self, node: usize, run: impl FnOnce(&mut Pairs) -> Step<()>) -> Step<()> {
        let seat = self.seats[node].clone();
        run(self)?;
        self.seats[node] = seat;
        Ok(())
    }

    /// One call at a node on both sides.
    fn step(&mut self, node: usize, call: Call) -> Step<Outcome> {
        let seat = &self.seats[node];
        let lent = |shelf: &[u8]| match &call {
            Call::Send { .. } => Buffers { out: vec![FILL; OUTPUT], answer: vec![FILL; ANSWER], ..Buffers::default() },
            Call::Offer { .. } => Buffers { shelf: shelf.to_vec(), answer: vec![FILL; ANSWER], ..Buffers::default() },
            _ => {
                let (out, body_out, answer) = (vec![FILL; OUTPUT], vec![FILL; Record::BODY], vec![FILL; ANSWER]);
                Buffers { shelf: shelf.to_vec(), out, body_out, answer, ..Buffers::default() }
            }
        };
        let (case_buffers, mut buffers) = (lent(&seat.shelf), lent(&seat.lent_shelf));
        let case = Case { image: seat.image.clone(), made: Made::Written, call, buffers: case_buffers };
        let found = run_lent(seat.lent_image.clone(), &case.call, &mut buffers);
        let expected = self.check(&case, &found, &buffers)?;
        let seat = &mut self.seats[node];
        (seat.image, seat.lent_image) = (expected.image.clone(), found.image);
        if !matches!(case.call, Call::Send { .. }) {
            (seat.shelf, seat.lent_shelf) = (expected.buffers.shelf.clone(), buffers.shelf);
        }
        Ok(expected)
    }

    /// Holds a step of the proved node against the reference.
    fn check(&mut self, case: &Case, found: &Lent, buffers: &Buffers) -> Step<Outcome> {
        self.steps += 1;
        let expected = judge(case, found, buffers).map_err(|mut difference| {
            difference.parts.push(format!("at step {} of the list", self.steps));
            difference
        })?;
        self.totals.counts.add(case, &expected);
        Ok(expected)
    }

    /// Takes up the frames that a step issued, which are all of the bytes that its answer counts.
    fn note_issued(&mut self, bytes: &[u8]) -> Step<()> {
        let frames = || Frame::all_of(bytes).map(|frame| frame.bytes());
        let whole: usize = frames().map(<[u8]>::len).sum();
        ensure(whole == bytes.len(), || format!("{whole} of {} issued bytes are whole frames", bytes.len()))?;
        self.issued.extend(frames().map(<[u8]>::to_vec));
        Ok(())
    }

    /// Notes a step with the extra frames that both sides' lent answer reports; a refusal leaves that as it was.
    fn note_report(&mut self, step: ceiling::Step, outcome: &Outcome) {
        let reported = match (outcome.answer.number(), outcome.buffers.answer.first_chunk()) {
            (0, Some(answer)) => read_answer(answer).extras,
            _ => 0,
        };
        self.reports.push(ceiling::Step { reported, ..step });
    }

    /// Counts what an offer came to at a full shelf.
    fn note_offer(&mut self, node: usize, answer: OfferAnswer) {
        let reached = &mut self.totals.reached;
        match (answer, self.seats[node].record().held) {
            (OfferAnswer::Held { .. }, 15) => reached.fifteen_held += 1,
            (OfferAnswer::Held { .. }, 16) => reached.sixteen_held += 1,
            (OfferAnswer::Refused(16), 15) => reached.refused_at_fifteen += 1,
            (OfferAnswer::Refused(16), _) => reached.refused_at_sixteen += 1,
            _ => (),
        }
    }

    /// The matrix that a node keeps is within its own cap, and as many frames are held as the history says.
    fn check_node(&self, node: usize) -> Step<()> {
        let record = self.seats[node].record();
        let (standing, held) = (record.standing(), self.history.held_at(node));
        ensure(standing <= record.cap as usize, || format!("{node} keeps {standing} entries"))?;
        ensure(record.held as usize == held, || format!("{node} says {} for {held} held", record.held))?;
        Ok(())
    }

    /// The matrix of a node that knows of a frame from every node to every other is full unless its cap is below that; it
    /// was then trimmed.
    pub fn check_full(&mut self, node: usize) -> Step<()> {
        let (record, full) = (self.seats[node].record(), ceiling::large_cap(self.n()));
        let standing = record.standing();
        if record.cap as usize >= full {
            self.totals.reached.full += 1;
            ensure(standing == full, || format!("{node} keeps {standing} entries of {full}"))?;
        }
        Ok(())
    }

    /// Holds what all steps reported to the ceiling on extras; gives what the lists came to, this one the last.
    pub fn end(mut self) -> Step<Totals> {
        let caps = self.caps();
        ceiling::check(&caps, &self.reports, &self.issued)?;
        self.totals.ceilings.add(&caps, &self.reports);
        self.totals.steps += self.steps;
        self.totals.issued += self.issued.len();
        Ok(self.totals)
    }
}

/// The frame that these bytes are.
fn frame_of(bytes: &[u8]) -> Frame<'_> {
    Frame::first_of(bytes).expect("an issued frame is whole")
}
