//! The yard: a program that runs a list of steps from lines of text.

use crate::event::Event;
use crate::frame::{refuse, EXTRA};
use crate::list::List;
use crate::plant::{Plant, Tally, NODES};
use crate::text::{fields, read_number};
use crate::{DeliverAnswer, OfferAnswer, Refusal, SendAnswer};
use std::fmt::{self, Display, Formatter};

/// The input has at most this many bytes.
pub const INPUT: usize = 4096;
/// Frames that may be issued.
pub const ISSUES: usize = 64;
/// A field has at most this many digits.
const DIGITS: usize = 3;

/// A line of the yard after the first.
#[derive(Clone, Copy, Debug, PartialEq, Eq)]
pub enum Step {
    /// `S i j`: send, empty body.
    Send(usize, usize),
    /// `A m`: offer issue m, counted from 1, at its destination.
    Offer(usize),
    /// `D j`: deliver.
    Deliver(usize),
}

/// A line after the first: its bytes without the line feed, what it asks for (nothing if it is another line), and
/// what it did.
#[derive(Clone, Debug, PartialEq, Eq)]
pub struct Line<'a> {
    pub text: &'a [u8],
    pub step: Option<Step>,
    pub events: Vec<Event>,
}

/// A whole run: the first line's caps, one for each node, what each line after it did, and the tally.
#[derive(Clone, Debug, PartialEq, Eq)]
pub struct Run<'a> {
    pub caps: Vec<usize>,
    pub lines: Vec<Line<'a>>,
    pub tally: Tally,
}

impl Run<'_> {
    /// The number of nodes.
    pub fn n(&self) -> usize {
        self.caps.len()
    }
}

/// Prints a line for each event, then the tally.
impl Display for Run<'_> {
    fn fmt(&self, f: &mut Formatter<'_>) -> fmt::Result {
        let events = self.lines.iter().flat_map(|line| &line.events);
        for event in events {
            writeln!(f, "{event}")?;
        }
        writeln!(f, "T {}", self.tally)
    }
}

/// What the program prints for this input.
pub fn yard(input: &[u8]) -> Vec<u8> {
    run(input).map_or_else(|| b"R 17\n".to_vec(), |run| run.to_string().into_bytes())
}

/// Runs an input; nothing for one that prints `R 17` alone.
pub fn run(input: &[u8]) -> Option<Run<'_>> {
    let (caps, rest) = start(input)?;
    let mut plant = Plant::start(&caps, ISSUES).ok()?;
    let lines = rest.split_inclusive(|byte| *byte == b'\n').map(|line| run_line(&mut plant, line)).collect();
    Some(Run { caps, lines, tally: plant.tally })
}

/// The caps of the first line, as many as its n says, and the input after that line.
fn start(input: &[u8]) -> Option<(Vec<usize>, &[u8])> {
    if input.len() > INPUT {
        return None;
    }
    let end = input.iter().position(|byte| *byte == b'\n')?;
    let (n, caps) = read_first(&input[..end])?;
    (NODES.contains(&n) && caps.len() == n).then_some((caps, &input[end + 1..]))
}

/// Runs one line; 17 is given for another line, such as bytes after the last line feed.
fn run_line<'a>(plant: &mut Plant, line: &'a [u8]) -> Line<'a> {
    let ended = line.strip_suffix(b"\n");
    let step = ended.and_then(read_step);
    let events = step.ok_or(17).and_then(|step| run_step(plant, step));
    let events = events.unwrap_or_else(|number| vec![Event::Refused(number)]);
    Line { text: ended.unwrap_or(line), step, events }
}

/// Runs one step.
fn run_step(plant: &mut Plant, step: Step) -> Result<Vec<Event>, Refusal> {
    match step {
        Step::Send(i, j) => send(plant, i, j),
        Step::Offer(m) => offer(plant, m),
        Step::Deliver(j) => deliver(plant, j),
    }
}

/// The user frame, then each extra; 17 with fewer than n of 64 issues left.
fn send(plant: &mut Plant, i: usize, j: usize) -> Result<Vec<Event>, Refusal> {
    check_node(plant, i)?;
    let before = plant.list.issued.len();
    match plant.send(i, j).ok_or(17)? {
        SendAnswer::Refused(number) => Err(number),
        SendAnswer::Sent { .. } => Ok(issued_since(&plant.list, before).collect()),
    }
}

/// The issue and the frames now held there; 17 for an issue not made.
fn offer(plant: &mut Plant, m: usize) -> Result<Vec<Event>, Refusal> {
    let issue = m.checked_sub(1).filter(|issue| *issue < plant.list.issued.len()).ok_or(17)?;
    match plant.offer(issue) {
        OfferAnswer::Refused(number) => Err(number),
        OfferAnswer::Held { held, .. } => Ok(vec![Event::Held { issue: m, held }]),
    }
}

/// The delivery with any extras after it, or none; 17 with fewer than n of 64 issues left.
fn deliver(plant: &mut Plant, node: usize) -> Result<Vec<Event>, Refusal> {
    check_node(plant, node)?;
    let before = plant.list.issued.len();
    match plant.deliver(node).ok_or(17)? {
        DeliverAnswer::Refused(number) => Err(number),
        DeliverAnswer::None { looked } => Ok(vec![Event::None { node, looked }]),
        DeliverAnswer::Delivered(delivery) => {
            let issue = plant.list.find(delivery.from, node, delivery.number).ok_or(17)? + 1;
            let delivered = Event::Delivered { node, issue, looked: delivery.looked };
            Ok(std::iter::once(delivered).chain(issued_since(&plant.list, before)).collect())
        }
    }
}

/// 17 for a node not below n.
fn check_node(plant: &Plant, node: usize) -> Result<(), Refusal> {
    refuse(node >= plant.list.n(), 17)
}

/// The frames issued from here on.
fn issued_since(list: &List, before: usize) -> impl Iterator<Item = Event> + '_ {
    (before..list.issued.len()).map(|issue| {
        let frame = list.frame(issue);
        Event::Issued {
            extra: frame.kind() == EXTRA,
            issue: issue + 1,
            from: frame.from(),
            to: frame.to(),
            entries: frame.entry_count(),
        }
    })
}

/// First line: n, then caps.
fn read_first(line: &[u8]) -> Option<(usize, Vec<usize>)> {
    let fields = fields(line);
    let (n, caps) = fields.split_first()?;
    let caps = caps.iter().map(|cap| read_number(cap, DIGITS)).collect::<Option<_>>()?;
    Some((read_number(n, DIGITS)?, caps))
}

/// Then `S i j`, `A m`, `D j`.
fn read_step(line: &[u8]) -> Option<Step> {
    match fields(line)[..] {
        [b"S", i, j] => Some(Step::Send(read_number(i, DIGITS)?, read_number(j, DIGITS)?)),
        [b"A", m] => Some(Step::Offer(read_number(m, DIGITS)?)),
        [b"D", j] => Some(Step::Deliver(read_number(j, DIGITS)?)),
        _ => None,
    }
}
