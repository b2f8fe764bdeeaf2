//! A recount of delays, beside the tally of [`plant`](crate::plant): a walk over the steps of a yard or a load, which
//! tells from an offered frame's bytes and the record whether the frame is deliverable. It counts what else becomes of
//! offers and delivers too, so that tests can say what they met.

use crate::frame::EXTRA;
use crate::list::List;
use crate::load::{self, Load};
use crate::plant::CLASS;
use crate::xorshift::Xorshift;
use crate::yard::{self, Run, Step};
use crate::{DeliverAnswer, OfferAnswer, Record, Refusal};
use std::collections::BTreeMap;
use std::iter::Sum;

/// What became of an offer or a deliver; a frame is ready when it is deliverable at the moment of its offer.
#[derive(Clone, Copy, Debug, PartialEq, Eq, PartialOrd, Ord)]
pub enum Fate {
    /// The offer was accepted; unless the frame was ready, it is delayed.
    Accepted { extra: bool, ready: bool },
    /// The offer was refused: 14 after the frame's delivery, 15 while it is held, 16 on a full shelf.
    Refused { number: Refusal, ready: bool },
    /// The deliver answered none, with frames held or with an empty shelf.
    None { empty: bool },
    /// A held frame was passed over by an answer of none for the second time.
    PassedTwice,
}

impl Fate {
    /// Those that a test of delays has to meet. The one other is a ready frame that 16 held ones keep off.
    pub const NEEDED: [Fate; 11] = [
        Fate::Accepted { extra: false, ready: false },
        Fate::Accepted { extra: false, ready: true },
        Fate::Accepted { extra: true, ready: false },
        Fate::Accepted { extra: true, ready: true },
        Fate::Refused { number: 14, ready: true },
        Fate::Refused { number: 15, ready: false },
        Fate::Refused { number: 15, ready: true },
        Fate::Refused { number: 16, ready: false },
        Fate::None { empty: false },
        Fate::None { empty: true },
        Fate::PassedTwice,
    ];
}

/// How often each fate was met.
#[derive(Clone, Debug, Default, PartialEq, Eq)]
pub struct Fates(BTreeMap<Fate, usize>);

impl Fates {
    /// How often one was met.
    pub fn count(&self, fate: Fate) -> usize {
        self.0.get(&fate).copied().unwrap_or(0)
    }

    /// The delays: the accepted offers of frames of both kinds that were not ready.
    pub fn delays(&self) -> usize {
        [false, true].map(|extra| self.count(Fate::Accepted { extra, ready: false })).iter().sum()
    }

    /// The answers of none.
    pub fn nones(&self) -> usize {
        [false, true].map(|empty| self.count(Fate::None { empty })).iter().sum()
    }

    /// The needed fates that were met less often than this.
    pub fn seldom(&self, least: usize) -> Vec<Fate> {
        Fate::NEEDED.into_iter().filter(|fate| self.count(*fate) < least).collect()
    }

    /// Adds those of another run.
    pub fn add(&mut self, other: &Fates) {
        for (fate, count) in &other.0 {
            *self.0.entry(*fate).or_default() += count;
        }
    }

    /// Counts one.
    fn note(&mut self, fate: Fate) {
        *self.0.entry(fate).or_default() += 1;
    }
}

/// Those of all runs.
impl Sum for Fates {
    fn sum<I: Iterator<Item = Fates>>(runs: I) -> Fates {
        runs.fold(Fates::default(), |mut all, fates| {
            all.add(&fates);
            all
        })
    }
}

/// The fates in a yard's run.
pub fn yard(run: &Run) -> Fates {
    let mut walk = Walk::start(&run.caps, yard::ISSUES);
    run.lines.iter().filter_map(|line| line.step).for_each(|step| walk.step(step));
    walk.fates
}

/// The fates in a load's run under one cap for all nodes.
pub fn load(load: &Load, cap: usize) -> Fates {
    let mut walk = Walk::start(&vec![cap; load.n], load::ISSUES);
    for draw in Xorshift::new(load.seed).take(load.draws) {
        if let Some(step) = drawn(draw as usize, load.n, walk.list.issued.len()) {
            walk.step(step);
        }
    }
    walk.fates
}

/// The step that a draw makes after so many issues; none for an offer while there are none.
pub fn drawn(draw: usize, n: usize, issues: usize) -> Option<Step> {
    let (quarter, node) = (draw / 4, draw / 4 % n);
    match draw % 4 {
        0 => Some(Step::Send(node, (node + 1 + draw / 64 % (n - 1)) % n)),
        3 => Some(Step::Deliver(node)),
        _ if issues == 0 => None,
        _ => Some(Step::Offer(quarter % issues + 1)),
    }
}

/// Follows a run's steps.
struct Walk {
    list: List,
    /// Frames that may be issued.
    issues: usize,
    /// For each frame that a node holds, in holding order, how many answers of none passed over it.
    passed: Vec<Vec<usize>>,
    fates: Fates,
}

impl Walk {
    /// A walk before the first step of nodes with these caps, which are in range.
    fn start(caps: &[usize], issues: usize) -> Walk {
        let list = List::start(caps).expect("the caps are in range");
        Walk { list, issues, passed: vec![Vec::new(); caps.len()], fates: Fates::default() }
    }

    /// Makes a step, unless it names no node or issue, or is a send or a deliver with fewer than n issues left.
    fn step(&mut self, step: Step) {
        let (n, issued) = (self.list.n(), self.list.issued.len());
        let room = issued + n <= self.issues;
        match step {
            Step::Send(i, j) if i < n && room => {
                self.list.send(i, j, CLASS, &[]);
            }
            Step::Offer(m) if (1..=issued).contains(&m) => self.offer(m - 1),
            Step::Deliver(node) if node < n && room => self.deliver(node),
            _ => (),
        }
    }

    /// An offer of an issued frame at its destination.
    fn offer(&mut self, issue: usize) {
        let frame = &self.list.issued[issue];
        let (extra, to) = (frame[0] == EXTRA, frame[2] as usize);
        let ready = is_ready(frame, &self.list.seats[to].record);
        match self.list.offer(to, issue) {
            OfferAnswer::Refused(number) => self.fates.note(Fate::Refused { number, ready }),
            OfferAnswer::Held { .. } => {
                self.passed[to].push(0);
                self.fates.note(Fate::Accepted { extra, ready });
            }
        }
    }

    /// A deliver, which no list refuses.
    fn deliver(&mut self, node: usize) {
        let (answer, _) = self.list.deliver(node);
        match answer {
            DeliverAnswer::None { .. } => self.pass(node),
            DeliverAnswer::Delivered(delivery) => {
                self.passed[node].remove(delivery.looked - 1);
            }
            DeliverAnswer::Refused(number) => panic!("a deliver at {node} was refused with {number}"),
        }
    }

    /// An answer of none passes over every frame that is held.
    fn pass(&mut self, node: usize) {
        self.fates.note(Fate::None { empty: self.passed[node].is_empty() });
        for passed in &mut self.passed[node] {
            *passed += 1;
            if *passed == 2 {
                self.fates.note(Fate::PassedTwice);
            }
        }
    }
}

/// Whether, for every x, the frame's entry (x,me) is at most DELIV[x]; read from the frame's bytes.
fn is_ready(frame: &[u8], record: &Record) -> bool {
    let mut needed = [0; Record::NODES];
    for entry in frame[8..8 + 6 * frame[3] as usize].chunks_exact(6) {
        if entry[1] == record.me {
            needed[entry[0] as usize] = u32::from_le_bytes([entry[2], entry[3], entry[4], entry[5]]);
        }
    }
    (0..Record::NODES).all(|x| needed[x] <= record.deliv[x])
}
