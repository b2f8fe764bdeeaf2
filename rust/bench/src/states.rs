//! States to time calls in: node 0 of n nodes, each frame of which it has delivered DELIVERED from every other node.

use reference::draft::Draft;
use reference::frame::USER;
use reference::random::Random;
use reference::{shelf, Record};
use std::fmt::{Display, Formatter, Result};

/// What DELIV says of every other node.
const DELIVERED: u32 = 5;
/// The largest count of a state with counts in random order, one below the limit, so that no call is refused for it.
const COUNT: usize = 999_999_999;

/// A record and its shelf.
#[derive(Clone)]
pub struct State {
    pub record: Record,
    pub shelf: Vec<u8>,
}

/// How much a frame carries.
#[derive(Clone, Copy, PartialEq)]
pub enum Size {
    /// One entry, no body.
    Small,
    /// All entries that may stand, a body of 64.
    Large,
}

impl Display for Size {
    fn fmt(&self, f: &mut Formatter<'_>) -> Result {
        f.write_str(if *self == Size::Small { "small frames" } else { "large frames" })
    }
}

/// A frame from a node to node 0; it waits for so many frames of that node.
pub fn frame(n: usize, from: usize, waits: u32, size: Size) -> Vec<u8> {
    let (n8, cap) = (n as u8, (n * n) as u8);
    let body = if size == Size::Large { vec![0x5A; 64] } else { Vec::new() };
    let mut draft = Draft { kind: USER, from: from as u8, to: 0, n: n8, cap, zero: 0, entries: Vec::new(), body };
    if size == Size::Large {
        for row in 1..n {
            for column in (0..n).filter(|column| *column != row && *column != from) {
                draft.set(row, column, DELIVERED);
            }
        }
    }
    draft.set(from, 0, DELIVERED + waits);
    draft.bytes()
}

/// A fresh node with frames delivered from every other.
pub fn fresh(n: usize, cap: usize) -> State {
    let mut record = Record::fresh(0, n, cap).expect("n and cap are in range");
    record.deliv[1..n].fill(DELIVERED);
    State { record, shelf: vec![0; shelf::LENGTH] }
}

/// Every entry of M that may stand is non-zero.
pub fn full(n: usize, cap: usize) -> State {
    let mut state = fresh(n, cap);
    for row in 0..n {
        for column in (1..n).filter(|column| *column != row) {
            *state.record.entry_mut(row, column) = 3;
        }
    }
    state
}

/// Cap n, n entries stand, column 1 has none, and column 2 has two: a send to node 1 issues one extra.
pub fn at_cap(n: usize) -> State {
    let mut state = fresh(n, n);
    let record = &mut state.record;
    let places = (0..n).flat_map(|row| (2..n).map(move |column| (row, column)));
    for (row, column) in places.filter(|(row, column)| row != column).take(n) {
        *record.entry_mut(row, column) = 3;
    }
    state
}

/// So many frames are held; the one at the place (counted from 1) is the first deliverable one, none for 0.
pub fn state(n: usize, held: usize, place: usize, size: Size) -> State {
    let mut state = fresh(n, n * n);
    for index in 0..held {
        let from = 1 + index % (n - 1);
        let waits = if index + 1 == place { 0 } else { 1 + index as u32 };
        hold(&mut state, &frame(n, from, waits, size));
    }
    state
}

/// Cap n; the held frame brings n entries beside the n that stand, so that its delivery issues extras.
pub fn trims(n: usize) -> State {
    let mut state = at_cap(n);
    let (n8, from) = (n as u8, 1);
    let mut draft =
        Draft { kind: USER, from: from as u8, to: 0, n: n8, cap: n8, zero: 0, entries: Vec::new(), body: Vec::new() };
    draft.set(from, 0, DELIVERED);
    let places = (1..n).rev().flat_map(|row| (2..n).map(move |column| (row, column)));
    for (row, column) in places.filter(|(row, column)| row != column).take(n - 1) {
        draft.set(row, column, 9);
    }
    hold(&mut state, &draft.bytes());
    state
}

/// A full merge: every entry that may stand does, in M and in the held frame; which of two counts is the larger goes by
/// the seed, but in row 0, where no frame may have more than node 0.
pub fn merges(n: usize, seed: u64) -> State {
    let mut random = Random::new(seed);
    let mut state = fresh(n, n * n);
    let (n8, cap, from) = (n as u8, (n * n) as u8, 1);
    let mut draft =
        Draft { kind: USER, from: from as u8, to: 0, n: n8, cap, zero: 0, entries: Vec::new(), body: Vec::new() };
    let places = (0..n).flat_map(|row| (0..n).map(move |column| (row, column)));
    for (row, column) in places.filter(|(row, column)| row != column) {
        let kept = random.within(1, COUNT) as u32;
        let most = match (row, column) {
            (_, 0) => DELIVERED as usize,
            (0, _) => kept as usize,
            _ => COUNT,
        };
        if column != 0 {
            *state.record.entry_mut(row, column) = kept;
        }
        if column != from {
            draft.set(row, column, random.within(1, most) as u32);
        }
    }
    draft.set(from, 0, DELIVERED);
    hold(&mut state, &draft.bytes());
    state
}

/// Holds one frame more.
fn hold(state: &mut State, frame: &[u8]) {
    shelf::hold(&mut state.shelf, state.record.held as usize, frame);
    state.record.held += 1;
}
