//! The rows of the node's calls: names, states, and what is called in them.

use crate::calls::Bench;
use crate::states::{self, frame, state, Size, State};
use reference::Record;

/// Different states of the rows with counts in random order: a processor can learn the outcomes of fewer by heart.
const MERGES: u64 = 1024;

/// The class that sends are made with, which has the right to their bodies.
pub const MOVER: usize = 0;

/// A call with what it only reads; sends go to node 1.
pub enum Call {
    SetUp { me: usize, n: usize, cap: usize },
    Send { body: Vec<u8> },
    Offer { frame: Vec<u8> },
    Deliver,
}

/// A row: a call on what is lent in a state, or in each of several in turn.
pub struct Row {
    pub name: String,
    pub lent: Vec<Bench>,
    pub call: Call,
}

impl Row {
    /// The row of a call in these states.
    fn new(name: String, states: &[State], call: Call) -> Row {
        Row { name, lent: states.iter().map(Bench::new).collect(), call }
    }
}

/// The rows of all calls with n nodes.
pub fn rows(n: usize) -> Vec<Row> {
    let mut rows = vec![set_up_row(n)];
    rows.push(send_row(format!("send, n {n}, no entries, no body"), states::fresh(n, n * n), vec![]));
    rows.push(send_row(format!("send, n {n}, full matrix, body 64"), states::full(n, n * n), vec![7; 64]));
    rows.push(send_row(format!("send, n {n}, cap {n}, one extra"), states::at_cap(n), vec![7; 8]));
    for size in [Size::Small, Size::Large] {
        rows.extend([0, 8, 15, 16].map(|held| offer_row(n, held, size)));
        rows.push(deliver_row(format!("deliver, n {n}, {size}, 0 held (none)"), vec![state(n, 0, 0, size)]));
        for held in [8, 16] {
            for (place, words) in [(1, "the first"), (held, "the last"), (0, "none")] {
                let name = format!("deliver, n {n}, {size}, {held} held, {words}");
                rows.push(deliver_row(name, vec![state(n, held, place, size)]));
            }
        }
    }
    rows.push(deliver_row(format!("deliver, n {n}, cap {n}, 1 held, extras issued"), vec![states::trims(n)]));
    let name = format!("deliver, n {n}, 1 held, {} entries, counts in random order", (n - 1) * (n - 1));
    rows.push(deliver_row(name, (1..=MERGES).map(|seed| states::merges(n, seed)).collect()));
    rows
}

/// Set-up of the last node with the largest cap.
fn set_up_row(n: usize) -> Row {
    let nothing = State { record: Record::ZERO, shelf: Vec::new() };
    Row::new(format!("set-up, n {n}"), &[nothing], Call::SetUp { me: n - 1, n, cap: n * n })
}

/// Send of a body.
fn send_row(name: String, state: State, body: Vec<u8>) -> Row {
    Row::new(name, &[state], Call::Send { body })
}

/// Offer of a deliverable frame where so many are held that wait.
fn offer_row(n: usize, held: usize, size: Size) -> Row {
    let note = if held == 16 { " (refused, 16)" } else { "" };
    let name = format!("offer, n {n}, {size}, {held} held{note}");
    Row::new(name, &[state(n, held, 0, size)], Call::Offer { frame: frame(n, 1, 0, size) })
}

/// Deliver.
fn deliver_row(name: String, states: Vec<State>) -> Row {
    Row::new(name, &states, Call::Deliver)
}
