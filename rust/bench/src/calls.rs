//! The node's calls timed side by side, from a lent image to the image after the call.

use crate::measure::{is_wanted, median, nanoseconds};
use crate::rows::{Call, Row, MOVER};
use crate::states::State;
use host::lent;
use reference::host::ANSWER;
use reference::image::Image;
use reference::node::OUTPUT;
use reference::Record;
use std::hint::black_box;

/// Copies of a state, so that a round's time is long against the clock's.
pub const COPIES: usize = 16;
/// Rounds of each side, in turn.
pub const ROUNDS: usize = 301;
/// Rounds before these that are not counted.
const WARM_UP: usize = 40;

/// What is lent to a call.
#[derive(Clone)]
pub struct Bench {
    pub image: Image,
    pub shelf: Vec<u8>,
    pub out: Vec<u8>,
    pub body: Vec<u8>,
    pub answer: [u8; ANSWER],
}

/// A side of a row: makes the call and gives the number that it returned.
pub type Side = fn(&Call, &mut Bench) -> u8;

impl Bench {
    /// A state with outputs that are not cleared later.
    pub fn new(state: &State) -> Bench {
        let (out, body) = (vec![0; OUTPUT], vec![0; Record::BODY]);
        Bench { image: state.record.to_image(), shelf: state.shelf.clone(), out, body, answer: [0; ANSWER] }
    }

    /// Image and queue as they were.
    fn restore(&mut self, lent: &Bench) {
        self.image = lent.image;
        self.shelf.copy_from_slice(&lent.shelf);
    }
}

/// The call of the proved node.
pub fn proved(call: &Call, bench: &mut Bench) -> u8 {
    let Bench { image, shelf, out, body, answer } = bench;
    match call {
        Call::SetUp { me, n, cap } => lent::set_up(image, *me, *n, *cap),
        Call::Send { body } => lent::send(image, 1, MOVER, body, out, answer),
        Call::Offer { frame } => lent::offer(image, frame, shelf, answer),
        Call::Deliver => lent::deliver(image, shelf, out, body, answer),
    }
}

/// The call of the reference, which does the same work.
pub fn plain(call: &Call, bench: &mut Bench) -> u8 {
    let Bench { image, shelf, out, body, answer } = bench;
    match call {
        Call::SetUp { me, n, cap } => reference::host::set_up(image, *me, *n, *cap),
        Call::Send { body } => reference::host::send(image, 1, MOVER, body, out, answer),
        Call::Offer { frame } => reference::host::offer(image, frame, shelf, answer),
        Call::Deliver => reference::host::deliver(image, shelf, out, body, answer),
    }
}

/// One round: nanoseconds a call, on the states that the rounds before it leave next.
fn round(copies: &mut [Bench], row: &Row, turn: usize, side: Side) -> f64 {
    let next = row.lent.iter().cycle().skip(turn * copies.len() % row.lent.len());
    copies.iter_mut().zip(next).for_each(|(copy, lent)| copy.restore(lent));
    let time = nanoseconds(|| {
        for copy in copies.iter_mut() {
            black_box(side(&row.call, black_box(copy)));
        }
    });
    time / copies.len() as f64
}

/// Times two sides of a row in turn, the first of them changing from round to round, and gives their medians; nothing where
/// the row is not wanted. In each of its states both have to return and leave the same.
pub fn time(row: &Row, sides: [Side; 2]) -> Option<[f64; 2]> {
    let name = &row.name;
    if !is_wanted(name) {
        return None;
    }
    for lent in &row.lent {
        let mut after = [lent.clone(), lent.clone()];
        let numbers = [0, 1].map(|side| sides[side](&row.call, &mut after[side]));
        assert!(numbers[0] == numbers[1] && same(&after[0], &after[1]), "{name}: the sides differ");
    }
    let mut copies = vec![row.lent[0].clone(); COPIES];
    let mut times = [Vec::new(), Vec::new()];
    for turn in 0..WARM_UP + ROUNDS {
        for place in [turn % 2, (turn + 1) % 2] {
            let time = round(&mut copies, row, turn, sides[place]);
            if turn >= WARM_UP {
                times[place].push(time);
            }
        }
    }
    Some(times.map(median))
}

/// Whether both left the same image, buffers and answer.
fn same(one: &Bench, other: &Bench) -> bool {
    let buffers = one.shelf == other.shelf && one.out == other.out && one.body == other.body;
    one.image == other.image && one.answer == other.answer && buffers
}
