//! States from which send, offer and deliver are taken, and these three calls on any bytes as an image.

use crate::compare;
use generate::shelves::frame_at;
use generate::states::{any_state, State};
use generate::{Buffers, Call, Case, Made, Outcome};
use reference::host::ANSWER;
use reference::node::OUTPUT;
use reference::random::Random;
use reference::Record;

/// What stands in lent outputs before a call.
const FILL: u8 = 0xC3;

/// Send, offer and deliver on these bytes as an image, with an answer of this length; what all came to.
pub fn calls(state: &State, image: &[u8], answer_length: usize) -> [Outcome; 3] {
    let (shelf, frame) = (state.shelf.clone(), state.frame.clone().unwrap_or_default());
    let (out, body_out) = (vec![FILL; OUTPUT], vec![FILL; Record::BODY]);
    let buffers = Buffers { shelf, out, body_out, answer: vec![FILL; answer_length], ..Buffers::default() };
    let to = usize::from(state.record.me == 0);
    [Call::Send { to, class: 2, body: b"body".to_vec() }, Call::Offer { frame }, Call::Deliver].map(|call| {
        let case = Case { image: image.to_vec(), made: Made::Found, call, buffers: buffers.clone() };
        compare(&case).unwrap_or_else(|difference| panic!("{difference}"))
    })
}

/// The numbers that the calls give.
pub fn numbers(state: &State, image: &[u8], answer_length: usize) -> [u8; 3] {
    calls(state, image, answer_length).map(|outcome| outcome.answer.number())
}

/// A state from which all three are taken: the offered frame is the last held one, taken off again.
pub fn taken_state(random: &mut Random) -> State {
    loop {
        let mut state = any_state(random);
        let held = state.record.held as usize;
        if !(1..16).contains(&held) {
            continue;
        }
        let place = Record::FRAME * (held - 1);
        let frame = frame_at(&state.shelf, held - 1).expect("a held frame").bytes().to_vec();
        state.shelf[place..place + Record::FRAME].fill(0);
        state.record.held -= 1;
        state.frame = Some(frame);
        if numbers(&state, &state.record.to_image(), ANSWER) == [0; 3] {
            return state;
        }
    }
}
