//! The calls of an archive before nodes could differ in cap, and of the present one, in one run (feature `before`).
//!
//! The earlier archive is a `libhost.a` with the present parameters and the present sum. Both work on the same states, in
//! which a frame has the cap of the node that holds it or is offered it, so that both take it; what both leave has to be
//! the same.

use crate::calls::{time, Bench, Side};
use crate::rows::{rows, Call, MOVER};

/// Lent bytes that may be written; a slice is followed by its length.
type Bytes = *mut u8;
/// Lent bytes that are only read.
type Read = *const u8;

#[rustfmt::skip]
extern "C" {
    fn before_set_up(_: Bytes, _: usize, me: usize, n: usize, cap: usize) -> u8;
    fn before_send(_: Bytes, _: usize, to: usize, class: usize, _: Read, _: usize, _: Bytes, _: usize, _: Bytes, _: usize) -> u8;
    fn before_offer(_: Bytes, _: usize, _: Read, _: usize, _: Bytes, _: usize, _: Bytes, _: usize) -> u8;
    fn before_deliver(_: Bytes, _: usize, _: Bytes, _: usize, _: Bytes, _: usize, _: Bytes, _: usize, _: Bytes, _: usize) -> u8;
    fn after_set_up(_: Bytes, _: usize, me: usize, n: usize, cap: usize) -> u8;
    fn after_send(_: Bytes, _: usize, to: usize, class: usize, _: Read, _: usize, _: Bytes, _: usize, _: Bytes, _: usize) -> u8;
    fn after_offer(_: Bytes, _: usize, _: Read, _: usize, _: Bytes, _: usize, _: Bytes, _: usize) -> u8;
    fn after_deliver(_: Bytes, _: usize, _: Bytes, _: usize, _: Bytes, _: usize, _: Bytes, _: usize, _: Bytes, _: usize) -> u8;
}

/// The calls of one archive, by names of their own.
macro_rules! side {
    ($set_up:ident, $send:ident, $offer:ident, $deliver:ident) => {
        |call: &Call, bench: &mut Bench| {
            let Bench { image, shelf, out, body, answer } = bench;
            let [shelf, out, text] = [shelf, out, body].map(|lent| (lent.as_mut_ptr(), lent.len()));
            let (image, answer) = ((image.as_mut_ptr(), image.len()), (answer.as_mut_ptr(), answer.len()));
            // SAFETY: as in `host::lent`, the functions require nothing and stay inside what they are lent.
            match call {
                Call::SetUp { me, n, cap } => unsafe { $set_up(image.0, image.1, *me, *n, *cap) },
                Call::Send { body } => unsafe {
                    $send(image.0, image.1, 1, MOVER, body.as_ptr(), body.len(), out.0, out.1, answer.0, answer.1)
                },
                Call::Offer { frame } => unsafe {
                    $offer(image.0, image.1, frame.as_ptr(), frame.len(), shelf.0, shelf.1, answer.0, answer.1)
                },
                Call::Deliver => unsafe {
                    $deliver(image.0, image.1, shelf.0, shelf.1, out.0, out.1, text.0, text.1, answer.0, answer.1)
                },
            }
        }
    };
}

/// The earlier archive and the present one, both placed alike.
const SIDES: [Side; 2] = [
    side!(before_set_up, before_send, before_offer, before_deliver),
    side!(after_set_up, after_send, after_offer, after_deliver),
];

/// Every row, before and after.
pub fn table() {
    println!("\n| call | before | after | ratio |");
    println!("|---|---|---|---|");
    for row in [4, 12].into_iter().flat_map(rows) {
        if let Some([before, after]) = time(&row, SIDES) {
            println!("| {} | {before:.0} | {after:.0} | {:.3} |", row.name, after / before);
        }
    }
}
