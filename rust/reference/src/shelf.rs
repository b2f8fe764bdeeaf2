//! The shelf: 16 places of 802 bytes, and check 4.

use crate::frame::{refuse, Frame};
use crate::{Record, Refusal};

/// Bytes of a shelf.
pub const LENGTH: usize = Record::HELD * Record::FRAME;

/// A shelf that holds nothing.
static EMPTY: [u8; LENGTH] = [0; LENGTH];

/// The places of a shelf in their order.
fn places(shelf: &[u8]) -> impl Iterator<Item = &[u8]> {
    shelf.chunks_exact(Record::FRAME)
}

/// The held frames in holding order.
pub fn frames(shelf: &[u8], held: usize) -> impl Iterator<Item = Frame<'_>> {
    places(shelf).take(held).filter_map(Frame::first_of)
}

/// 4 unless the shelf is laid out, no held frame would meet one of 8 to 14, and no two agree in from and number.
pub fn check(shelf: &[u8], record: &Record) -> Result<(), Refusal> {
    let held = record.held as usize;
    let (filled, others) = shelf.split_at(held * Record::FRAME);
    refuse(!is_zero(others), 4)?;
    let mut labels = [(0, 0); Record::HELD];
    for (index, place) in places(filled).enumerate() {
        let frame = frame_of(place, record).ok_or(4)?;
        let label = (frame.from(), frame.number());
        refuse(labels[..index].contains(&label), 4)?;
        labels[index] = label;
    }
    Ok(())
}

/// The frame that fills a place: 12 + 6 × e + b bytes by its own e and b that meet none of 8 to 14, then zeros.
fn frame_of<'a>(place: &'a [u8], record: &Record) -> Option<Frame<'a>> {
    let length = Frame::first_of(place)?.bytes().len();
    let (frame, rest) = place.split_at(length);
    Frame::check(frame, record).ok().filter(|_| is_zero(rest))
}

/// Whether all bytes, of a part of a shelf, are zero.
fn is_zero(bytes: &[u8]) -> bool {
    EMPTY.starts_with(bytes)
}

/// Fills the first free place with the frame, then zeros to the place's end.
pub fn hold(shelf: &mut [u8], held: usize, frame: &[u8]) {
    let start = held * Record::FRAME;
    shelf[start..start + Record::FRAME].fill(0);
    shelf[start..start + frame.len()].copy_from_slice(frame);
}

/// Removing one moves the later ones down.
pub fn remove(shelf: &mut [u8], held: usize, index: usize) {
    let start = index * Record::FRAME;
    let last = (held - 1) * Record::FRAME;
    let end = held * Record::FRAME;
    shelf.copy_within(start + Record::FRAME..end, start);
    shelf[last..end].fill(0);
}
