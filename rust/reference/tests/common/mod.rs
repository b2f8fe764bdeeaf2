//! What the tests share.
#![allow(dead_code)]

use reference::draft::Draft;
use reference::frame::Entry;
use reference::*;

/// A shelf with no frame.
pub fn empty_shelf() -> Vec<u8> {
    vec![0; shelf::LENGTH]
}

/// A fresh record that must be in range.
pub fn fresh(me: usize, n: usize, cap: usize) -> Record {
    let (answer, record) = set_up(me, n, cap);
    assert_eq!(answer, Ok(()));
    record
}

/// A record with these M entries and DELIV values.
pub fn with(me: usize, n: usize, cap: usize, m: &[(usize, usize, u32)], deliv: &[(usize, u32)]) -> Record {
    let mut record = fresh(me, n, cap);
    for (row, column, value) in m {
        *record.entry_mut(*row, *column) = *value;
    }
    for (x, value) in deliv {
        record.deliv[*x] = *value;
    }
    record
}

/// Entries from triples.
pub fn entries(triples: &[(usize, usize, u32)]) -> Vec<Entry> {
    triples.iter().map(|(row, column, value)| Entry { row: *row, column: *column, value: *value }).collect()
}

/// A draft of a frame for nodes with this n and cap.
pub fn draft(kind: u8, from: u8, to: u8, n: u8, cap: u8, triples: &[(usize, usize, u32)], body: &[u8]) -> Draft {
    Draft { kind, from, to, n, cap, zero: 0, entries: entries(triples), body: body.to_vec() }
}

/// The number that a send gives (0 for none), with its promise on refusals held against it.
pub fn send_number(record: Record, to: usize, class: usize, body: &[u8], length: usize) -> u8 {
    let mut out = vec![0xA5; length];
    match send(record, to, class, body, &mut out) {
        (SendAnswer::Refused(number), after) => {
            assert_eq!((after, out), (record, vec![0xA5; length]));
            number
        }
        (SendAnswer::Sent { bytes, .. }, _) => {
            assert!(out[bytes..].iter().all(|byte| *byte == 0xA5));
            0
        }
    }
}

/// The number that an offer gives (0 for none), with its promise on refusals held against it.
pub fn offer_number(record: Record, frame: &[u8], shelf: &[u8]) -> u8 {
    let mut after_shelf = shelf.to_vec();
    match offer(record, frame, &mut after_shelf) {
        (OfferAnswer::Refused(number), after) => {
            assert_eq!((after, &after_shelf[..]), (record, shelf));
            number
        }
        (OfferAnswer::Held { held, .. }, after) => {
            assert_eq!((held, after.held), (record.held as usize + 1, record.held + 1));
            0
        }
    }
}

/// The number that a deliver gives (0 for none), with its promise on refusals held against it.
pub fn deliver_number(record: Record, shelf: &[u8], length: usize, body_length: usize) -> u8 {
    let (mut after_shelf, mut out, mut body) = (shelf.to_vec(), vec![0xA5; length], vec![0x5A; body_length]);
    match deliver(record, &mut after_shelf, &mut out, &mut body) {
        (DeliverAnswer::Refused(number), after) => {
            assert_eq!((after, &after_shelf[..]), (record, shelf));
            assert_eq!((out, body), (vec![0xA5; length], vec![0x5A; body_length]));
            number
        }
        _ => 0,
    }
}

/// A record that holds these frames, and its shelf, whether they are sound or not.
pub fn holding(mut record: Record, frames: &[Vec<u8>]) -> (Record, Vec<u8>) {
    let mut shelf = empty_shelf();
    for (index, frame) in frames.iter().enumerate() {
        shelf[802 * index..802 * index + frame.len()].copy_from_slice(frame);
    }
    record.held = frames.len() as u8;
    (record, shelf)
}

/// Whether r is the extras' share: 200 × extras and 2 × r × users differ by at most users, and if by exactly users, r is
/// even.
pub fn is_share(extras: usize, users: usize, r: usize) -> bool {
    let away = (200 * extras).abs_diff(2 * r * users);
    away < users || away == users && r.is_multiple_of(2)
}
