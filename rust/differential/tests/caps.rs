//! A cap for each node (document 02, (x)): frames of any sender's cap offered, held and written to a trail on both
//! implementations, on both sides of each bound, and what a delivery trims by the receiver's own cap.

use differential::compare;
use differential::trails::compare_trail;
use generate::{Answer, Buffers, Call, Case, Outcome};
use reference::ceiling::large_cap;
use reference::draft::Draft;
use reference::frame::{Entry, EXTRA, USER};
use reference::node::OUTPUT;
use reference::{shelf, DeliverAnswer, Record};

/// The receiver of the frames.
const ME: usize = 0;
/// Their sender.
const FROM: usize = 1;

/// A node of n with this cap that has sent a frame to each other node and delivered one from each.
fn receiver(n: usize, cap: usize) -> Record {
    let mut record = Record::fresh(ME, n, cap).expect("n and cap are in range");
    (1..n).for_each(|x| (*record.entry_mut(ME, x), record.deliv[x]) = (1, 1));
    record
}

/// A deliverable user frame for it from a node with this cap, with so many of its (n − 1) × (n − 1) entries, the one for
/// its number the first of them.
fn user(n: usize, cap: usize, entries: usize) -> Vec<u8> {
    let all = (0..n).flat_map(|row| (0..n).map(move |column| (row, column)));
    let places = all.filter(|(row, column)| row != column && *column != FROM && (*row, *column) != (FROM, ME));
    let chosen = [(FROM, ME)].into_iter().chain(places).take(entries);
    draft(USER, n, cap, chosen.map(|(row, column)| (row, column, 1)))
}

/// An extra frame for it with the whole column.
fn extra(n: usize, cap: usize) -> Vec<u8> {
    draft(EXTRA, n, cap, (1..n).map(|row| (row, ME, 1)))
}

/// A frame without a body with these entries, in their order.
fn draft(kind: u8, n: usize, cap: usize, entries: impl Iterator<Item = (usize, usize, u32)>) -> Vec<u8> {
    let mut entries: Vec<Entry> = entries.map(|(row, column, value)| Entry { row, column, value }).collect();
    entries.sort_by_key(|entry| (entry.row, entry.column));
    let [from, to, n, cap] = [FROM, ME, n, cap].map(|number| number as u8);
    Draft { kind, from, to, n, cap, zero: 0, entries, body: Vec::new() }.bytes()
}

/// What both sides came to.
fn both(record: &Record, call: Call, shelf: Vec<u8>) -> Outcome {
    let buffers = Buffers { shelf, out: vec![0; OUTPUT], body_out: vec![0; Record::BODY], ..Buffers::default() };
    compare(&Case::written(record, call, buffers)).unwrap_or_else(|difference| panic!("{difference}"))
}

/// A call of the trail on both sides; gives its number.
fn trail(call: Call, file: Vec<u8>) -> u8 {
    let case = Case { buffers: Buffers { file, ..Buffers::default() }, ..Case::alone(call) };
    compare_trail(&case).unwrap_or_else(|difference| panic!("{difference}")).answer.number()
}

/// A deliver where the frame is held.
fn delivered(record: &Record, frame: &[u8]) -> Outcome {
    let mut shelf = vec![0; shelf::LENGTH];
    shelf[..frame.len()].copy_from_slice(frame);
    both(&Record { held: 1, ..*record }, Call::Deliver, shelf)
}

/// The numbers for a frame: offered, held in a deliver, held in an offer of another frame, written and walked back to.
fn numbers(record: &Record, frame: &[u8]) -> [u8; 5] {
    let offer = |frame: &[u8]| Call::Offer { frame: frame.to_vec() };
    let empty = vec![0; shelf::LENGTH];
    let mut filled = empty.clone();
    filled[..frame.len()].copy_from_slice(frame);
    // The other frame is one behind it.
    let n = record.n as usize;
    let other = draft(USER, n, n, [(FROM, ME, 2)].into_iter());
    [
        both(record, offer(frame), empty).answer.number(),
        delivered(record, frame).answer.number(),
        both(&Record { held: 1, ..*record }, offer(&other), filled).answer.number(),
        trail(Call::Write { used: 0, frame: frame.to_vec() }, vec![0; frame.len()]),
        trail(Call::Walk { file: frame.to_vec(), w: 1 }, Vec::new()),
    ]
}

/// The numbers of a frame that is taken, of one that meets 10, and of one that meets 11.
const TAKEN: [u8; 5] = [0; 5];
const MEETS_10: [u8; 5] = [10, 4, 4, 19, 19];
const MEETS_11: [u8; 5] = [11, 4, 4, 19, 19];

/// Caps of a receiver among n nodes: the least, one between, and the largest.
fn own_caps(n: usize) -> [usize; 3] {
    [n, n + n / 2, n * n]
}

#[test]
fn both_sides_of_each_bound_of_the_cap() {
    for n in 2..=12 {
        let square = n * n;
        for own in own_caps(n) {
            let record = receiver(n, own);
            for (cap, expected) in [
                (0, MEETS_10),
                (1, MEETS_10),
                (n - 1, MEETS_10),
                (n, TAKEN),
                (n + 1, TAKEN),
                (square - 1, TAKEN),
                (square, TAKEN),
                (square + 1, MEETS_10),
                (255, MEETS_10),
            ] {
                for frame in [user(n, cap, 1), extra(n, cap)] {
                    assert_eq!(numbers(&record, &frame), expected, "n {n}, cap {cap} to {own}: {frame:?}");
                }
            }
        }
    }
}

#[test]
fn both_sides_of_each_number_of_entries() {
    for n in 3..=12 {
        for own in own_caps(n) {
            let record = receiver(n, own);
            for cap in n..large_cap(n) {
                let given = [cap, cap + 1].map(|entries| numbers(&record, &user(n, cap, entries)));
                assert_eq!(given, [TAKEN, MEETS_11], "n {n}, cap {cap} to {own}");
            }
            // 10 stands in front of 11.
            assert_eq!(numbers(&record, &user(n, n - 1, n)), MEETS_10, "n {n} to {own}");
        }
    }
}

#[test]
fn a_delivery_trims_by_the_receivers_own_cap() {
    let (mut more, mut trimmed, mut whole) = (0, 0, 0);
    for n in 3..=12 {
        for own in n..=n * n {
            for senders in [n, own, n * n] {
                let entries = senders.min(large_cap(n));
                let outcome = delivered(&receiver(n, own), &user(n, senders, entries));
                let Answer::Deliver(DeliverAnswer::Delivered(delivery)) = outcome.answer else {
                    panic!("{:?}", outcome.answer)
                };
                let standing = outcome.record().expect("a sound image").standing();
                assert!(standing <= own, "n {n}, {entries} entries of cap {senders} to {own}");
                assert!(delivery.extras == 0 || own < large_cap(n), "n {n}, cap {senders} to {own}");
                more += usize::from(entries > own);
                trimmed += usize::from(entries > own && delivery.extras > 0);
                whole += usize::from(entries > own && delivery.extras == 0);
            }
        }
    }
    println!("{more} frames with more entries than the receiver's cap, of which {trimmed} trim and {whole} do not");
    assert!(trimmed > 300 && whole > 10 && more == trimmed + whole, "{more} {trimmed} {whole}");
}

#[test]
fn a_frame_written_carries_its_senders_cap() {
    for n in 2..=12 {
        for cap in own_caps(n) {
            let to = 1;
            let record = receiver(n, cap);
            let outcome = both(&record, Call::Send { to, class: 0, body: vec![7] }, Vec::new());
            assert_eq!(outcome.buffers.out[5..7], [n as u8, cap as u8]);
        }
    }
}
