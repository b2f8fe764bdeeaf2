//! A bounded share of the calls that `compare` runs: every refusal of every call is among them, every way to damage an
//! image, and both sides of every bound of a length and of a frame's cap.

use differential::program::Programs;
use differential::run::{Cases, Tally};
use generate::counts::{Counts, Lent, Place};
use generate::images::damages;
use generate::Made;

/// The refusals that each call gives.
const REFUSALS: [(&str, &[u8]); 7] = [
    ("set-up", &[1, 20]),
    ("send", &[3, 5, 6, 7, 20, 21]),
    ("offer", &[3, 4, 8, 9, 10, 11, 12, 13, 14, 15, 16, 20]),
    ("deliver", &[3, 4, 5, 20]),
    ("write", &[3, 19]),
    ("walk", &[19]),
    ("step", &[19]),
];
/// Calls from each seed.
const CALLS: usize = 250_000;
/// Each refusal is met at least this often from each seed.
const LEAST: usize = 1_000;
/// Each way to damage a part of an image, and each length about a bound, is met at least this often from each seed.
const SELDOM: usize = 15;

/// Lengths on both sides of a bound and the number that each call gives for them, 0 where it was taken. That frames of
/// 802 bytes are taken, which is rarer, stands with the largest below.
const BOUNDS: [(&str, Lent, usize, u8); 22] = [
    ("send", "frame output", 2047, 3),
    ("send", "frame output", 2048, 0),
    ("send", "frame output", 2049, 0),
    ("send", "body", 0, 0),
    ("send", "body", 64, 0),
    ("send", "body", 65, 7),
    ("offer", "shelf", 12_831, 3),
    ("offer", "shelf", 12_832, 0),
    ("offer", "shelf", 12_833, 3),
    ("offer", "frame", 0, 8),
    ("offer", "frame", 11, 8),
    ("offer", "frame", 12, 0),
    ("offer", "frame", 803, 8),
    ("deliver", "shelf", 12_831, 3),
    ("deliver", "shelf", 12_832, 0),
    ("deliver", "shelf", 12_833, 3),
    ("deliver", "frame output", 2047, 3),
    ("deliver", "frame output", 2048, 0),
    ("deliver", "frame output", 2049, 0),
    ("deliver", "body output", 63, 3),
    ("deliver", "body output", 64, 0),
    ("deliver", "body output", 65, 0),
];

/// Compares the calls of a seed.
fn run(seed: u64) -> Tally {
    let mut cases = Cases::new(seed);
    let mut tally = Tally::default();
    for index in 0..CALLS {
        if let Err(difference) = tally.add(&cases.case(), &Programs::default()) {
            panic!("{difference}\ncall {} of seed {seed}: compare {} {seed}", index + 1, index + 1);
        }
    }
    println!("seed {seed}: {} calls of the node, {} of the trail compared", tally.calls, tally.trails);
    println!("{}", tally.counts.table());
    tally
}

/// Each refusal is met often enough, and the largest frames are met.
fn check_refusals(counts: &Counts) {
    for (call, numbers) in REFUSALS {
        for number in numbers {
            let met = counts.of(call, *number);
            assert!(met >= LEAST, "{call} gave {number} only {met} times");
        }
    }
    assert_eq!(["send", "deliver", "offer"].map(|call| counts.largest(call)), [814, 846, 802]);
}

/// Each way to damage an image is met often enough at each call that reads it, and so are images as written. Where the
/// trailer was made right again, the image of another record may be taken.
fn check_images(counts: &Counts) {
    for call in ["send", "offer", "deliver"] {
        for (part, sealed) in damages() {
            let made = Made::Damaged { part, sealed };
            let met = counts.of_made(call, made, 20);
            assert!(met >= SELDOM, "{call} gave 20 for {made:?} only {met} times");
            assert!(sealed || counts.of_made(call, made, 0) == 0, "{call} took {made:?}");
        }
        let resized = [false, true].map(|sealed| Made::Resized { sealed });
        for made in [resized[0], resized[1], Made::Exchanged, Made::Old] {
            let met = counts.of_made(call, made, 20);
            assert!(met >= LEAST / 4, "{call} gave 20 for {made:?} only {met} times");
            assert_eq!(counts.of_made(call, made, 0), 0, "{call} took {made:?}");
        }
        assert!(counts.of_made(call, Made::Written, 0) >= LEAST);
    }
}

/// Each length about a bound, at each call that is lent it, has given these numbers often enough.
fn check_lengths(counts: &Counts) {
    let check = |call, lent, length, number| {
        let met = counts.of_length(call, lent, length, number);
        assert!(met >= SELDOM, "{call} gave {number} for {lent} of {length} only {met} times");
    };
    for (call, lent, length, number) in BOUNDS {
        check(call, lent, length, number);
    }
    check("set-up", "image", 631, 1);
    for call in ["set-up", "send", "offer", "deliver"] {
        for length in [0, 1, 1000].into_iter().chain(627..=640) {
            check(call, "image", length, if length == 632 { 0 } else { 20 });
        }
    }
    for call in ["send", "offer", "deliver"] {
        (0..=20).for_each(|length| check(call, "answer", length, if length < 11 { 3 } else { 0 }));
        let both: usize = (0..11).map(|length| counts.of_length(call, "answer", length, 20)).sum();
        assert!(both >= SELDOM, "{call} gave 20 before 3 only {both} times");
    }
}

/// Frames with caps and entries on both sides of every bound, and beside the node's own cap, have given these numbers often
/// enough: offered, held and written to a trail.
fn check_caps(counts: &Counts) {
    for (call, place) in [("offer", Place::Offered), ("offer", Place::Held), ("deliver", Place::Held)] {
        assert_eq!(counts.missed(call, place, SELDOM), [], "{call}, {place:?}");
    }
    // A write is a rarer call.
    assert_eq!(counts.missed("write", Place::Written, SELDOM / 3), []);
}

#[test]
fn calls_of_four_seeds() {
    let seeds = [101, 202, 303, 404].map(|seed| std::thread::spawn(move || run(seed)));
    for tally in seeds.map(|thread| thread.join()) {
        let Tally { calls, counts, .. } = tally.unwrap_or_else(|panic| std::panic::resume_unwind(panic));
        assert!(calls >= 200_000, "only {calls} calls of the node");
        check_refusals(&counts);
        check_images(&counts);
        check_lengths(&counts);
        check_caps(&counts);
    }
}
