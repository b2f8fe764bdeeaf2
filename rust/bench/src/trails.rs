//! The trail: frames written one on another from an empty file, and the whole walk back, on both sides in turn.

use crate::measure::{is_wanted, row, ROUNDS};
use host::Refusal;
use reference::draft::Draft;
use reference::frame::{EXTRA, USER};
use reference::random::Random;
use reference::trail;
use std::hint::black_box;

/// The seed of the frames.
const SEED: u64 = 1;
/// The frames of a trail, and twice as many.
const FRAMES: [usize; 2] = [10_000, 20_000];
/// The smallest and the largest window.
const WINDOWS: [usize; 2] = [1, 64];
/// Nodes that issued the frames.
const NODES: usize = 4;

/// Nanoseconds of the proved side and of the reference.
type Times = [f64; 2];

/// A row for each number of frames and each window, and one for the writing; then how the times grow.
pub fn table() {
    println!("\nns a trail, medians of {ROUNDS}; frames of {NODES} nodes from seed {SEED}, one in four an extra frame");
    println!("| trail | proved | reference | ratio |");
    println!("|---|---|---|---|");
    let trails = FRAMES.map(frames);
    let walks = [0, 1].map(|size| WINDOWS.map(|w| walk_row(&trails[size], w)));
    write_row(&trails[0]);
    println!("\n| how the walk's time grows | proved | reference |");
    println!("|---|---|---|");
    for (place, w) in WINDOWS.iter().enumerate() {
        growth(&format!("twice the frames, w {w}"), walks[1][place], walks[0][place]);
    }
    for (size, count) in FRAMES.iter().enumerate() {
        growth(&format!("w 64 for w 1, {count} frames"), walks[size][1], walks[size][0]);
    }
}

/// So many frames of any entries and bodies.
fn frames(count: usize) -> Vec<Vec<u8>> {
    let mut random = Random::new(SEED);
    (0..count).map(|_| frame(&mut random)).collect()
}

/// A user frame with up to 9 entries and a body of up to 64 bytes, or an extra frame with up to 3 entries.
fn frame(random: &mut Random) -> Vec<u8> {
    let from = random.below(NODES);
    let to = (from + 1 + random.below(NODES - 1)) % NODES;
    let (kind, length) = if random.once_in(4) { (EXTRA, 0) } else { (USER, random.below(65)) };
    let body = random.bytes(length);
    let [from8, to8, n, cap] = [from, to, NODES, NODES * NODES].map(|number| number as u8);
    let mut draft = Draft { kind, from: from8, to: to8, n, cap, zero: 0, entries: Vec::new(), body };
    let share = random.within(0, 9);
    let places = (0..NODES).flat_map(|row| (0..NODES).map(move |column| (row, column)));
    let fits = |row, column| row != column && column != from && (kind == USER || column == to);
    for (row, column) in places.filter(|(row, column)| fits(*row, *column)) {
        if random.below(9) < share {
            draft.set(row, column, random.within(1, 5_000) as u32);
        }
    }
    draft.bytes()
}

/// One row: the walk back of both sides, which must agree.
fn walk_row(frames: &[Vec<u8>], w: usize) -> Option<Times> {
    let file = frames.concat();
    let name = format!("walk back, {} frames of {} bytes in all, w {w}", frames.len(), file.len());
    if !is_wanted(&name) {
        return None;
    }
    assert_eq!(host::trail::largest(&file, w).map_err(Refusal::number), trail::walk(&file, w), "{name}");
    Some(row(&name, || host::trail::largest(black_box(&file), w), || trail::walk(black_box(&file), w)))
}

/// One row: the writing of both sides, which must leave the same bytes.
fn write_row(frames: &[Vec<u8>]) {
    let length = frames.iter().map(Vec::len).sum();
    let name = format!("write, {} frames of {length} bytes in all", frames.len());
    if !is_wanted(&name) {
        return;
    }
    let (mut proved, mut reference) = (vec![0; length], vec![0; length]);
    assert_eq!((write_proved(&mut proved, frames), write_reference(&mut reference, frames)), (length, length));
    assert!(proved == reference && proved == frames.concat(), "the sides leave different bytes");
    row(&name, || write_proved(&mut proved, black_box(frames)), || write_reference(&mut reference, black_box(frames)));
}

/// Writes the frames on from an empty file; the number in use in the end.
fn write_proved(file: &mut [u8], frames: &[Vec<u8>]) -> usize {
    let mut used = 0;
    frames.iter().for_each(|frame| host::trail::write(file, &mut used, frame).expect("a sound frame with room"));
    used
}

/// The same by the reference.
fn write_reference(file: &mut [u8], frames: &[Vec<u8>]) -> usize {
    frames.iter().fold(0, |used, frame| trail::write(file, used, frame).expect("a sound frame with room"))
}

/// By how much a time is larger than another on each side, where both were taken.
fn growth(name: &str, larger: Option<Times>, smaller: Option<Times>) {
    if let (Some(larger), Some(smaller)) = (larger, smaller) {
        println!("| {name} | {:.2} | {:.2} |", larger[0] / smaller[0], larger[1] / smaller[1]);
    }
}
