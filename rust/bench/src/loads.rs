//! The whole load, a line in and the table out, on both sides in turn.

use crate::measure::{is_wanted, row, ROUNDS};
use load_c::OUTPUT;
use std::hint::black_box;

/// The seed of the loads.
const SEED: u32 = 1;
/// The draws of the loads.
const DRAWS: usize = 400;

/// A row for each n.
pub fn table() {
    println!("\nns a load, medians of {ROUNDS} loads from seed {SEED}; it runs once for each cap from n to n x n");
    println!("| load | proved | reference | ratio |");
    println!("|---|---|---|---|");
    for n in 2..=4 {
        load_row(n);
    }
}

/// One row: the proved load and the reference, which must print the same.
fn load_row(n: usize) {
    let name = format!("load, n {n}, {DRAWS} draws");
    if !is_wanted(&name) {
        return;
    }
    let input = format!("{n} {SEED} {DRAWS}\n").into_bytes();
    let mut out = vec![0; OUTPUT];
    let count = load_c::load(&input, &mut out);
    assert!(out[..count] == reference::load(&input), "{name}: the sides print different tables");
    row(&name, || load_c::load(black_box(&input), &mut out), || reference::load(black_box(&input)));
}
