//! What the tables share: which rows are run, and how they are timed.

use std::hint::black_box;
use std::time::Instant;

/// Runs of each side of a row without an image, in turn.
pub const ROUNDS: usize = 51;
/// Runs before these that are not counted.
const WARM_UP: usize = 5;

/// Whether a row's name has the part that the argument gives, if there is one.
pub fn is_wanted(name: &str) -> bool {
    std::env::args().nth(1).is_none_or(|part| name.contains(&part))
}

/// How long this takes.
pub fn nanoseconds<T>(timed: impl FnOnce() -> T) -> f64 {
    let start = Instant::now();
    black_box(timed());
    start.elapsed().as_nanos() as f64
}

/// The middle of the values.
pub fn median(mut values: Vec<f64>) -> f64 {
    values.sort_by(f64::total_cmp);
    values[values.len() / 2]
}

/// Times the proved side and the reference in turn, prints the row, and gives the two medians.
pub fn row<T, U>(name: &str, mut proved: impl FnMut() -> T, mut reference: impl FnMut() -> U) -> [f64; 2] {
    let mut times = [Vec::new(), Vec::new()];
    for round in 0..WARM_UP + ROUNDS {
        let pair = [nanoseconds(&mut proved), nanoseconds(&mut reference)];
        if round >= WARM_UP {
            times.iter_mut().zip(pair).for_each(|(times, time)| times.push(time));
        }
    }
    let [proved, reference] = times.map(median);
    println!("| {name} | {proved:.0} | {reference:.0} | {:.2} |", proved / reference);
    [proved, reference]
}
