//! Compares the proved node and trail with the reference: `compare CALLS SEED [YARD [LOAD]]`.
//!
//! CALLS generated and crafted calls from the seed, the trail's among them, then a hostile list for each thousand
//! calls. YARD and LOAD are the paths of the compiled yard and load; the inputs of one that is not named are left out.
//! A bad argument is refused with the usage line.

use differential::arguments::{Arguments, USAGE};
use differential::hostile::hostile;
use differential::lists::Totals;
use differential::program::Programs;
use differential::run::{Cases, Tally};
use reference::random::Random;
use std::fmt::Display;
use std::path::PathBuf;
use std::time::Instant;

/// Steps of a list.
const STEPS: usize = 400;

fn main() {
    let arguments = Arguments::read(std::env::args_os().skip(1)).unwrap_or_else(|message| {
        eprintln!("compare: {message}\n{USAGE}");
        std::process::exit(2);
    });
    let Arguments { calls, seed, programs } = arguments;
    let named =
        |program: &Option<PathBuf>| program.as_ref().map_or("left out".into(), |path| path.display().to_string());
    println!("seed {seed}, {calls} calls, yard {}, load {}", named(&programs.yard), named(&programs.load));
    let start = Instant::now();
    run_calls(calls, seed, &programs, start);
    run_lists(calls / 1000, seed, start);
}

/// Generated and crafted calls, and inputs of the programs that are named.
fn run_calls(calls: usize, seed: u64, programs: &Programs, start: Instant) {
    let mut cases = Cases::new(seed);
    let mut tally = Tally::default();
    for index in 0..calls {
        let case = cases.case();
        if let Err(difference) = tally.add(&case, programs) {
            stop(&difference, &format!("call {} of seed {seed}: compare {} {seed}", index + 1, index + 1));
        }
        progress("calls", index + 1, calls, start);
    }
    println!("{}", tally.counts.table());
    let Tally { calls, trails, yards, loads, left_out, .. } = tally;
    if left_out > 0 {
        println!("{left_out} yard or load inputs left out: no program named");
    }
    println!("{calls} node calls, {trails} trail calls, {yards} yard and {loads} load inputs compared, no difference");
}

/// Hostile lists, each from a seed of its own.
fn run_lists(lists: usize, seed: u64, start: Instant) {
    let mut totals = Totals::default();
    for index in 0..lists {
        let own = seed.wrapping_mul(1_000_003).wrapping_add(index as u64);
        totals = hostile(&mut Random::new(own), STEPS, totals)
            .unwrap_or_else(|failure| stop(&failure, &format!("list {index} of seed {seed} (its own seed is {own})")));
        progress("lists", index + 1, lists, start);
    }
    println!("{lists} hostile lists:\n{totals}");
}

/// Prints a difference and how to come to it again.
fn stop(difference: &dyn Display, place: &str) -> ! {
    println!("{difference}\n{place}");
    std::process::exit(1);
}

/// Shows progress about twenty times in a run.
fn progress(what: &str, done: usize, all: usize, start: Instant) {
    if done.is_multiple_of((all / 20).max(1)) {
        eprintln!("{done} of {all} {what}, {:.0} s", start.elapsed().as_secs_f64());
    }
}
