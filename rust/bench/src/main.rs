//! Times each call of the proved node beside the reference, in one run.
//!
//! Both sides go from a lent image to the image after the call, with the answer in lent bytes: they check length,
//! trailer and record, make the call, and write back what it changed. A round runs each side on COPIES copies of the
//! state, or on the next of a row's states; they are restored between rounds, which is not timed; outputs are not
//! cleared between calls. Tables of their own have the whole load and the trail. An argument is a part of the names of
//! the rows to run.

#[cfg(feature = "before")]
mod before;
mod calls;
mod loads;
mod measure;
mod rows;
mod states;
mod trails;

use calls::{plain, proved, time, COPIES, ROUNDS};

/// A row for each call and state.
fn calls_table() {
    println!("ns a call, medians of {ROUNDS} rounds of {COPIES} calls; outputs are not cleared between calls");
    println!("| call | proved | reference | ratio |");
    println!("|---|---|---|---|");
    for row in [4, 12].into_iter().flat_map(rows::rows) {
        if let Some([proved, plain]) = time(&row, [proved, plain]) {
            println!("| {} | {proved:.0} | {plain:.0} | {:.2} |", row.name, proved / plain);
        }
    }
}

fn main() {
    calls_table();
    #[cfg(feature = "before")]
    before::table();
    loads::table();
    trails::table();
}
