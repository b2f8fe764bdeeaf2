//! The compiled load and the linked one beside the reference's: generated lines, valid and damaged, which meet every
//! case of a delay, loads that come to the end of their issues, loads with halves in their shares, and the stored
//! lines.

use differential::printed::linked_differs;
use differential::program::{compiled, complaint, output, unreadable, Programs};
use differential::run::{compare_inputs, fates_of_inputs};
use differential::stored;
use generate::Generator;
use load_c::OUTPUT;
use reference::boundary::{CROWDED_LOADS, HALF_LOADS};

/// Seeds of the generated lines.
const SEEDS: [u64; 3] = [601, 602, 603];
/// Lines from each seed.
const LINES: usize = 1_000;

#[test]
fn generated_lines_valid_and_damaged() {
    let programs = Programs { load: Some(compiled("load")), yard: None };
    let tally = compare_inputs(&SEEDS, LINES, Generator::load, &programs);
    println!("seeds {SEEDS:?}: {} load lines compared\n{}", tally.loads, tally.counts.table());
    let damaged = tally.counts.of("load", 18);
    assert_eq!(tally.loads, SEEDS.len() * LINES);
    assert!((850..1_150).contains(&damaged), "{damaged} of {} lines are damaged", tally.loads);
}

#[test]
fn generated_lines_meet_every_case_of_a_delay() {
    let fates = fates_of_inputs(&SEEDS, LINES, Generator::load);
    println!("{fates:?}");
    assert_eq!(fates.seldom(50), [], "{fates:?}");
}

/// Holds the compiled load and the linked one against the reference on one line.
fn compare(line: &str) {
    let input = line.as_bytes();
    let printed = reference::load(input);
    assert_eq!(output(&compiled("load"), input).expect("the load runs"), printed, "{line}");
    assert_eq!(linked_differs(input, OUTPUT, &printed), None, "{line}");
}

#[test]
fn loads_that_come_to_the_end_of_their_issues() {
    CROWDED_LOADS.into_iter().for_each(|seed| compare(&format!("4 {seed} 400\n")));
}

#[test]
fn loads_with_halves_in_their_shares() {
    HALF_LOADS.into_iter().for_each(compare);
}

#[test]
fn outputs_of_any_length() {
    for input in ["4 1 60\n", "2 1 60\n", "5 1 60\n", ""] {
        let input = input.as_bytes();
        let printed = reference::load(input);
        for length in [0, 1, 5, printed.len(), OUTPUT - 1, OUTPUT, OUTPUT + 1, 5_000] {
            assert_eq!(linked_differs(input, length, &printed), None, "{}", String::from_utf8_lossy(input));
        }
    }
}

#[test]
fn stored_lines() {
    stored::check("crates/load/examples", reference::load, &compiled("load"));
}

#[test]
fn an_output_that_cannot_be_written_is_told() {
    let complaint = complaint(&compiled("load"), b"2 1 40\n").expect("the load runs");
    assert_eq!(String::from_utf8_lossy(&complaint), "load: the output cannot be written\n");
}

#[test]
fn an_input_that_cannot_be_read_is_told() {
    let ran = unreadable(&compiled("load")).expect("the load runs");
    assert_eq!((ran.status.code(), ran.stdout.len(), ran.stderr.is_empty()), (Some(1), 0, false));
}
