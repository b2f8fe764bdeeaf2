//! The compiled yard beside the reference's: generated inputs, valid and damaged, which meet every case of a delay, and
//! the stored ones.

use differential::program::{compiled, complaint, from_top, unreadable, Programs};
use differential::run::{compare_inputs, fates_of_inputs};
use differential::stored;
use generate::first_line::FirstLine;
use generate::{Call, Case, Generator};
use std::collections::BTreeMap;

/// Seeds of the generated inputs.
const SEEDS: [u64; 3] = [501, 502, 503];
/// Inputs from each seed.
const INPUTS: usize = 2_000;
/// The refusals that a yard can print.
const REFUSALS: [u8; 5] = [6, 14, 15, 16, 17];

#[test]
fn generated_inputs() {
    let programs = Programs { yard: Some(compiled("yard")), load: None };
    let tally = compare_inputs(&SEEDS, INPUTS, Generator::yard, &programs);
    println!("seeds {SEEDS:?}: {} yard inputs compared\n{}", tally.yards, tally.counts.table());
    assert_eq!(tally.yards, SEEDS.len() * INPUTS);
    for number in REFUSALS {
        assert!(tally.counts.of("yard", number) > 0, "no yard printed R {number}");
    }
}

/// The input of a yard.
fn input_of(case: Case) -> Vec<u8> {
    match case.call {
        Call::Yard { input } => input,
        other => panic!("{} is no yard", other.name()),
    }
}

#[test]
fn generated_inputs_are_valid_and_damaged() {
    let inputs = Generator::cases(SEEDS[0], INPUTS, Generator::yard).map(input_of);
    let (alone, others): (Vec<_>, Vec<_>) = inputs.partition(|input| reference::yard(input) == b"R 17\n");
    assert!(alone.len() > 80 && others.len() > 1_200, "{} refused whole, {} not", alone.len(), others.len());
}

#[test]
fn generated_inputs_have_first_lines_of_every_kind() {
    let mut met = BTreeMap::<_, usize>::new();
    let inputs = SEEDS.iter().flat_map(|seed| Generator::cases(*seed, INPUTS, Generator::yard)).map(input_of);
    inputs.for_each(|input| *met.entry(FirstLine::of(&input)).or_default() += 1);
    println!("{met:?}");
    for line in FirstLine::all() {
        let count = met.get(&line).copied().unwrap_or(0);
        assert!(count >= 3, "{line:?} is met only {count} times");
    }
}

#[test]
fn generated_inputs_meet_every_case_of_a_delay() {
    let fates = fates_of_inputs(&SEEDS, INPUTS, Generator::yard);
    println!("{fates:?}");
    assert_eq!(fates.seldom(50), [], "{fates:?}");
}

#[test]
fn stored_inputs() {
    stored::check("crates/yard_examples", reference::yard, &compiled("yard"));
}

#[test]
fn the_example_of_docs_bus_is_one_of_them() {
    let [example, stored] = ["examples/bus.yard", "crates/yard_examples/data/nine_entries_cap_4"].map(read);
    assert_eq!(example, stored);
}

#[test]
fn an_output_that_cannot_be_written_is_told() {
    let input = read("examples/detour.yard");
    let complaint = complaint(&compiled("yard"), &input).expect("the yard runs");
    assert_eq!(String::from_utf8_lossy(&complaint), "yard: the output cannot be written\n");
}

#[test]
fn an_input_that_cannot_be_read_is_told() {
    let ran = unreadable(&compiled("yard")).expect("the yard runs");
    assert_eq!((ran.status.code(), ran.stdout.len(), ran.stderr.is_empty()), (Some(1), 0, false));
}

/// The bytes of a file of the repository.
fn read(path: &str) -> Vec<u8> {
    std::fs::read(from_top(path)).unwrap_or_else(|error| panic!("{path}: {error}"))
}
