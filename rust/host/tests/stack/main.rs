//! How much stack each call takes, measured: docs/host.md says how much a host has to leave.

#[path = "../common/mod.rs"]
mod common;

use common::c;
use std::path::Path;
use std::process::Command;

/// No call goes deeper than this many bytes, as docs/host.md says.
const STACK: usize = 2_048;

#[test]
fn no_call_goes_deeper_than_is_said() {
    let source = Path::new(env!("CARGO_MANIFEST_DIR")).join("tests/stack/calls.c");
    let printed = c::run(&mut Command::new(c::build(&source, "stack-calls"))).stdout;
    let printed = String::from_utf8(printed).expect("what is printed is text");
    println!("{printed}");
    let number = |word: &str| word.parse::<usize>().expect("a number");
    let lines: Vec<Vec<&str>> = printed.lines().map(|line| line.split(' ').collect()).collect();
    assert_eq!(lines.len(), 7);
    for line in lines {
        let (name, deepest, taken) = (line[0], number(line[1]), number(line[2]));
        assert!((8..=STACK).contains(&deepest), "{name} goes {deepest} bytes deep");
        assert!(taken >= 12, "{name} was taken only {taken} times");
    }
}
