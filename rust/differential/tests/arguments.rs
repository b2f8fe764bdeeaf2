//! The arguments of `compare`: what is taken, and which is refused.

use differential::arguments::{Arguments, USAGE};
use differential::program::Programs;
use std::ffi::OsString;
use std::path::PathBuf;
use std::process::Command;

/// Reads arguments that are text.
fn read(list: &[&str]) -> Result<Arguments, String> {
    Arguments::read(list.iter().map(OsString::from))
}

/// The path of a file of this crate.
fn file(name: &str) -> String {
    format!("{}/{name}", env!("CARGO_MANIFEST_DIR"))
}

#[test]
fn calls_and_a_seed_are_taken_with_or_without_programs() {
    let (calls, seed) = (10_000_000, u64::MAX);
    let numbers = ["10000000", &seed.to_string()];
    let (first, second) = (file("Cargo.toml"), file("src/lib.rs"));
    let (yard, load) = (Some(PathBuf::from(&first)), Some(PathBuf::from(&second)));
    let cases: [(&[&str], Programs); 3] = [
        (&[], Programs::default()),
        (&[&first], Programs { yard: yard.clone(), load: None }),
        (&[&first, &second], Programs { yard, load }),
    ];
    for (paths, programs) in cases {
        assert_eq!(read(&[&numbers, paths].concat()), Ok(Arguments { calls, seed, programs }), "{paths:?}");
    }
}

#[test]
fn a_bad_argument_is_named() {
    let folder = env!("CARGO_MANIFEST_DIR");
    let there = file("Cargo.toml");
    let cases: [(&[&str], &str); 13] = [
        (&[], "CALLS is missing"),
        (&["1"], "SEED is missing"),
        (&["x", "1"], "CALLS is not a number"),
        (&["", "1"], "CALLS is not a number"),
        (&["-1", "1"], "CALLS is not a number"),
        (&["--help"], "CALLS is not a number"),
        (&["1", "1.5"], "SEED is not a number"),
        (&["1", "18446744073709551616"], "SEED is not a number"),
        (&["1", "1", "no/such/yard"], "there is no compiled yard at no/such/yard"),
        (&["1", "1", folder], "there is no compiled yard at"),
        (&["1", "1", &there, "no/such/load"], "there is no compiled load at no/such/load"),
        (&["1", "1", &there, folder], "there is no compiled load at"),
        (&["1", "1", &there, &there, "more"], "more than four arguments"),
    ];
    for (list, message) in cases {
        let refused = read(list).expect_err("a bad argument");
        assert!(refused.contains(message), "{list:?}: {refused}");
    }
}

#[test]
fn the_program_refuses_a_bad_argument_with_its_usage() {
    let output = Command::new(env!("CARGO_BIN_EXE_compare")).arg("many").output().expect("the program starts");
    let message = String::from_utf8_lossy(&output.stderr);
    assert_eq!(message, format!("compare: CALLS is not a number in range: many\n{USAGE}\n"));
    assert!(output.stdout.is_empty());
    assert_eq!(output.status.code(), Some(2));
}
