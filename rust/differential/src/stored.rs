//! Stored inputs of a program and what it prints for them: `crates/yard_examples` and `crates/load/examples`.

use crate::program::{from_top, output};
use std::path::Path;

/// Holds what is stored in a folder against what the reference and the compiled program print.
pub fn check(folder: &str, reference: fn(&[u8]) -> Vec<u8>, program: &Path) {
    let expected = String::from_utf8(read(folder, "stdout")).expect("what is printed is text");
    assert_eq!(printed(folder, reference), expected, "the reference");
    let run = |input: &[u8]| output(program, input).unwrap_or_else(|error| panic!("{error}"));
    assert_eq!(printed(folder, run), expected, "{}", program.display());
}

/// What is printed for the stored inputs in their order, each name on a line before it.
fn printed(folder: &str, print: impl Fn(&[u8]) -> Vec<u8>) -> String {
    let names = String::from_utf8(read(folder, "args")).expect("names are text");
    let named = |name: &str| {
        let output = print(&read(folder, &format!("data/{name}")));
        format!("{name}\n{}", String::from_utf8_lossy(&output))
    };
    names.lines().map(named).collect()
}

/// The bytes of a stored file.
fn read(folder: &str, name: &str) -> Vec<u8> {
    let path = from_top(folder).join(name);
    std::fs::read(&path).unwrap_or_else(|error| panic!("{}: {error}", path.display()))
}
