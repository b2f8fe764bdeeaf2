//! What a yard or a load prints: the compiled program, and for a load also the linked one, beside the reference.

use crate::{program, Difference};
use generate::{Case, Outcome};
use load_c::OUTPUT;
use std::path::Path;

/// What stands in the output that is lent to the linked load.
const MARK: u8 = 0xA5;

/// Runs the compiled yard beside the reference.
pub fn compare_yard(case: &Case, program: &Path, input: &[u8]) -> Result<Outcome, Box<Difference>> {
    compare_printed(case, |printed| program_differs(program, input, printed).into_iter().collect())
}

/// Runs the compiled load and the linked one beside the reference.
pub fn compare_load(case: &Case, program: &Path, input: &[u8]) -> Result<Outcome, Box<Difference>> {
    compare_printed(case, |printed| {
        let linked = [OUTPUT - 1, OUTPUT].map(|length| linked_differs(input, length, printed));
        program_differs(program, input, printed).into_iter().chain(linked.into_iter().flatten()).collect()
    })
}

/// Runs the reference, and holds others against what it prints.
fn compare_printed(case: &Case, differ: impl FnOnce(&[u8]) -> Vec<String>) -> Result<Outcome, Box<Difference>> {
    let expected = case.run();
    let parts = differ(expected.answer.printed().expect("a yard or a load prints"));
    Difference::unless_none(case, expected, parts)
}

/// In what a compiled program differs.
fn program_differs(program: &Path, input: &[u8], printed: &[u8]) -> Option<String> {
    let found = program::output(program, input).unwrap_or_else(|error| format!("{error}").into_bytes());
    (found != printed).then(|| format!("reference {}, program {}", text(printed), text(&found)))
}

/// In what the linked load differs, lent an output of this length: it writes what is printed and leaves the rest, and
/// returns 0 and leaves all of an output that is too short.
pub fn linked_differs(input: &[u8], length: usize, printed: &[u8]) -> Option<String> {
    let written = if length < OUTPUT { &[] } else { printed };
    let mut expected = vec![MARK; length];
    expected[..written.len()].copy_from_slice(written);
    let mut out = vec![MARK; length];
    let count = load_c::load(input, &mut out);
    let differs = count != written.len() || out != expected;
    differs.then(|| format!("output of {length}: reference {}, linked {count} bytes of {}", text(written), text(&out)))
}

/// Printed bytes as text in quotes.
fn text(bytes: &[u8]) -> String {
    format!("{:?}", String::from_utf8_lossy(bytes))
}
