//! The header held against the archive, against the compilers, and against the Rust declarations and constants.

#[path = "../common/mod.rs"]
mod common;

use common::{c, path};
use host::{sizes, topics, Class, Kind, Refusal};
use std::collections::BTreeMap;
use std::path::{Path, PathBuf};
use std::process::Command;

/// A source of these tests.
fn source(name: &str) -> PathBuf {
    Path::new(env!("CARGO_MANIFEST_DIR")).join("tests/header").join(name)
}

/// The header's text.
fn header() -> String {
    std::fs::read_to_string(path("include/causal_node.h")).expect("the header can be read")
}

#[test]
fn each_parameter_of_each_function_has_its_effect() {
    let program = c::build(&source("calls.c"), "header-calls");
    let printed = c::run(&mut Command::new(program)).stdout;
    assert_eq!(String::from_utf8_lossy(&printed), "");
}

#[test]
fn the_header_is_clean_in_c_and_in_cpp() {
    for standard in ["-std=c99", "-std=c11"] {
        c::check("cc", &[standard], &source("twice.c"));
    }
    for standard in ["-std=c++11", "-std=c++17"] {
        c::check("c++", &["-x", "c++", standard], &source("twice.c"));
    }
}

/// The constants of the header with their values.
fn constants() -> BTreeMap<String, usize> {
    let header = header();
    let pairs = header.lines().filter_map(|line| line.trim_start().split_once(" = "));
    let named = pairs.filter(|(name, _)| name.starts_with("CAUSAL_"));
    let value = |text: &str| text.split([',', ' ']).next().and_then(|digits| digits.parse().ok());
    named.map(|(name, rest)| (name.to_string(), value(rest).unwrap_or_else(|| panic!("{name} = {rest}")))).collect()
}

/// A Rust name as the header spells it.
fn in_capitals(name: &str) -> String {
    let letter = |(index, letter): (usize, char)| match letter.is_uppercase() && index > 0 {
        true => format!("_{letter}"),
        false => letter.to_ascii_uppercase().to_string(),
    };
    name.char_indices().map(letter).collect()
}

#[test]
fn sizes_and_kinds_are_those_of_the_crate() {
    let constants = constants();
    let expected = [
        ("NODES", sizes::NODES),
        ("HELD_FRAMES", sizes::HELD),
        ("IMAGE_BYTES", sizes::IMAGE),
        ("QUEUE_BYTES", sizes::QUEUE),
        ("OUTPUT_BYTES", sizes::OUTPUT),
        ("BODY_BYTES", sizes::BODY),
        ("ANSWER_BYTES", sizes::ANSWER),
        ("SHORTEST_FRAME_BYTES", sizes::SHORTEST),
        ("FRAME_BYTES", sizes::FRAME),
        ("USER", Kind::User as usize),
        ("EXTRA", Kind::Extra as usize),
    ];
    for (name, value) in expected {
        assert_eq!(constants.get(&format!("CAUSAL_{name}")), Some(&value), "{name}");
    }
}

#[test]
fn classes_and_topics_are_those_of_the_crate() {
    let constants = constants();
    for class in Class::ALL {
        let name = format!("CAUSAL_{}", in_capitals(&format!("{class:?}")));
        assert_eq!(constants.get(&name), Some(&class.number()), "{name}");
    }
    let topics = constants
        .into_iter()
        .filter_map(|(name, value)| Some((name.strip_prefix("CAUSAL_TOPIC_")?.to_string(), value)));
    let expected = [
        ("MOTION", *topics::MOTION.start()),
        ("EXPOSURE", *topics::EXPOSURE.start()),
        ("FILING", *topics::FILING.start()),
        ("NOTES", *topics::NOTES.start()),
        ("EMPTY", topics::EMPTY),
    ];
    let expected = expected.map(|(name, value)| (name.to_string(), usize::from(value)));
    assert_eq!(topics.collect::<BTreeMap<_, _>>(), BTreeMap::from(expected));
}

#[test]
fn refusals_have_the_names_and_numbers_of_the_crate() {
    let constants = constants();
    let refusals: BTreeMap<String, usize> =
        constants.into_iter().filter(|(name, _)| name.starts_with("CAUSAL_REFUSED_")).collect();
    let named = |refusal: Refusal| {
        (format!("CAUSAL_REFUSED_{}", in_capitals(&format!("{refusal:?}"))), usize::from(refusal.number()))
    };
    assert_eq!(refusals, Refusal::ALL.into_iter().map(named).collect());
}

/// A declaration's parameters: how each is spelled in Rust, and its name.
type Parameters = Vec<(String, String)>;

/// The functions of the header, with C's types as Rust has them.
fn declared_in_c(text: &str) -> BTreeMap<String, Parameters> {
    let declarations = text.split("\nuint8_t ").skip(1).map(|rest| rest.split(';').next().unwrap_or_default());
    declarations.map(|text| function(text, c_parameter)).collect()
}

/// The functions of an `extern` block.
fn declared_in_rust(text: &str) -> BTreeMap<String, Parameters> {
    let block =
        text.split("extern \"C\" {").nth(1).and_then(|rest| rest.split("\n}").next()).expect("the declarations");
    let declarations = block.split("fn ").skip(1).map(|rest| rest.split(" -> u8;").next().unwrap_or_default());
    declarations.map(|text| function(text, rust_parameter)).collect()
}

/// A function's name and parameters.
fn function(text: &str, parameter: fn(&str) -> (String, String)) -> (String, Parameters) {
    let (name, rest) = text.split_once('(').expect("a function has parameters");
    let list = rest.trim_end().trim_end_matches(')').split(',');
    let parameters = list.map(str::trim).filter(|text| !text.is_empty()).map(parameter).collect();
    (name.to_string(), parameters)
}

/// A parameter as `const uint8_t *body`.
fn c_parameter(text: &str) -> (String, String) {
    let (kind, name) = text.rsplit_once([' ', '*']).expect("a type and a name");
    let pointer = text.contains('*');
    let element = match kind.trim_start_matches("const ").trim_end_matches('*').trim() {
        "uint8_t" => "u8",
        "uint64_t" => "u64",
        "size_t" => "usize",
        other => panic!("{other} is no type of these calls"),
    };
    let prefix = match (pointer, kind.starts_with("const ")) {
        (true, true) => "*const ",
        (true, false) => "*mut ",
        (false, _) => "",
    };
    (format!("{prefix}{element}"), name.to_string())
}

/// A parameter as `body: *const u8`.
fn rust_parameter(text: &str) -> (String, String) {
    let (name, kind) = text.split_once(": ").expect("a name and a type");
    (kind.to_string(), name.to_string())
}

#[test]
fn header_and_rust_declare_the_same_functions() {
    let rust = std::fs::read_to_string(path("rust/host/src/lent.rs")).expect("the declarations can be read");
    let (in_c, in_rust) = (declared_in_c(&header()), declared_in_rust(&rust));
    assert_eq!(in_c, in_rust);
    let counts: Vec<(&str, usize)> = in_c.iter().map(|(name, parameters)| (&name[..], parameters.len())).collect();
    let expected = [
        ("node_deliver", 10),
        ("node_offer", 8),
        ("node_send", 10),
        ("node_set_up", 5),
        ("trail_step", 4),
        ("trail_walk", 4),
        ("trail_write", 5),
    ];
    assert_eq!(counts, expected);
}
