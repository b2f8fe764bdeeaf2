//! What the archive needs and gives: a host links it with no more than C's `memcpy` and `memset`.

mod common;

use common::{c::run, path};
use std::collections::BTreeSet;
use std::process::Command;

/// The names in the archive's table of symbols with one of these letters.
fn names(letters: &[&str]) -> BTreeSet<String> {
    let output = run(Command::new("nm").arg("--no-sort").arg(path("target/staticlib/libhost.a")));
    let listing = String::from_utf8_lossy(&output.stdout).into_owned();
    let parts = |line: &str| {
        let mut words = line.split_whitespace().rev();
        Some((words.next()?.to_string(), words.next()?.to_string()))
    };
    listing
        .lines()
        .filter_map(parts)
        .filter(|(_, letter)| letters.contains(&&letter[..]))
        .map(|(name, _)| name)
        .collect()
}

#[test]
fn it_needs_memcpy_and_memset_alone() {
    let needed = names(&["U", "w", "v"]);
    let allowed = BTreeSet::from(["memcpy", "memset"].map(String::from));
    assert!(needed.is_subset(&allowed), "{needed:?}");
}

#[test]
fn it_gives_the_seven_calls_and_has_no_data_to_write() {
    let calls = ["node_deliver", "node_offer", "node_send", "node_set_up", "trail_step", "trail_walk", "trail_write"];
    assert_eq!(names(&["T", "W", "V"]), BTreeSet::from(calls.map(String::from)));
    assert_eq!(names(&["D", "d", "B", "b", "C", "S", "s", "G", "g"]), BTreeSet::new());
}
