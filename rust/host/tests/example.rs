//! The C example is built with the C compiler and run; what it prints is stored beside it.

mod common;

use common::{c, path};
use std::process::Command;

#[test]
fn the_detour_in_c_prints_what_is_stored() {
    let program = c::build(&path("examples/host.c"), "host-example");
    let printed = String::from_utf8(c::run(&mut Command::new(program)).stdout).expect("what is printed is text");
    let stored = std::fs::read_to_string(path("examples/host.out")).expect("examples/host.out can be read");
    assert_eq!(printed, stored);
}

/// The story is told: a frame waits, and is delivered behind the one that was sent before it; a motion is refused.
#[test]
fn the_stored_story_has_a_frame_that_waits_and_then_comes_second() {
    let stored = std::fs::read_to_string(path("examples/host.out")).expect("examples/host.out can be read");
    let place = |words: &str| stored.find(words).unwrap_or_else(|| panic!("no line has: {words}"));
    let places = [
        "cover says \"closing\" to archive",
        "the link loses frame 1",
        "camera says \"exposure ended\" to archive",
        "1 held at archive, waiting for an earlier frame",
        "archive hears \"closing\" from cover",
        "archive hears \"exposure ended\" from camera",
        "camera would say \"dome turning\" to cover: refused with 21",
        "extra, from cover",
        "all 11 frames delivered\n",
    ]
    .map(place);
    assert!(places.is_sorted(), "{places:?}");
}
