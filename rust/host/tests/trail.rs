//! The program `trail`: what it prints, what it refuses, its status, and that it leaves the file.

mod common;

use common::{cut, path, sealed_as_before, spelled};
use host::trail::write;
use std::ffi::OsStr;
use std::fs::File;
use std::path::PathBuf;
use std::process::{Command, Output, Stdio};

/// A trail of three frames: user, extra, user.
fn sample() -> Vec<u8> {
    let frames = [
        spelled(1, 0, 1, 3, 3, &[], b"O"),
        spelled(2, 2, 1, 4, 16, &[(2, 1, 4)], &[]),
        spelled(1, 11, 10, 12, 144, &[], &[7; 64]),
    ];
    let (mut file, mut used) = ([0; 200], 0);
    frames.iter().for_each(|frame| write(&mut file, &mut used, frame).expect("a sound frame with room"));
    file[..used].to_vec()
}

/// A file with these bytes, of its own name.
fn stored(name: &str, bytes: &[u8]) -> PathBuf {
    let path = PathBuf::from(env!("CARGO_TARGET_TMPDIR")).join(name);
    std::fs::write(&path, bytes).expect("the file can be written");
    path
}

/// Runs the program, with its standard output where asked.
fn run_to(arguments: &[&OsStr], output: Stdio) -> Output {
    let mut command = Command::new(env!("CARGO_BIN_EXE_trail"));
    let child = command.args(arguments).stdin(Stdio::null()).stdout(output).stderr(Stdio::piped()).spawn();
    child.and_then(|child| child.wait_with_output()).expect("the program runs")
}

/// Runs the program on a file of these bytes, which it must leave; what it prints and its status.
fn printed(name: &str, bytes: &[u8], w: &str) -> (String, Option<i32>) {
    let path = stored(name, bytes);
    let written = std::fs::metadata(&path).and_then(|data| data.modified()).expect("the file's time");
    let output = run_to(&[path.as_os_str(), OsStr::new(w)], Stdio::piped());
    assert_eq!(std::fs::read(&path).expect("the file can be read"), bytes);
    assert_eq!(std::fs::metadata(&path).and_then(|data| data.modified()).expect("the file's time"), written);
    assert_eq!(String::from_utf8_lossy(&output.stderr), "");
    (String::from_utf8(output.stdout).expect("what is printed is text"), output.status.code())
}

#[test]
fn it_prints_each_frame_and_the_largest_count() {
    let lines = "31 76 user 11 10 1\n13 18 extra 2 1 5\n0 13 user 0 1 1\nlargest count 1\n";
    for w in ["1", "2", "3", "64", "064"] {
        assert_eq!(printed(&format!("whole-{w}"), &sample(), w), (lines.to_string(), Some(0)));
    }
    assert_eq!(printed("empty", &[], "1"), ("largest count 0\n".to_string(), Some(0)));
}

#[test]
fn it_prints_the_example_of_the_documents() {
    let trail = std::fs::read(path("examples/five.trail")).expect("the example can be read");
    let lines = "62 18 extra 0 1 1\n44 18 extra 0 1 1\n31 13 user 0 1 1\n13 18 extra 0 1 1\n0 13 user 0 1 1\n";
    for (w, most) in [("1", 1), ("2", 2), ("3", 2), ("4", 3), ("5", 3), ("64", 3)] {
        let expected = format!("{lines}largest count {most}\n");
        assert_eq!(printed(&format!("example-{w}"), &trail, w), (expected, Some(0)));
    }
}

#[test]
fn it_says_where_a_damaged_trail_stops() {
    let mut trail = sample();
    trail[20] ^= 1;
    let lines = "31 76 user 11 10 1\nR 19 at byte 31: no sound frame ends there\n";
    assert_eq!(printed("changed", &trail, "5"), (lines.to_string(), Some(1)));
    let cut = &sample()[..40];
    assert_eq!(printed("cut", cut, "5"), ("R 19 at byte 40: no sound frame ends there\n".to_string(), Some(1)));
    let front = [b"abc", &sample()[..]].concat();
    assert!(printed("front", &front, "5").0.ends_with("3 13 user 0 1 1\nR 19 at byte 3: no sound frame ends there\n"));
}

#[test]
fn of_an_old_trail_it_shows_nothing() {
    let aged = |frame: Vec<u8>| sealed_as_before(frame[..frame.len() - 4].to_vec());
    let old: Vec<u8> = cut(&sample()).into_iter().flat_map(aged).collect();
    assert_eq!(old[9..13], [0x09, 0x00, 0x61, 0x00]);
    let line = format!("R 19 at byte {}: no sound frame ends there\n", old.len());
    assert_eq!(printed("old", &old, "5"), (line.clone(), Some(1)));
    // Written on without being closed first, it shows the new frames alone.
    let both = [&old[..], &sample()].concat();
    let lines = format!("138 76 user 11 10 1\n120 18 extra 2 1 5\n107 13 user 0 1 1\n{line}");
    assert_eq!(printed("old-and-new", &both, "5"), (lines, Some(1)));
}

#[test]
fn it_refuses_a_window_out_of_range() {
    for w in ["0", "65", "18446744073709551615"] {
        let line = "R 19 before the first frame: W is not 1 to 64\n";
        assert_eq!(printed(&format!("window-{w}"), &sample(), w), (line.to_string(), Some(1)));
    }
}

/// That the program refused these arguments with these words.
fn assert_refused(arguments: &[&OsStr], words: &str) {
    let output = run_to(arguments, Stdio::piped());
    let message = String::from_utf8_lossy(&output.stderr);
    assert!(message.starts_with("trail: ") && message.contains(words), "{arguments:?}: {message}");
    assert!(output.stdout.is_empty(), "{arguments:?}: something was printed");
    assert_eq!(output.status.code(), Some(2), "{arguments:?}");
}

#[test]
fn it_refuses_bad_arguments_with_its_usage() {
    let path = stored("arguments", &sample());
    let path = path.as_os_str();
    for arguments in [&[][..], &[path], &[path, OsStr::new("1"), OsStr::new("1")]] {
        assert_refused(arguments, "there are not two arguments\nusage: trail FILE W");
    }
    for w in ["", "x", "-1", "1.5", "18446744073709551616"] {
        assert_refused(&[path, OsStr::new(w)], &format!("W is not a number: {w}\nusage: trail FILE W"));
    }
}

#[test]
fn it_says_what_cannot_be_read_or_written() {
    let w = OsStr::new("1");
    assert_refused(&[OsStr::new("no/such/file"), w], "no/such/file cannot be read");
    assert_refused(&[OsStr::new(env!("CARGO_TARGET_TMPDIR")), w], "cannot be read");
    let path = stored("output", &sample());
    let full = File::options().write(true).open("/dev/full").expect("a device that takes nothing");
    let read_only = File::open("/dev/null").expect("a device that is open for reading alone");
    for output in [full, read_only] {
        let output = run_to(&[path.as_os_str(), w], output.into());
        assert!(String::from_utf8_lossy(&output.stderr).contains("the output cannot be written"));
        assert_eq!(output.status.code(), Some(2));
    }
}
