//! The program: what it writes, what it refuses, and its status.

mod common;

use common::{names, read};
use std::ffi::OsStr;
use std::fs::File;
use std::io::Write;
use std::os::unix::ffi::OsStrExt;
use std::process::{Command, Output, Stdio};

/// Runs the program on an input, with its standard output where asked.
fn run_to<S: AsRef<OsStr>>(arguments: &[S], input: &[u8], output: Stdio) -> Output {
    let mut command = Command::new(env!("CARGO_BIN_EXE_picture"));
    command.args(arguments).stdin(Stdio::piped()).stdout(output).stderr(Stdio::piped());
    let mut child = command.spawn().expect("the program starts");
    // The program may end before it has read an input that it refuses.
    let _ = child.stdin.take().expect("standard input is piped").write_all(input);
    child.wait_with_output().expect("the program ends")
}

/// Runs the program on an input.
fn run<S: AsRef<OsStr>>(arguments: &[S], input: &[u8]) -> Output {
    run_to(arguments, input, Stdio::piped())
}

/// That the program refused: a message with these words, nothing on standard output, and a status that is not 0.
fn assert_refused(output: &Output, words: &str, case: &str) {
    let message = String::from_utf8_lossy(&output.stderr);
    assert!(message.starts_with("picture: ") && message.contains(words), "{case}: {message}");
    assert!(output.stdout.is_empty(), "{case}: something was written");
    assert_eq!(output.status.code(), Some(1), "{case}");
}

#[test]
fn it_writes_what_the_library_draws() {
    let list = ["cover", "dome", "camera", "archive"];
    let input = read("examples/detour.yard");
    let output = run(&list, &input);
    assert_eq!(String::from_utf8(output.stdout).unwrap(), picture::picture(&input, &names(&list)).unwrap());
    assert!(output.stderr.is_empty() && output.status.success());
}

#[test]
fn it_refuses_what_is_no_yard_input() {
    let mut longest = b"3 3 3 3\n".to_vec();
    longest.resize(4096, b'\n');
    assert!(run::<&str>(&[], &longest).status.success());
    let longer = [&longest[..], b"\n"].concat();
    let inputs: [&[u8]; 10] = [
        b"",
        b"3 3 3 3",
        b"\n",
        b"x\n",
        b"3 3\nS 0 1\n",
        b"3 3 3 2\n",
        b"5 5 5 5 5 5\n",
        b"3 10 9 9\n",
        b"3 3 3 3 \nS 0 1\n",
        &longer,
    ];
    for input in inputs {
        let case = format!("{:?}", String::from_utf8_lossy(&input[..input.len().min(20)]));
        assert_refused(&run::<&str>(&[], input), "this is no yard input", &case);
    }
}

#[test]
fn it_refuses_bad_names_with_its_usage() {
    let lists: [&[&str]; 6] =
        [&["a"], &["a", "b"], &["a", "b", "c", "d"], &["a", "", "c"], &["--help"], &["a", "-b", "c"]];
    for list in lists {
        assert_refused(&run(list, b"3 3 3 3\n"), "usage: picture", &format!("{list:?}"));
    }
    assert!(run(&["a", "b", "c"], b"3 3 3 3\n").status.success());
}

#[test]
fn it_refuses_a_name_that_is_no_text() {
    let list = [OsStr::from_bytes(b"\xFF"), OsStr::new("b")];
    assert_refused(&run(&list, b"2 2 2\n"), "usage: picture", "bytes that are no text");
}

#[test]
fn it_says_that_the_output_cannot_be_written() {
    let full = File::options().write(true).open("/dev/full").expect("a device that takes nothing");
    let read_only = File::open("/dev/null").expect("a device that is open for reading alone");
    for (output, case) in [(full, "a full device"), (read_only, "no output for writing")] {
        let output = run_to::<&str>(&[], b"2 2 2\nS 0 1\n", output.into());
        assert_refused(&output, "the picture cannot be written", case);
    }
}
