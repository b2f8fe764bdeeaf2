//! Prints the frames of a trail, the last first: `trail FILE W`.
//!
//! A line for each frame has its start, length, kind, from, to and number. Then comes the largest count of extra frames
//! in any W successive frames, or `R 19` and the byte at which the walk stopped. The file is read and never written.
//! The status is 0, 1 after `R 19`, and 2 where an argument is bad, the file cannot be read or the output not written.

use host::trail::{Shown, Walk, WINDOWS};
use host::{Frame, Kind};
use std::ffi::OsString;
use std::fs::File;
use std::io::{self, BufWriter, Write};
use std::os::fd::AsFd;
use std::process::ExitCode;

/// How the program is called.
const USAGE: &str = "usage: trail FILE W, where W is how many successive frames a window has (1 to 64)";

fn main() -> ExitCode {
    match run(std::env::args_os().skip(1)) {
        Ok(status) => status,
        Err(message) => {
            eprintln!("trail: {message}");
            ExitCode::from(2)
        }
    }
}

/// Reads the arguments and the file, and prints its frames, or says why not.
fn run(arguments: impl Iterator<Item = OsString>) -> Result<ExitCode, String> {
    let [path, w] = &arguments.collect::<Vec<_>>()[..] else {
        return Err(format!("there are not two arguments\n{USAGE}"));
    };
    let number = w.to_str().and_then(|w| w.parse().ok());
    let w = number.ok_or_else(|| format!("W is not a number: {}\n{USAGE}", w.to_string_lossy()))?;
    let file = std::fs::read(path).map_err(|error| format!("{} cannot be read: {error}", path.to_string_lossy()))?;
    match print(&file, w) {
        Ok(status) => Ok(status),
        // Whoever reads the lines has seen enough.
        Err(error) if error.kind() == io::ErrorKind::BrokenPipe => Ok(ExitCode::SUCCESS),
        Err(error) => Err(format!("the output cannot be written: {error}")),
    }
}

/// Prints the frames of a file and what the walk ends with. Standard output is taken as a file: Rust's own passes over
/// one that is not open for writing.
fn print(file: &[u8], w: usize) -> io::Result<ExitCode> {
    let mut output = BufWriter::new(File::from(io::stdout().as_fd().try_clone_to_owned()?));
    let mut walk = Walk::new(file, w);
    for shown in walk.by_ref().map_while(Result::ok) {
        writeln!(output, "{}", line(file, shown))?;
    }
    let status = match walk.largest() {
        Some(most) => {
            writeln!(output, "largest count {most}")?;
            ExitCode::SUCCESS
        }
        None => {
            writeln!(output, "R 19 {}", reason(&walk, w))?;
            ExitCode::FAILURE
        }
    };
    output.flush()?;
    Ok(status)
}

/// A frame's start, length, kind, from, to and number.
fn line(file: &[u8], shown: Shown) -> String {
    let Shown { start, length } = shown;
    let frame = Frame::first_of(&file[shown.range()]).expect("a frame that is shown is sound");
    let kind = if frame.kind() == Some(Kind::User) { "user" } else { "extra" };
    format!("{start} {length} {kind} {} {} {}", frame.from(), frame.to(), frame.number())
}

/// Why and where a walk was refused.
fn reason(walk: &Walk, w: usize) -> String {
    if !WINDOWS.contains(&w) {
        return "before the first frame: W is not 1 to 64".to_string();
    }
    format!("at byte {}: no sound frame ends there", walk.left())
}
