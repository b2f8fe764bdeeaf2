//! Reads a yard input and writes its picture: `picture [NAME ...] < INPUT > PICTURE.svg`.

use std::ffi::OsString;
use std::fs::File;
use std::io::{self, Read, Write};
use std::os::fd::AsFd;
use std::process::ExitCode;

/// How the program is called.
const USAGE: &str = "usage: picture [NAME OF NODE 0, NAME OF NODE 1, ...] < INPUT > PICTURE.svg";

fn main() -> ExitCode {
    match run(std::env::args_os().skip(1)) {
        Ok(()) => ExitCode::SUCCESS,
        Err(message) => {
            eprintln!("picture: {message}");
            ExitCode::FAILURE
        }
    }
}

/// Reads the input, draws it and writes the picture, or says why not.
fn run(arguments: impl Iterator<Item = OsString>) -> Result<(), String> {
    let names = read_names(arguments)?;
    let mut input = Vec::new();
    let limit = reference::yard::INPUT as u64 + 1;
    io::stdin().take(limit).read_to_end(&mut input).map_err(|error| format!("the input cannot be read: {error}"))?;
    let drawn = picture::picture(&input, &names).map_err(explain)?;
    write(&drawn).map_err(|error| format!("the picture cannot be written: {error}"))
}

/// The nodes' names; an empty one, one that is no text and one that starts with a hyphen are refused.
fn read_names(arguments: impl Iterator<Item = OsString>) -> Result<Vec<String>, String> {
    let read = |argument: OsString| {
        let name = argument.into_string().ok().filter(|name| !name.is_empty() && !name.starts_with('-'));
        name.ok_or_else(|| format!("a name is a text that does not start with a hyphen\n{USAGE}"))
    };
    arguments.map(read).collect()
}

/// A fault in words; wrong names come with the usage line.
fn explain(fault: picture::Fault) -> String {
    match fault {
        picture::Fault::Input => fault.to_string(),
        picture::Fault::Names { .. } => format!("{fault}\n{USAGE}"),
    }
}

/// Writes the picture to standard output, as a file: Rust's own standard output passes over one that is not open for
/// writing.
fn write(drawn: &str) -> io::Result<()> {
    let mut output = File::from(io::stdout().as_fd().try_clone_to_owned()?);
    output.write_all(drawn.as_bytes())
}
