//! The arguments of the program `compare`.

use crate::program::Programs;
use std::ffi::OsString;
use std::path::PathBuf;

/// How the program is called.
pub const USAGE: &str = "usage: compare CALLS SEED [YARD [LOAD]]";

/// How many calls are compared, from which seed, and the compiled programs that are named.
#[derive(Clone, Debug, PartialEq, Eq)]
pub struct Arguments {
    pub calls: usize,
    pub seed: u64,
    pub programs: Programs,
}

impl Arguments {
    /// Reads the arguments after the program's name, or says which is bad.
    pub fn read(mut arguments: impl Iterator<Item = OsString>) -> Result<Arguments, String> {
        let calls = read_number("CALLS", arguments.next())?;
        let seed = read_number("SEED", arguments.next())?;
        let yard = read_program("yard", arguments.next())?;
        let load = read_program("load", arguments.next())?;
        match arguments.next() {
            None => Ok(Arguments { calls, seed, programs: Programs { yard, load } }),
            Some(_) => Err("there are more than four arguments".into()),
        }
    }
}

/// A number that must be there.
fn read_number<N: std::str::FromStr>(name: &str, argument: Option<OsString>) -> Result<N, String> {
    let text = argument.ok_or_else(|| format!("{name} is missing"))?;
    let number = text.to_str().and_then(|text| text.parse().ok());
    number.ok_or_else(|| format!("{name} is not a number in range: {}", text.to_string_lossy()))
}

/// The path of a program, which must be there if it is named.
fn read_program(name: &str, argument: Option<OsString>) -> Result<Option<PathBuf>, String> {
    let path = argument.map(PathBuf::from);
    match path.as_deref().filter(|path| !path.is_file()) {
        None => Ok(path),
        Some(missing) => Err(format!("there is no compiled {name} at {}", missing.display())),
    }
}
