//! The compiled programs: where they are, and what they print.

use std::fs::File;
use std::io::{self, Write};
use std::path::{Path, PathBuf};
use std::process::{Command, Output, Stdio};

/// The compiled programs that are run beside the reference, each where it is named.
#[derive(Clone, Debug, Default, PartialEq, Eq)]
pub struct Programs {
    pub yard: Option<PathBuf>,
    pub load: Option<PathBuf>,
}

/// A path from the top of the repository.
pub fn from_top(path: &str) -> PathBuf {
    Path::new(env!("CARGO_MANIFEST_DIR")).join("../..").join(path)
}

/// A compiled program, which must be there: its name in capitals in the environment, or else where the repository
/// builds it.
pub fn compiled(name: &str) -> PathBuf {
    let capitals = name.to_uppercase();
    let built = || from_top("crates").join(name).join("out").join(name);
    let program = std::env::var_os(&capitals).map_or_else(built, PathBuf::from);
    assert!(
        program.is_file(),
        "there is no compiled {name} at {}: run `rt run` in crates/{name}, or name it in {capitals}",
        program.display()
    );
    program
}

/// What a program prints for this input.
pub fn output(program: &Path, input: &[u8]) -> io::Result<Vec<u8>> {
    Ok(run(program, input, Stdio::piped())?.stdout)
}

/// What a program says on standard error where its output cannot be written.
pub fn complaint(program: &Path, input: &[u8]) -> io::Result<Vec<u8>> {
    let full = File::options().write(true).open("/dev/full")?;
    Ok(run(program, input, full.into())?.stderr)
}

/// What a program does where its input cannot be read: standard input is a directory.
pub fn unreadable(program: &Path) -> io::Result<Output> {
    Command::new(program).stdin(File::open("/")?).output()
}

/// Runs a program on an input, with this standard output.
fn run(program: &Path, input: &[u8], stdout: Stdio) -> io::Result<Output> {
    let mut child = Command::new(program).stdin(Stdio::piped()).stdout(stdout).stderr(Stdio::piped()).spawn()?;
    let mut stdin = child.stdin.take().expect("standard input is piped");
    // The program may stop reading before the end of an input that is too long.
    let _ = stdin.write_all(input);
    drop(stdin);
    child.wait_with_output()
}
