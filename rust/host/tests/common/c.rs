//! Building and running C programs against the header and the archive.

use super::path;
use std::path::{Path, PathBuf};
use std::process::{Command, Output};

/// Warnings that are errors here: a header or an example that has one fails.
const WARNINGS: [&str; 5] = ["-Wall", "-Wextra", "-Wpedantic", "-Wconversion", "-Werror"];

/// Runs a compiler with the header's folder and these words.
fn compiler(name: &str, words: &[&str], source: &Path) -> Command {
    let mut command = Command::new(name);
    command.args(WARNINGS).args(words).arg("-I").arg(path("include")).arg(source);
    command
}

/// What the command printed, which must succeed.
pub fn run(command: &mut Command) -> Output {
    let output = command.output().unwrap_or_else(|error| panic!("{command:?} does not start: {error}"));
    let (out, err) = (String::from_utf8_lossy(&output.stdout), String::from_utf8_lossy(&output.stderr));
    assert!(output.status.success(), "{command:?}: {}\n{out}{err}", output.status);
    output
}

/// Holds a source against the header without building anything.
pub fn check(name: &str, words: &[&str], source: &Path) {
    run(compiler(name, words, source).arg("-fsyntax-only"));
}

/// Builds a C program with the archive alone, and gives its path. Names are bound when it starts: bound at the first
/// call of `memcpy`, the loader's own stack would count as a call's.
pub fn build(source: &Path, program: &str) -> PathBuf {
    let target = Path::new(env!("CARGO_TARGET_TMPDIR")).join(program);
    let words = ["-std=c99", "-Wl,-z,now"];
    run(compiler("cc", &words, source).arg(path("target/staticlib/libhost.a")).arg("-o").arg(&target));
    target
}
