//! A program: standard input in, and what is printed for it out.

use std::io::{self, Read, Write};

/// Reads an input, of which one byte more than its longest length is enough, and writes what is printed for it.
pub fn run(longest: usize, printed: impl FnOnce(&[u8]) -> Vec<u8>) -> io::Result<()> {
    let mut input = Vec::new();
    io::stdin().take(longest as u64 + 1).read_to_end(&mut input)?;
    io::stdout().write_all(&printed(&input))
}
