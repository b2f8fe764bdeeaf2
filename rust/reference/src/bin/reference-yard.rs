//! Reads standard input and writes what the yard prints for it.

use reference::{program, yard};

fn main() -> std::io::Result<()> {
    program::run(yard::INPUT, yard)
}
