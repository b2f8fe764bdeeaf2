//! Reads standard input and writes what the load prints for it.

use reference::{load, program};

fn main() -> std::io::Result<()> {
    program::run(load::INPUT, load)
}
