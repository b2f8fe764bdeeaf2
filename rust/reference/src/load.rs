//! The load: a program that draws a plant's steps from a seed and runs them under each cap.

use crate::plant::{Plant, Tally, NODES};
use crate::text::{fields, read_number};
use crate::xorshift::Xorshift;
use std::fmt::{self, Display, Formatter};
use std::ops::RangeInclusive;

/// The longest line has this many bytes: three fields, two spaces and the line feed.
pub const INPUT: usize = 3 * DIGITS + 3;
/// A field has at most this many digits.
const DIGITS: usize = 10;
/// Frames that may be issued under each cap.
pub const ISSUES: usize = 180;
/// Draws that a load may have.
const DRAWS: RangeInclusive<usize> = 1..=400;

/// What the line asks for: n, the seed and the draws.
#[derive(Clone, Copy, Debug, PartialEq, Eq)]
pub struct Load {
    pub n: usize,
    pub seed: u32,
    pub draws: usize,
}

/// What the program prints for this input.
pub fn load(input: &[u8]) -> Vec<u8> {
    read(input).map_or_else(|| b"R 18\n".to_vec(), |load| load.to_string().into_bytes())
}

/// The load that the input asks for; nothing for one that gets 18.
pub fn read(input: &[u8]) -> Option<Load> {
    let [n, seed, draws] = fields(input.strip_suffix(b"\n")?)[..] else {
        return None;
    };
    let load =
        Load { n: read_number(n, DIGITS)?, seed: read_number(seed, DIGITS)?, draws: read_number(draws, DIGITS)? };
    (NODES.contains(&load.n) && load.seed != 0 && DRAWS.contains(&load.draws)).then_some(load)
}

/// Runs the load once for each cap, and prints each cap and its T numbers as a line.
impl Display for Load {
    fn fmt(&self, f: &mut Formatter<'_>) -> fmt::Result {
        self.caps().try_for_each(|cap| writeln!(f, "{cap} {}", self.run(cap)))
    }
}

impl Load {
    /// The caps under which it runs: from n to n × n.
    pub fn caps(&self) -> RangeInclusive<usize> {
        self.n..=self.n * self.n
    }

    /// The tally of a plant with this one cap for all nodes after the draws.
    pub fn run(&self, cap: usize) -> Tally {
        let mut plant = Plant::start(&vec![cap; self.n], ISSUES).expect("n and cap are in range");
        for draw in Xorshift::new(self.seed).take(self.draws) {
            step(&mut plant, draw as usize);
        }
        plant.tally
    }
}

/// The step that a draw makes: a send, an offer of an issue if there is one, or a deliver.
fn step(plant: &mut Plant, draw: usize) {
    let n = plant.list.n();
    match draw % 4 {
        0 => {
            let from = draw / 4 % n;
            plant.send(from, (from + 1 + draw / 64 % (n - 1)) % n);
        }
        1 | 2 => {
            if let Some(issue) = (draw / 4).checked_rem(plant.list.issued.len()) {
                plant.offer(issue);
            }
        }
        _ => {
            plant.deliver(draw / 4 % n);
        }
    }
}
