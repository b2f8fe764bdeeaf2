//! Runs of generated cases from a seed.

use crate::crafted::Crafted;
use crate::printed::{compare_load, compare_yard};
use crate::program::Programs;
use crate::trails::compare_trail;
use crate::{compare, Difference};
use generate::counts::Counts;
use generate::{Call, Case, Generator};
use reference::recount::Fates;

/// How many calls of the node and of the trail and inputs of the programs were compared and what they answered; inputs
/// of a program that is not named are left out.
#[derive(Clone, Debug, Default)]
pub struct Tally {
    pub calls: usize,
    pub trails: usize,
    pub yards: usize,
    pub loads: usize,
    pub left_out: usize,
    pub counts: Counts,
}

/// Generated and crafted cases from one seed; one case in four is crafted.
pub struct Cases {
    generator: Generator,
    crafted: Crafted,
    index: usize,
}

impl Cases {
    /// The cases of a seed.
    pub fn new(seed: u64) -> Cases {
        Cases { generator: Generator::new(seed), crafted: Crafted::new(seed), index: 0 }
    }

    /// The next case.
    pub fn case(&mut self) -> Case {
        self.index += 1;
        if self.index.is_multiple_of(4) {
            self.crafted.case()
        } else {
            self.generator.case()
        }
    }
}

impl Tally {
    /// Compares one case.
    pub fn add(&mut self, case: &Case, programs: &Programs) -> Result<(), Box<Difference>> {
        let (outcome, count) = match (&case.call, &programs.yard, &programs.load) {
            (Call::Yard { .. }, None, _) | (Call::Load { .. }, _, None) => {
                self.left_out += 1;
                return Ok(());
            }
            (Call::Yard { input }, Some(program), _) => (compare_yard(case, program, input)?, &mut self.yards),
            (Call::Load { input }, _, Some(program)) => (compare_load(case, program, input)?, &mut self.loads),
            (Call::Write { .. } | Call::Walk { .. } | Call::Step { .. }, ..) => {
                (compare_trail(case)?, &mut self.trails)
            }
            _ => (compare(case)?, &mut self.calls),
        };
        *count += 1;
        self.counts.add(case, &outcome);
        Ok(())
    }
}

/// What becomes of the offers and the delivers in the inputs that [`compare_inputs`] compares.
pub fn fates_of_inputs(seeds: &[u64], inputs: usize, next: fn(&mut Generator) -> Case) -> Fates {
    let cases = seeds.iter().flat_map(|seed| Generator::cases(*seed, inputs, next));
    cases.map(|case| case.call.fates()).sum()
}

/// Compares so many inputs of a program from each seed, none of which may differ.
pub fn compare_inputs(seeds: &[u64], inputs: usize, next: fn(&mut Generator) -> Case, programs: &Programs) -> Tally {
    let mut tally = Tally::default();
    for seed in seeds {
        for (index, case) in Generator::cases(*seed, inputs, next).enumerate() {
            if let Err(difference) = tally.add(&case, programs) {
                panic!("{difference}\n{} input {} of seed {seed}", case.call.name(), index + 1);
            }
        }
    }
    tally
}
