//! Cases whose counts stand at and around 1,000,000,000: in M, in DELIV, and in the entries of the offered and held frames.

use generate::shelves::frame_at;
use generate::{images, Call, Case, Generator, Made};
use reference::draft::{has_right_sum, repair, Draft};
use reference::frame::Frame;
use reference::random::Random;
use reference::Record;

/// Counts at the limit, around it, and at the end of four bytes.
const COUNTS: [u32; 8] = [
    Record::COUNT - 2,
    Record::COUNT - 1,
    Record::COUNT - 1,
    Record::COUNT,
    Record::COUNT,
    Record::COUNT + 1,
    1 << 31,
    u32::MAX,
];
/// Of these so many keep the rules.
const SOUND: usize = 5;

/// Gives the same cases for the same seed.
pub struct Crafted {
    random: Random,
    generator: Generator,
}

impl Crafted {
    /// A source of cases with this seed.
    pub fn new(seed: u64) -> Crafted {
        Crafted { random: Random::new(!seed), generator: Generator::new(seed) }
    }

    /// The next case: a generated one with some of its counts moved to the limit.
    pub fn case(&mut self) -> Case {
        let mut case = match self.random.below(4) {
            0 => self.generator.send(),
            1 | 2 => self.generator.offer(),
            _ => self.generator.deliver(),
        };
        let summed = has_right_sum(&case.image);
        images::change(&mut case.image, |record| {
            raise(&mut self.random, &mut record.m);
            raise(&mut self.random, &mut record.deliv);
        });
        if has_right_sum(&case.image) != summed {
            // A wrong sum stays as it was, and by chance it is the right one of the other counts.
            case.made = Made::Found;
        }
        if let Call::Offer { frame } = &mut case.call {
            raise_entries(&mut self.random, frame);
        }
        let shelf = &mut case.buffers.shelf;
        for place in 0..Record::HELD {
            if frame_at(shelf, place).is_some() && self.random.once_in(4) {
                let start = place * Record::FRAME;
                raise_entries(&mut self.random, &mut shelf[start..start + Record::FRAME]);
            }
        }
        case
    }
}

/// A count at or around the limit, mostly one that keeps the rules.
fn any_count(random: &mut Random) -> u32 {
    let choices = if random.once_in(24) { COUNTS.len() } else { SOUND };
    COUNTS[random.below(choices)]
}

/// Raises some of the counts that are not zero.
fn raise(random: &mut Random, counts: &mut [u32]) {
    let times = random.pick(&[1, 3, 12, 40, 1000]);
    for count in counts.iter_mut().filter(|count| **count != 0) {
        if random.once_in(times) {
            *count = any_count(random);
        }
    }
}

/// Raises some entries of the frame at the front of the bytes, and repairs its trailer.
fn raise_entries(random: &mut Random, bytes: &mut [u8]) {
    let Some(frame) = Frame::first_of(bytes) else {
        return;
    };
    let length = frame.bytes().len();
    let mut draft = Draft::of(frame);
    let times = random.pick(&[1, 2, 8, 30]);
    for entry in &mut draft.entries {
        if random.once_in(times) {
            entry.value = any_count(random);
        }
    }
    let raised = draft.bytes();
    if raised.len() == length {
        bytes[..length].copy_from_slice(&raised);
        repair(&mut bytes[..length]);
    }
}
