//! The generator: from a seed, cases of every call in a steady mixture.

use crate::case::{Buffers, Call, Case};
use crate::images::{any_image, any_length};
use crate::records::{any_cap, any_n};
use crate::states::{any_state, parted_state, reach_limit, told_state, Runner, State};
use crate::topics::any_class;
use crate::trails::Trails;
use crate::{frames, loads, records, shelves, yards};
use reference::host::ANSWER;
use reference::image::IMAGE;
use reference::node::OUTPUT;
use reference::random::Random;
use reference::{shelf, Record};

/// Gives the same cases for the same seed.
#[derive(Clone, Debug)]
pub struct Generator {
    random: Random,
    runner: Runner,
    trails: Trails,
}

impl Generator {
    /// A generator with this seed.
    pub fn new(seed: u64) -> Generator {
        let mut random = Random::new(seed);
        let runner = Runner::start(&mut random);
        Generator { random, runner, trails: Trails::new(seed) }
    }

    /// The next case, of any call.
    pub fn case(&mut self) -> Case {
        match self.random.below(112) {
            0..=5 => self.set_up(),
            6..=30 => self.send(),
            31..=78 => self.offer(),
            79..=100 => self.deliver(),
            101 | 102 => self.yard(),
            103 | 104 => self.load(),
            _ => self.trail(),
        }
    }

    /// So many cases of one call, given by its method, from a seed.
    pub fn cases(seed: u64, count: usize, next: fn(&mut Generator) -> Case) -> impl Iterator<Item = Case> {
        let mut generator = Generator::new(seed);
        (0..count).map(move |_| next(&mut generator))
    }

    /// A state from a list or of any values, at times at the limit of check 5.
    fn state(&mut self, limit: usize) -> State {
        let random = &mut self.random;
        let mut state = match random.below(16) {
            0..=7 => self.runner.next(random),
            8 => parted_state(random),
            9 => told_state(random),
            _ => any_state(random),
        };
        if random.once_in(limit) {
            reach_limit(random, &mut state);
        }
        state
    }

    /// A set-up with numbers in range, or one of them about its bounds.
    pub fn set_up(&mut self) -> Case {
        let random = &mut self.random;
        let n = any_n(random);
        let mut numbers = [random.below(n), n, any_cap(random, n)];
        let (square, far) = (n * n, random.pick(&[255, 256, 1 << 32, usize::MAX - 300]));
        let bounds = [
            random.pick(&[n - 1, n, n + 1, 12, far, far + 1]),
            random.pick(&[0, 1, 2, 12, 13, far, far + n]),
            random.pick(&[0, n - 1, n, square, square + 1, 144, 145, far, far + n]),
        ];
        if random.once_in(2) {
            let index = random.below(3);
            numbers[index] = bounds[index];
        }
        let [me, n, cap] = numbers;
        let length = if random.once_in(4) { any_length(random) } else { IMAGE };
        Case { image: any_bytes(random, length), ..Case::alone(Call::SetUp { me, n, cap }) }
    }

    /// A send with any of its checks met at times.
    pub fn send(&mut self) -> Case {
        let mut state = self.state(12);
        let random = &mut self.random;
        damage_record(random, &mut state.record, 16);
        let to = any_destination(random, &state.record);
        let body = any_body(random);
        let class = any_class(random, &body);
        let (image, made) = any_image(random, &state.record, 12);
        let buffers = Buffers { out: any_output(random), answer: any_answer(random), ..Buffers::default() };
        Case { image, made, call: Call::Send { to, class, body }, buffers }
    }

    /// An offer with any of its checks met at times.
    pub fn offer(&mut self) -> Case {
        let mut state = self.state(30);
        let random = &mut self.random;
        let frame = any_frame(random, &state);
        damage_shelf(random, &mut state, 10);
        damage_record(random, &mut state.record, 25);
        let (image, made) = any_image(random, &state.record, 20);
        let Buffers { shelf, answer, .. } = any_buffers(random, state.shelf);
        Case { image, made, call: Call::Offer { frame }, buffers: Buffers { shelf, answer, ..Buffers::default() } }
    }

    /// A deliver with any of its checks met at times.
    pub fn deliver(&mut self) -> Case {
        let mut state = self.state(12);
        let random = &mut self.random;
        damage_shelf(random, &mut state, 6);
        damage_record(random, &mut state.record, 15);
        let (image, made) = any_image(random, &state.record, 12);
        let buffers = any_buffers(random, state.shelf);
        Case { image, made, call: Call::Deliver, buffers }
    }

    /// A yard with any input.
    pub fn yard(&mut self) -> Case {
        let input = yards::any_input(&mut self.random);
        Case::alone(Call::Yard { input })
    }

    /// A load with any input.
    pub fn load(&mut self) -> Case {
        let input = loads::any_input(&mut self.random);
        Case::alone(Call::Load { input })
    }

    /// A call of the trail.
    pub fn trail(&mut self) -> Case {
        self.trails.case()
    }
}

/// Damages the record once in so many times.
fn damage_record(random: &mut Random, record: &mut Record, times: usize) {
    if random.once_in(times) {
        let way = random.below(records::WAYS);
        records::damage(random, record, way);
    }
}

/// Damages the shelf once in so many times.
fn damage_shelf(random: &mut Random, state: &mut State, times: usize) {
    if random.once_in(times) {
        let way = if random.once_in(6) { shelves::MOVED_CAP } else { random.below(shelves::WAYS) };
        shelves::damage(random, &mut state.record, &mut state.shelf, way);
    }
}

/// A destination that is mostly right, or about the bounds of check 6.
fn any_destination(random: &mut Random, record: &Record) -> usize {
    let (me, n) = (record.me as usize, record.n as usize);
    let right = (me + 1 + random.below(n.max(2) - 1)) % n.max(1);
    match random.below(6) {
        0 => (),
        1 | 2 => return empty_column(record).unwrap_or(right),
        _ => return right,
    }
    random.pick(&[me, n, n + 1, 12, 255, 256, 256 + right, (1 << 32) + right, usize::MAX])
}

/// A column of M without an entry, for which a send at the cap has to trim.
fn empty_column(record: &Record) -> Option<usize> {
    let n = record.n as usize;
    (0..n).find(|column| *column != record.me as usize && *column < 12 && record.column(*column).next().is_none())
}

/// A body about the bound of check 7.
fn any_body(random: &mut Random) -> Vec<u8> {
    if !random.once_in(8) {
        return frames::any_body(random);
    }
    let length = random.pick(&[64, 65, 66, 128, 255, 256, 257, 320, 2048, 65_536]);
    vec![random.byte(); length]
}

/// Bytes that were lent as they lay, so many of them.
fn any_bytes(random: &mut Random, length: usize) -> Vec<u8> {
    let (step, start) = (random.byte(), random.byte());
    (0..length).map(|index| (index as u8).wrapping_mul(step).wrapping_add(start)).collect()
}

/// Frame output, at times about the bound of check 3.
fn any_output(random: &mut Random) -> Vec<u8> {
    let length = match random.below(16) {
        0 => random.pick(&[0, 1, 802, 814, 846, OUTPUT - 1]),
        1 => random.pick(&[OUTPUT + 1, OUTPUT + 1000]),
        _ => OUTPUT,
    };
    any_bytes(random, length)
}

/// Body output, at times about the bound of check 3.
fn any_body_output(random: &mut Random) -> Vec<u8> {
    let length = match random.below(16) {
        0 => random.pick(&[0, 1, 63]),
        1 => random.pick(&[65, 300]),
        _ => 64,
    };
    any_bytes(random, length)
}

/// The answer, at times about the bound of check 3.
fn any_answer(random: &mut Random) -> Vec<u8> {
    let length = match random.below(24) {
        0 => random.below(ANSWER),
        1 => random.within(ANSWER + 1, 20),
        _ => ANSWER,
    };
    any_bytes(random, length)
}

/// The buffers of a deliver, the shelf at times of another length.
fn any_buffers(random: &mut Random, mut shelf: Vec<u8>) -> Buffers {
    if random.once_in(25) {
        shelf.resize(random.pick(&[0, 1, Record::FRAME, shelf::LENGTH - 1, shelf::LENGTH + 1, shelf::LENGTH + 802]), 0);
    }
    let (out, body_out, answer) = (any_output(random), any_body_output(random), any_answer(random));
    Buffers { shelf, out, body_out, answer, ..Buffers::default() }
}

/// A frame to offer: issued in the list, sound, held already, or damaged.
fn any_frame(random: &mut Random, state: &State) -> Vec<u8> {
    let record = &state.record;
    match (random.below(16), &state.frame) {
        (0..=4, Some(frame)) => frame.clone(),
        (5, Some(frame)) => with_damaged_byte(random, frame.clone()),
        (0..=2, None) => frames::sound(random, record, true).bytes(),
        (3..=5, None) => frames::sound(random, record, false).bytes(),
        (6, _) => frames::sound(random, record, true).bytes(),
        (7, _) => held_again(random, state),
        (8, _) => {
            let ready = random.once_in(2);
            let bytes = frames::sound(random, record, ready).bytes();
            with_damaged_byte(random, bytes)
        }
        (9, _) => any_short(random),
        (10 | 11, _) => {
            let checks = [random.within(8, 14) as u8, random.within(8, 14) as u8];
            frames::damaged_twice(random, record, checks)
        }
        _ => {
            let check = random.within(8, 14) as u8;
            frames::damaged(random, record, check)
        }
    }
}

/// A frame with one byte changed, with or without a repaired trailer.
fn with_damaged_byte(random: &mut Random, mut frame: Vec<u8>) -> Vec<u8> {
    let repaired = !random.once_in(3);
    frames::damage_byte(random, &mut frame, repaired);
    frame
}

/// A frame that agrees in from and number with a held one.
fn held_again(random: &mut Random, state: &State) -> Vec<u8> {
    let place = random.below(state.record.held as usize);
    let other_kind = random.once_in(3);
    shelves::twin(&state.shelf, place, other_kind).unwrap_or_default()
}

/// Bytes of any length that are no frame but may have a right trailer.
fn any_short(random: &mut Random) -> Vec<u8> {
    let length = random.pick(&[0, 3, 4, 11, 12, 13, 64, 801, 802, 803]);
    let mut bytes = random.bytes(length);
    if random.once_in(2) {
        reference::draft::repair(&mut bytes);
    }
    bytes
}
