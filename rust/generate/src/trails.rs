//! Trails: whole ones, damaged ones and bytes that are none; writes to their files, walks with any window or cursor.

use crate::case::{Buffers, Call, Case};
use crate::frames;
use crate::neighbours::exchange_anywhere;
use crate::records::any_record;
use reference::cursor::Cursor;
use reference::draft::{repair, repair_sum, write_old_sum, Draft};
use reference::frame::{Frame, EXTRA, TRAILER, USER};
use reference::random::Random;
use reference::trail::back;

/// Frames of each kind that trails are made of.
const STOCK: usize = 48;

/// Gives the same trails for the same seed.
#[derive(Clone, Debug)]
pub struct Trails {
    random: Random,
    /// Sound frames, each with its own n and cap, some of which are replaced from trail to trail.
    users: Vec<Vec<u8>>,
    extras: Vec<Vec<u8>>,
}

impl Trails {
    /// A source of trails with this seed.
    pub fn new(seed: u64) -> Trails {
        let mut random = Random::new(seed.rotate_left(32));
        let users = (0..STOCK).map(|_| sound(&mut random, USER)).collect();
        let extras = (0..STOCK).map(|_| sound(&mut random, EXTRA)).collect();
        Trails { random, users, extras }
    }

    /// A write, a walk or a step of one.
    pub fn case(&mut self) -> Case {
        match self.random.below(4) {
            0 => self.write(),
            1 => self.step(),
            _ => self.walk(),
        }
    }

    /// A write of a frame, sound or not, with any number in use and any room.
    pub fn write(&mut self) -> Case {
        let frame = match self.random.below(9) {
            0..=4 => self.any_sound(2),
            5..=7 => bad(&mut self.random),
            _ => any_bytes(&mut self.random),
        };
        let random = &mut self.random;
        let before = random.pick(&[0, 0, 1, 12, 13, 100, 700]);
        let room = random.pick(&[0, 11, 12, frame.len().saturating_sub(1), frame.len(), frame.len() + 1, 1000]);
        let length = before + room;
        let used = match random.below(10) {
            0 => random.pick(&[length, length + 1, length + 12]),
            1 => usize::MAX - random.pick(&[0, 1, frame.len(), frame.len() + 1, length]),
            _ => before,
        };
        let file = random.bytes(length);
        Case { buffers: Buffers { file, ..Buffers::default() }, ..Case::alone(Call::Write { used, frame }) }
    }

    /// A whole walk over any file with any window.
    pub fn walk(&mut self) -> Case {
        let (file, w) = (self.file(), any_window(&mut self.random));
        Case::alone(Call::Walk { file, w })
    }

    /// A step of a walk over any file from any cursor.
    pub fn step(&mut self) -> Case {
        let file = self.file();
        let cursor = any_cursor(&mut self.random, &file);
        Case::alone(Call::Step { file, cursor })
    }

    /// The bytes of a trail, whole in half of the cases, damaged or none at all in the others.
    pub fn file(&mut self) -> Vec<u8> {
        let frames = self.frames();
        let random = &mut self.random;
        match random.below(30) {
            0..=14 => frames.concat(),
            15 => any_bytes(random),
            16..=22 => with_bad_frame(random, frames),
            23 => old(frames),
            way => {
                let mut file = frames.concat();
                damage(random, &mut file, way - 24);
                file
            }
        }
    }

    /// Sound frames, few or many, with few or many extra frames among them.
    pub fn frames(&mut self) -> Vec<Vec<u8>> {
        self.renew();
        let random = &mut self.random;
        let count = match random.below(16) {
            0 => random.pick(&[0, 1, 63, 64, 65, 66]),
            1 => random.within(60, 150),
            2..=4 => random.within(0, 40),
            _ => random.within(0, 10),
        };
        let times = random.pick(&[1, 2, 2, 3, 5, 20]);
        (0..count).map(|_| self.any_sound(times)).collect()
    }

    /// A sound frame, an extra frame once in so many times.
    fn any_sound(&mut self, times: usize) -> Vec<u8> {
        let stock = if self.random.once_in(times) { &self.extras } else { &self.users };
        stock[self.random.below(STOCK)].clone()
    }

    /// Replaces a frame of each kind.
    fn renew(&mut self) {
        let place = self.random.below(STOCK);
        self.users[place] = sound(&mut self.random, USER);
        self.extras[place] = sound(&mut self.random, EXTRA);
    }
}

/// A sound frame of a kind, with any n and cap; at times its body is a frame.
fn sound(random: &mut Random, kind: u8) -> Vec<u8> {
    let mut draft = any_draft(random);
    while draft.kind != kind {
        draft = any_draft(random);
    }
    if kind == USER && random.once_in(8) {
        draft.body = Draft { entries: Vec::new(), body: Vec::new(), ..draft.clone() }.bytes();
    }
    draft.bytes()
}

/// The parts of a sound frame.
fn any_draft(random: &mut Random) -> Draft {
    let record = any_record(random);
    let ready = random.once_in(2);
    frames::sound(random, &record, ready)
}

/// Bytes of a frame that mostly is not sound on its own.
fn bad(random: &mut Random) -> Vec<u8> {
    let record = any_record(random);
    match random.below(13) {
        0..=3 => out_of_range(random),
        4 => stretched(random),
        5 | 6 => frames::overfull(random, &record),
        7 => {
            let mut bytes = frames::damaged(random, &record, 11);
            frames::damage_byte(random, &mut bytes, true);
            bytes
        }
        _ => {
            let check = random.pick(&[8, 9, 10, 10, 11]);
            frames::damaged(random, &record, check)
        }
    }
}

/// A frame with zeros put in front of its trailer, under a right sum; what its count says of e and b stays right.
fn stretched(random: &mut Random) -> Vec<u8> {
    let mut bytes = any_draft(random).bytes();
    let at = bytes.len() - TRAILER;
    bytes.splice(at..at, vec![0; random.within(1, 3)]);
    repair_sum(&mut bytes);
    bytes
}

/// A frame whose n or cap is out of range and that breaks no other rule where that can be.
fn out_of_range(random: &mut Random) -> Vec<u8> {
    let mut draft = Draft { entries: Vec::new(), ..any_draft(random) };
    let n = draft.n;
    (draft.n, draft.cap) = match random.below(7) {
        0 => (random.pick(&[0, 1]), draft.cap),
        1 => (13, random.pick(&[13, 144, 169])),
        2 => (random.pick(&[14, 16, 128, 255]), draft.cap.max(16)),
        3 | 4 => (n, random.pick(&[n - 1, 0, 1])),
        _ => (n, random.pick(&[n * n + 1, 255])),
    };
    draft.bytes()
}

/// The frames' bytes with a bad frame at any place, or with two of them glued under one trailer.
fn with_bad_frame(random: &mut Random, mut frames: Vec<Vec<u8>>) -> Vec<u8> {
    let place = random.below(frames.len() + 1);
    if place + 1 < frames.len() && random.once_in(8) {
        let second = frames.remove(place + 1);
        frames[place].extend(second);
        repair(&mut frames[place]);
    } else {
        frames.insert(place, bad(random));
    }
    frames.concat()
}

/// The trail of an old plant.
fn old(mut frames: Vec<Vec<u8>>) -> Vec<u8> {
    frames.iter_mut().for_each(|frame| write_old_sum(frame));
    frames.concat()
}

/// Damages a trail's bytes in one of six ways: cut at its end or start, bits flipped, bytes put in front or behind, unequal
/// neighbours exchanged anywhere.
fn damage(random: &mut Random, file: &mut Vec<u8>, way: usize) {
    let few = random.within(1, 13).min(file.len());
    match way {
        0 => file.truncate(random.below(file.len() + 1)),
        1 if random.once_in(2) => drop(file.drain(..few)),
        1 => drop(file.drain(..random.below(file.len() + 1))),
        2 => flip(random, file),
        3 => drop(file.splice(..0, random.bytes(few))),
        4 => file.extend(random.bytes(few)),
        _ => {
            exchange_anywhere(random, file);
        }
    }
}

/// Flips one bit or a few.
fn flip(random: &mut Random, file: &mut [u8]) {
    for _ in 0..random.pick(&[1, 1, 1, 2, 5]).min(8 * file.len()) {
        file[random.below(file.len())] ^= 1 << random.below(8);
    }
}

/// Bytes of any length that are no trail but may have a right trailer.
fn any_bytes(random: &mut Random) -> Vec<u8> {
    let length = random.pick(&[1, 2, 3, 4, 5, 8, 11, 12, 13, 24, 100, 801, 802, 803, 1000]);
    let mut bytes = if random.once_in(4) { vec![random.pick(&[0, 1, 255]); length] } else { random.bytes(length) };
    if random.once_in(2) {
        repair(&mut bytes);
    }
    bytes
}

/// A window, mostly of 1 to 64, at times about these bounds or far above them.
pub fn any_window(random: &mut Random) -> usize {
    match random.below(40) {
        0 => random.pick(&[0, 65, 66, 128, 256, 257, 1 << 32, (1 << 32) + 1, usize::MAX]),
        1 => random.within(0, 66),
        2..=7 => random.pick(&[1, 2, 63, 64]),
        _ => random.within(1, 64),
    }
}

/// Any five numbers, mostly ones with which a step shows a frame.
fn any_cursor(random: &mut Random, file: &[u8]) -> Cursor {
    let w = any_window(random) as u64;
    let leaves = 1u64 << (w.wrapping_sub(1) % 64);
    let (bits, few) = (random.bits(), random.within(0, 64) as u64);
    Cursor {
        end: any_end(random, file),
        w,
        kinds: random.pick(&[0, u64::MAX, leaves, !leaves, leaves - 1, bits, bits | leaves, bits & !leaves]),
        extras: random.pick(&[0, 1, few, few, w, w.wrapping_sub(1), w.wrapping_add(1), 64, 65, u64::MAX, bits]),
        most: random.pick(&[0, few, few, w, 64, 65, u64::MAX, bits]),
    }
}

/// Where a walk may stand: mostly at the end of the file or of a frame, at times anywhere or above the file's length.
fn any_end(random: &mut Random, file: &[u8]) -> u64 {
    let length = file.len() as u64;
    match random.below(10) {
        0..=2 => length,
        3..=6 => {
            let starts: Vec<u64> = back(file).map_while(Result::ok).map(|shown| shown.start as u64).collect();
            starts.get(random.below(starts.len())).copied().unwrap_or(length)
        }
        7 => random.pick(&[0, 1, 3, 4, 12]).min(length),
        8 => random.pick(&[length + 1, length + 12, 1 << 32, (1 << 32) + length, 1 << 63, u64::MAX]),
        _ => random.below(file.len() + 1) as u64,
    }
}

/// Why there is no sound frame at the end of these bytes; nothing where there is one.
pub fn fault(left: &[u8]) -> Option<&'static str> {
    let length = left.len();
    if length < 4 {
        return Some("too short for a trailer");
    }
    let count = left[length - 4] as usize + 256 * left[length - 3] as usize;
    if count + 4 > length {
        return Some("a trailer points before the start");
    }
    frame_fault(&left[length - 4 - count..])
}

/// Why these bytes are no frame that is sound on its own; nothing where they are one. Of 11 an e above the frame's own cap
/// is told apart.
pub fn frame_fault(bytes: &[u8]) -> Option<&'static str> {
    match Frame::check_alone(bytes).err()? {
        1 => Some(range_fault(bytes[5], bytes[6])),
        8 => Some("the frame meets 8"),
        9 => Some("the frame meets 9"),
        10 => Some("the frame meets 10"),
        _ if bytes[3] > bytes[6] => Some("e is above the frame's cap"),
        _ => Some("the frame meets 11"),
    }
}

/// Which of n and cap is out of range.
fn range_fault(n: u8, cap: u8) -> &'static str {
    match n {
        2..=12 if cap < n => "the cap is below n",
        2..=12 => "the cap is above n x n",
        _ => "n is out of range",
    }
}
