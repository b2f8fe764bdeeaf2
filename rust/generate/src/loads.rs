//! Inputs of the load: valid lines, and ones that are damaged.

use crate::texts::damage_byte;
use reference::boundary::CROWDED_LOADS;
use reference::load::INPUT;
use reference::random::Random;

/// Bytes that damage a line: digits, blanks, signs, and bytes that are no text.
const BYTES: &[u8] = b"0123456789 \n\r\t-+.,RTx\0\xFF";

/// An input of any kind; about a third of them are no valid line.
pub fn any_input(random: &mut Random) -> Vec<u8> {
    let mut input = valid(random);
    match random.below(20) {
        0 => input = out_of_range(random),
        1 => damage_field(random, &mut input),
        2 => damage_end(random, &mut input),
        3 => damage_space(random, &mut input),
        4 => damage_byte(random, &mut input, BYTES),
        5 => input = other_form(random),
        6 => input = any_bytes(random),
        _ => (),
    }
    input
}

/// A valid line, with leading zeros at times; seldom one whose load comes to the end of its issues.
pub fn valid(random: &mut Random) -> Vec<u8> {
    let numbers = match random.below(60) {
        0 => [4, random.pick(&CROWDED_LOADS).into(), 400],
        _ => any_numbers(random),
    };
    line(random, numbers)
}

/// A valid line's n, seed and draws.
fn any_numbers(random: &mut Random) -> [u64; 3] {
    [random.within(2, 4) as u64, any_seed(random), any_draws(random)]
}

/// The line of these numbers, with leading zeros at times.
fn line(random: &mut Random, numbers: [u64; 3]) -> Vec<u8> {
    let fields = numbers.map(|number| padded(random, number));
    format!("{}\n", fields.join(" ")).into_bytes()
}

/// A seed, at times about its bounds or with few bits.
fn any_seed(random: &mut Random) -> u64 {
    let largest = u64::from(u32::MAX);
    match random.below(6) {
        0 => random.pick(&[1, 2, 3, largest - 1, largest]),
        1 => 1 << random.below(32),
        2 => random.within(1, 999) as u64,
        _ => (random.bits() & largest).max(1),
    }
}

/// How many draws, seldom as many as may be.
fn any_draws(random: &mut Random) -> u64 {
    let most = random.pick(&[10, 10, 60, 60, 60, 150, 150, 400]);
    let draws = match random.below(8) {
        0 => random.pick(&[1, 2, most]),
        _ => random.within(1, most),
    };
    draws as u64
}

/// A number, with leading zeros at times, in at most 10 digits.
fn padded(random: &mut Random, number: u64) -> String {
    let width = match random.below(12) {
        0 => 10,
        1 => random.within(2, 9),
        _ => 1,
    };
    format!("{number:0width$}")
}

/// A line of the right form with one number on the wrong side of a bound.
fn out_of_range(random: &mut Random) -> Vec<u8> {
    let far = random.pick(&[1 << 32, (1 << 32) + 1, (1 << 32) + 2, (1 << 32) + 4, 9_999_999_999]);
    let mut numbers = any_numbers(random);
    let bounds = [
        random.pick(&[0, 1, 5, 6, 12, 256, 258, 65_539, far]),
        random.pick(&[0, far]),
        random.pick(&[0, 401, 402, 656, 1_000, 65_537, far]),
    ];
    let index = random.below(numbers.len());
    numbers[index] = bounds[index];
    line(random, numbers)
}

/// Puts another field in the place of one: too many digits, none, or no number.
fn damage_field(random: &mut Random, input: &mut Vec<u8>) {
    let fields: [&[u8]; 14] = [
        b"",
        b"00000000001",
        b"00000000003",
        b"10000000000",
        b"18446744073709551617",
        b"-1",
        b"+1",
        b"1.",
        b"0x1",
        b"1e1",
        b"x",
        b"1\r",
        b"\t1",
        b"1\0",
    ];
    let mut parts: Vec<&[u8]> = input.trim_ascii_end().split(|byte| *byte == b' ').collect();
    let index = random.below(parts.len());
    parts[index] = random.pick(&fields);
    *input = [parts.join(&b' '), b"\n".to_vec()].concat();
}

/// Puts another end in the place of the line feed.
fn damage_end(random: &mut Random, input: &mut Vec<u8>) {
    let ends: [&[u8]; 12] =
        [b"", b"\r", b"\r\n", b"\n\r", b"\n\n", b" \n", b"\n ", b"\t\n", b"\n1", b"\n2 1 1\n", b" 1\n", b"\0\n"];
    input.pop();
    input.extend(random.pick(&ends));
}

/// Adds a blank at the front or before a space, or puts one in the place of a space.
fn damage_space(random: &mut Random, input: &mut Vec<u8>) {
    let places: Vec<usize> = (0..input.len()).filter(|index| input[*index] == b' ').chain([0]).collect();
    let place = random.pick(&places);
    let blank = random.pick(b" \t\r\n\x0B\xA0");
    if place == 0 || blank == b' ' {
        input.insert(place, blank);
    } else {
        input[place] = blank;
    }
}

/// A line of another number of fields, or no line.
fn other_form(random: &mut Random) -> Vec<u8> {
    let inputs: [&[u8]; 12] = [
        b"",
        b"\n",
        b" ",
        b" \n",
        b"  \n",
        b"2\n",
        b"2 1\n",
        b"2 1 1 1\n",
        b"4 1 40 0\n",
        b"3 3\nS 0 1\n",
        b"R 18\n",
        b"2\n1\n1\n",
    ];
    random.pick(&inputs).to_vec()
}

/// Bytes of any length about that of the longest line, or of a few hundred.
fn any_bytes(random: &mut Random) -> Vec<u8> {
    let length = match random.below(4) {
        0 => random.within(INPUT - 2, INPUT + 2),
        1 => random.within(0, 12),
        _ => random.within(0, 400),
    };
    match random.below(3) {
        0 => random.bytes(length),
        1 => vec![random.pick(BYTES); length],
        _ => (0..length).map(|_| random.pick(b"0123456789 \n")).collect(),
    }
}
