//! Images on both implementations, each way one by one: every bit of sound ones changed, every length, every length of
//! the answer; and that a sound image has one spelling.

use differential::compare;
use differential::taken::{calls, numbers, taken_state};
use generate::images::{damage, damages, resized};
use generate::{Answer, Call, Case, Outcome};
use reference::draft::repair;
use reference::host::ANSWER;
use reference::image::{Image, IMAGE};
use reference::random::Random;
use reference::Record;

/// The bit that the sum does not see: the highest one of the byte that counts 512 times.
const UNSEEN: usize = 8 * 511 + 7;

#[test]
fn every_bit_of_sound_images_changed() {
    let mut random = Random::new(61);
    let (mut refused, mut taken) = (0, 0);
    for _ in 0..6 {
        let state = taken_state(&mut random);
        let image = state.record.to_image();
        for bit in 0..8 * IMAGE {
            let mut other: Image = image;
            other[bit / 8] ^= 1 << (bit % 8);
            let unsealed = numbers(&state, &other, ANSWER);
            repair(&mut other);
            let given = numbers(&state, &other, ANSWER);
            assert_eq!(unsealed, if bit == UNSEEN { given } else { [20; 3] }, "bit {bit}");
            // The image is then another record's, or this one's where the trailer was hit.
            assert!(bit / 8 < 628 || given == [0; 3], "bit {bit}");
            refused += given.iter().filter(|number| **number == 20).count();
            taken += given.iter().filter(|number| **number == 0).count();
        }
    }
    println!("with the trailer made right: {refused} calls refused with 20, {taken} taken");
    assert!(refused > 10_000 && taken > 3_000, "{refused} {taken}");
}

#[test]
fn every_part_damaged_in_many_ways() {
    let mut random = Random::new(62);
    for (part, sealed) in damages() {
        let mut refused = 0;
        for _ in 0..150 {
            let state = taken_state(&mut random);
            let mut image = state.record.to_image();
            damage(&mut random, &mut image, part, sealed);
            let given = numbers(&state, &image, random.below(21));
            assert!(sealed || given == [20; 3], "{part:?}");
            refused += usize::from(given == [20; 3]);
        }
        assert!(refused >= 25, "{part:?}, {sealed}: only {refused} images refused");
    }
}

#[test]
fn every_length_of_an_image_and_of_an_answer() {
    let mut random = Random::new(63);
    for round in 0..8 {
        let state = taken_state(&mut random);
        let image = state.record.to_image();
        for length in (0..=20).chain(600..=660).chain([1000, 2 * IMAGE]) {
            let bytes = resized(&mut random, &image, length, round % 2 == 0);
            for answer_length in [0, 10, 11, 20] {
                let expected = match (length, answer_length) {
                    (IMAGE, 0..ANSWER) => [3; 3],
                    (IMAGE, _) => [0; 3],
                    _ => [20; 3],
                };
                let bytes = if length == IMAGE { &image[..] } else { &bytes };
                assert_eq!(numbers(&state, bytes, answer_length), expected, "{length} and {answer_length}");
            }
        }
        for answer_length in 0..=20 {
            let expected = if answer_length < ANSWER { 3 } else { 0 };
            assert_eq!(numbers(&state, &image, answer_length), [expected; 3]);
            let unruly = Record { held: 17, ..state.record }.to_image();
            assert_eq!(numbers(&state, &unruly, answer_length), [20; 3]);
        }
    }
}

#[test]
fn set_up_looks_at_the_length_of_the_image_alone() {
    let mut random = Random::new(64);
    for length in (0..=20).chain(600..=660).chain([1000, 12_832]) {
        for (numbers, number) in [([2, 3, 4], 0), ([3, 3, 4], 1)] {
            let [me, n, cap] = numbers;
            let case = Case { image: random.bytes(length), ..Case::alone(Call::SetUp { me, n, cap }) };
            let outcome = compare(&case).unwrap_or_else(|difference| panic!("{difference}"));
            let expected = if number == 0 && length != IMAGE { 20 } else { number };
            assert_eq!(outcome.answer.number(), expected, "{length}");
        }
    }
}

/// What a call that was taken leaves is the one spelling of its record.
fn check_spelling(before: &[u8], outcome: &Outcome) {
    let record = outcome.record().expect("a call hands back a sound image");
    assert_eq!(record.to_image()[..], outcome.image[..]);
    let none = matches!(outcome.answer, Answer::Deliver(reference::DeliverAnswer::None { .. }));
    assert_eq!(outcome.image == before, none);
}

#[test]
fn what_a_call_writes_is_the_one_spelling_of_its_record() {
    let mut random = Random::new(65);
    for _ in 0..3_000 {
        let state = taken_state(&mut random);
        let image = state.record.to_image();
        calls(&state, &image, ANSWER).iter().for_each(|outcome| check_spelling(&image, outcome));
    }
}
