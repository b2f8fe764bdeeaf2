//! The trailer's sum: by hand, beside plain integers, what it sees of exchanged neighbours, and an old plant's sum.

mod common;

use common::*;
use reference::draft::write_old_sum;
use reference::frame::{sum_of, trailer_of, Frame, EXTRA, USER};
use reference::random::Random;
use reference::trail::walk;
use reference::*;

/// The sum as document 02 says it, in plain integers.
fn by_integers(bytes: &[u8]) -> u16 {
    let sum: u64 = bytes.iter().enumerate().map(|(offset, byte)| u64::from(*byte) * (offset as u64 + 1)).sum();
    (sum % 65_536) as u16
}

/// The sum of an old plant, in plain integers.
fn each_once(bytes: &[u8]) -> u64 {
    bytes.iter().map(|byte| u64::from(*byte)).sum::<u64>() % 65_536
}

/// Zeros with one other byte, at an offset and behind it so many more.
fn alone(byte: u8, offset: usize, behind: usize) -> Vec<u8> {
    let mut bytes = vec![0; offset + 1 + behind];
    bytes[offset] = byte;
    bytes
}

/// The bytes with the neighbours at a place exchanged.
fn exchanged(bytes: &[u8], place: usize) -> Vec<u8> {
    let mut bytes = bytes.to_vec();
    bytes.swap(place, place + 1);
    bytes
}

/// A user frame with a body, a user frame with entries and without one, and an extra frame.
fn samples() -> [Vec<u8>; 3] {
    [
        draft(USER, 0, 1, 3, 3, &[], b"O").bytes(),
        draft(USER, 11, 3, 12, 144, &[(0, 3, 1_000_000_000), (11, 3, 258), (11, 4, 7)], &[]).bytes(),
        draft(EXTRA, 0, 1, 4, 7, &[(0, 1, 1), (2, 1, 5)], &[]).bytes(),
    ]
}

#[test]
fn by_hand() {
    assert_eq!([&[][..], &[7], &[0, 7], &[1, 2, 3], &[3, 2, 1], &[255; 3]].map(sum_of), [0, 7, 14, 14, 10, 255 * 6]);
    // Document 01's first example: 01 00 01 00 01 03 03 00 4F, then its count 09 00.
    let front = [1, 0, 1, 0, 1, 3, 3, 0, 0x4F];
    assert_eq!(1 + 3 + 5 + 3 * 6 + 3 * 7 + 0x4F * 9 + 9 * 10, 0x0351);
    assert_eq!(trailer_of(&front), [0x09, 0x00, 0x51, 0x03]);
    // The smallest frame, of two nodes.
    let front = draft(USER, 0, 1, 2, 2, &[], &[]).bytes()[..8].to_vec();
    assert_eq!(trailer_of(&front), [8, 0, 1 + 3 + 2 * 6 + 2 * 7 + 8 * 9, 0]);
}

#[test]
fn both_bytes_of_the_count_are_in_the_sum() {
    for (length, sum) in
        [(0, 0), (8, 8 * 9), (255, 255 * 256), (256, 258), (300, 44 * 301 + 302), (798, 30 * 799 + 3 * 800)]
    {
        let [low, high, ..] = trailer_of(&vec![0; length]);
        assert_eq!(usize::from(low) + 256 * usize::from(high), length);
        let sum: u16 = sum;
        assert_eq!(trailer_of(&vec![0; length])[2..], sum.to_le_bytes(), "{length} zeros");
    }
    // Offsets run on over the count, also past 65,535.
    assert_eq!(trailer_of(&vec![0; 65_535])[2..], 255u16.to_le_bytes());
}

#[test]
fn a_byte_counts_once_more_than_its_offset_says_modulo_65536() {
    for offset in [0, 1, 254, 255, 256, 257, 511, 512, 800, 32_767, 65_533, 65_534, 65_535, 65_536, 65_791, 131_071] {
        for byte in [1, 2, 128, 255] {
            let expected = (u64::from(byte) * (offset as u64 + 1) % 65_536) as u16;
            assert_eq!(sum_of(&alone(byte, offset, offset % 3)), expected, "{byte} at {offset}");
        }
    }
}

#[test]
fn the_sum_is_that_of_plain_integers() {
    let mut random = Random::new(71);
    for length in (0..900).chain([65_534, 65_535, 65_536, 65_537, 70_000, 140_000]) {
        for bytes in [random.bytes(length), vec![255; length], vec![random.byte(); length]] {
            assert_eq!(sum_of(&bytes), by_integers(&bytes), "{length} bytes");
            let whole = [&bytes[..], &trailer_of(&bytes)].concat();
            let sum = by_integers(&whole[..length + 2]).to_le_bytes();
            assert_eq!(whole[length + 2..], sum, "{length} bytes and their count");
        }
    }
}

#[test]
fn exchanging_unequal_neighbours_changes_the_sum_at_every_place() {
    let mut random = Random::new(72);
    let (mut unequal, mut equal) = (0, 0);
    for length in (2..60).chain([255, 256, 257, 258, 511, 513, 800]) {
        for bytes in [random.bytes(length), (0..length).map(|_| random.below(2) as u8).collect()] {
            for place in 0..length - 1 {
                let other = exchanged(&bytes, place);
                let same = bytes[place] == bytes[place + 1];
                assert_eq!(sum_of(&other) == sum_of(&bytes), same, "place {place} of {length}");
                assert_eq!(each_once(&other), each_once(&bytes));
                unequal += usize::from(!same);
                equal += usize::from(same);
            }
        }
    }
    println!("{unequal} places with unequal neighbours, {equal} with equal ones");
    assert!(unequal > 5_000 && equal > 2_000, "{unequal} {equal}");
}

#[test]
fn exchanging_any_two_values_changes_the_sum_by_their_difference() {
    let values = || 0..=255u8;
    for place in [0, 1, 254, 255, 256, 510, 511, 512, 799] {
        let mut bytes = vec![0; place + 2];
        for (first, second) in values().flat_map(|first| values().map(move |second| (first, second))) {
            (bytes[place], bytes[place + 1]) = (first, second);
            let before = sum_of(&bytes);
            bytes.swap(place, place + 1);
            let difference = u16::from(first).wrapping_sub(u16::from(second));
            assert_eq!(sum_of(&bytes).wrapping_sub(before), difference, "{first} and {second} at {place}");
        }
    }
    // Where the weights begin anew, between offsets 65,534 and 65,536, too.
    for place in 65_533..=65_536 {
        let bytes = [vec![9; place], vec![1, 255]].concat();
        assert_eq!(sum_of(&exchanged(&bytes, place)).wrapping_sub(sum_of(&bytes)), 1u16.wrapping_sub(255));
    }
}

#[test]
fn exchanged_neighbours_in_a_frame_are_8() {
    for bytes in samples() {
        assert!(Frame::check_alone(&bytes).is_ok());
        for place in 0..bytes.len() - 3 {
            let met = Frame::check_alone(&exchanged(&bytes, place)).err();
            assert_eq!(met, (bytes[place] != bytes[place + 1]).then_some(8), "place {place}");
        }
    }
}

/// Of one changed byte in 800 the sum sees everything but the highest bit of the one that counts 512 times.
#[test]
fn one_changed_byte_is_seen_but_for_the_highest_bit_at_offset_511() {
    let bytes = Random::new(73).bytes(800);
    let sum = sum_of(&bytes);
    let mut unseen = Vec::new();
    for offset in 0..bytes.len() {
        for change in 1..=255 {
            let mut other = bytes.clone();
            other[offset] ^= change;
            if sum_of(&other) == sum {
                unseen.push((offset, change));
            }
        }
    }
    assert_eq!(unseen, [(511, 128)]);
}

/// The bytes with an old plant's sum, which must be the plain one.
fn old(mut bytes: Vec<u8>) -> Vec<u8> {
    write_old_sum(&mut bytes);
    let at = bytes.len() - 2;
    assert_eq!(u64::from(bytes[at]) + 256 * u64::from(bytes[at + 1]), each_once(&bytes[..at]));
    bytes
}

#[test]
fn an_old_plants_frame_image_and_trail_are_refused() {
    let frame = old(draft(USER, 0, 1, 3, 3, &[], b"O").bytes());
    assert_eq!(frame[9..], [0x09, 0x00, 0x61, 0x00]);
    assert_eq!(offer_number(fresh(1, 3, 3), &frame, &empty_shelf()), 8);
    let (record, shelf) = holding(fresh(1, 3, 3), &[frame]);
    assert_eq!(deliver_number(record, &shelf, 2048, 64), 4);
    let image = old(fresh(1, 3, 3).to_image().to_vec());
    assert_eq!(Record::of_sound_image(&image), None);
    assert_eq!(host::send(&mut image.clone(), 0, 0, &[], &mut [0; 2048], &mut [0; 11]), 20);
    let frames = samples();
    assert_eq!(walk(&frames.concat(), 3), Ok(1));
    assert_eq!(walk(&frames.map(old).concat(), 3), Err(19));
}

#[test]
fn an_old_plants_frame_with_the_right_sum_by_chance_is_taken() {
    let mut random = Random::new(74);
    let found = (0..1_000_000).find_map(|_| {
        let bytes = draft(USER, 0, 1, 3, 3, &[], &random.bytes(64)).bytes();
        (old(bytes.clone()) == bytes).then_some(bytes)
    });
    let frame = found.expect("both sums of one body in about 65,536 are the same");
    assert_eq!(offer_number(fresh(1, 3, 3), &frame, &empty_shelf()), 0);
}
