//! The image of a record: its fields and trailer, and that a sound one has one spelling.

mod common;

use common::*;
use reference::image::{seal, Image, FIELDS, IMAGE};
use reference::random::Random;
use reference::*;

/// A record with a number in every field.
fn sample() -> Record {
    let record = with(1, 3, 4, &[(0, 2, 0x01020304), (2, 0, 5)], &[(2, 0x0A0B)]);
    Record { held: 9, ..record }
}

#[test]
fn fields_stand_in_their_order() {
    let image = sample().to_image();
    assert_eq!(image.len(), 632);
    assert_eq!(image[..3], [1, 3, 4]);
    assert_eq!(image[3 + 8..3 + 12], [4, 3, 2, 1]);
    assert_eq!(image[3 + 96], 5);
    assert_eq!(image[579 + 8..579 + 12], [0x0B, 0x0A, 0, 0]);
    assert_eq!(image[627], 9);
}

#[test]
fn the_trailer_has_the_count_628_and_the_sum_in_front_of_the_sum() {
    let image = sample().to_image();
    assert_eq!(image[628..630], [0x74, 0x02]);
    let fields = 1 + 3 * 2 + 4 * 3 + (4 * 12 + 3 * 13 + 2 * 14 + 15) + 5 * 100 + (0x0B * 588 + 0x0A * 589) + 9 * 628;
    let count = 0x74 * 629 + 0x02 * 630;
    let sum = (fields + count) % 65_536;
    assert_eq!(image[630..], [(sum % 256) as u8, (sum / 256) as u8]);
    let full: Image = [0xFF; IMAGE];
    let largest = Record::from_fields(&full).to_image();
    let sum = (255 * (628 * 629 / 2) + count) % 65_536;
    assert_eq!(largest[630..], [(sum % 256) as u8, (sum / 256) as u8]);
}

#[test]
fn a_record_written_and_read_is_that_record() {
    for record in [sample(), Record::ZERO, fresh(11, 12, 144)] {
        assert_eq!(Record::from_image(&record.to_image()), Some(record));
    }
    let mut random = Random::new(51);
    for _ in 0..500 {
        let mut image: Image = core::array::from_fn(|_| random.byte());
        seal(&mut image);
        let record = Record::from_image(&image).expect("the trailer is right");
        assert_eq!(record.to_image(), image);
    }
}

#[test]
fn a_sound_image_has_one_spelling() {
    let image = sample().to_image();
    assert_eq!(Record::of_sound_image(&image), Some(sample()));
    for index in 0..IMAGE {
        for bit in 0..8 {
            let mut other = image;
            other[index] ^= 1 << bit;
            assert_eq!(Record::of_sound_image(&other), None, "byte {index}, bit {bit}");
            seal(&mut other);
            // With its trailer written again it is the image of another record, or this one where the trailer was hit.
            assert_eq!(other == image, index >= FIELDS);
            assert_eq!(Record::from_fields(&other) == sample(), index >= FIELDS);
        }
    }
}

#[test]
fn an_image_of_another_length_is_none() {
    let image = sample().to_image();
    let longer = [&image[..], &[0]].concat();
    for bytes in [&image[..631], &image[..628], &image[1..], &[], &longer] {
        assert_eq!(Record::of_sound_image(bytes), None);
    }
}

#[test]
fn a_record_that_breaks_a_rule_has_no_sound_image() {
    for broken in [Record::ZERO, Record { held: 17, ..sample() }, Record { cap: 1, ..sample() }] {
        assert!(Record::from_image(&broken.to_image()).is_some());
        assert_eq!(Record::of_sound_image(&broken.to_image()), None);
    }
}
