//! Images: as a record's is written, damaged in each part with and without a right trailer, with neighbours exchanged,
//! with an old plant's sum, and of other lengths.

use crate::neighbours;
use reference::draft::{has_right_sum, repair, repair_sum, write_old_sum};
use reference::frame::trailer_of;
use reference::image::{Image, DELIV_START, FIELDS, HELD, IMAGE, M_START};
use reference::random::Random;
use reference::Record;
use std::ops::Range;

/// A part of an image.
#[derive(Clone, Copy, Debug, PartialEq, Eq, PartialOrd, Ord)]
pub enum Part {
    Me,
    N,
    Cap,
    M,
    Deliv,
    Held,
    /// The count of the trailer.
    Count,
    /// The sum of the trailer.
    Sum,
}

/// How an image was made.
#[derive(Clone, Copy, Debug, PartialEq, Eq, PartialOrd, Ord)]
pub enum Made {
    /// As a record's is written, whether the record keeps the rules or not.
    Written,
    /// Written, then a part of it changed; sealed where what stands behind the part was made right again.
    Damaged { part: Part, sealed: bool },
    /// Cut or lengthened; sealed where a right trailer stands at its end.
    Resized { sealed: bool },
    /// Written, then unequal neighbours in front of the sum exchanged.
    Exchanged,
    /// Written as in an old plant, where that gives another sum.
    Old,
    /// Bytes as they lay.
    Found,
}

impl Part {
    /// Every part.
    pub const ALL: [Part; 8] = [Part::Me, Part::N, Part::Cap, Part::M, Part::Deliv, Part::Held, Part::Count, Part::Sum];

    /// Where it stands.
    pub fn range(self) -> Range<usize> {
        match self {
            Part::Me => 0..1,
            Part::N => 1..2,
            Part::Cap => 2..M_START,
            Part::M => M_START..DELIV_START,
            Part::Deliv => DELIV_START..HELD,
            Part::Held => HELD..FIELDS,
            Part::Count => FIELDS..FIELDS + 2,
            Part::Sum => FIELDS + 2..IMAGE,
        }
    }

    /// Whether it can be damaged and sealed: the sum has nothing behind it.
    pub fn can_be_sealed(self) -> bool {
        self != Part::Sum
    }
}

/// Every way to damage an image's part.
pub fn damages() -> impl Iterator<Item = (Part, bool)> {
    let both = Part::ALL.into_iter().flat_map(|part| [(part, false), (part, true)]);
    both.filter(|(part, sealed)| part.can_be_sealed() || !sealed)
}

/// A record's image, once in so many times damaged or of another length.
pub fn any_image(random: &mut Random, record: &Record, times: usize) -> (Vec<u8>, Made) {
    let mut image = record.to_image();
    if !random.once_in(times) {
        return (image.to_vec(), Made::Written);
    }
    let made = match random.below(9) {
        0..=2 => {
            let (length, sealed) = (any_length(random), random.once_in(2));
            return (resized(random, &image, length, sealed), Made::Resized { sealed });
        }
        3 => exchange(random, &mut image),
        4 => age(&mut image),
        _ => {
            let ways: Vec<(Part, bool)> = damages().collect();
            let (part, sealed) = random.pick(&ways);
            damage(random, &mut image, part, sealed);
            Made::Damaged { part, sealed }
        }
    };
    (image.to_vec(), made)
}

/// Exchanges unequal neighbours in front of the sum, of which the two bytes of the count always are some.
pub fn exchange(random: &mut Random, image: &mut Image) -> Made {
    neighbours::exchange(random, image);
    Made::Exchanged
}

/// Writes the sum of an old plant, which may by chance be the right one.
pub fn age(image: &mut Image) -> Made {
    write_old_sum(image);
    if has_right_sum(image) {
        Made::Written
    } else {
        Made::Old
    }
}

/// Changes bits of a part; sealed, the trailer behind a field is made that of the fields, and the sum behind the count
/// that of the bytes in front of it.
pub fn damage(random: &mut Random, image: &mut Image, part: Part, sealed: bool) {
    let range = part.range();
    let index = random.within(range.start, range.end - 1);
    image[index] ^= if random.once_in(3) { random.within(1, 255) as u8 } else { 1 << random.below(8) };
    match (sealed, part) {
        (true, Part::Count) => repair_sum(image),
        (true, _) => repair(image),
        // The sum does not see the highest bit of a byte that counts 512 times; with the lowest one it does.
        (false, _) if has_right_sum(image) => image[index] ^= 1,
        _ => (),
    }
}

/// A length that is not an image's, most often near it.
pub fn any_length(random: &mut Random) -> usize {
    match random.below(3) {
        0 => random.pick(&[0, 1, 3, 4, 12, 1000, 2 * IMAGE, 12_832]),
        1 => random.pick(&[IMAGE - 1, IMAGE + 1]),
        _ => random.pick(&[627, 628, 629, 630, 631, 633, 634, 635, 636, 637, 638, 639, 640]),
    }
}

/// An image cut or lengthened to this length; sealed, with a right trailer at its end.
pub fn resized(random: &mut Random, image: &Image, length: usize, sealed: bool) -> Vec<u8> {
    let filler = if random.once_in(2) { 0 } else { random.byte() };
    let mut bytes: Vec<u8> = image.iter().copied().chain(std::iter::repeat(filler)).take(length).collect();
    if sealed && random.once_in(2) {
        repair(&mut bytes);
    } else if sealed && length >= IMAGE {
        // The trailer of 628 bytes, at the end of more, at times with the right sum over all in front of it.
        let trailer = trailer_of(&image[..FIELDS]);
        bytes[length - trailer.len()..].copy_from_slice(&trailer);
        if random.once_in(2) {
            repair_sum(&mut bytes);
        }
    }
    bytes
}

/// Changes the record of an image of 632 bytes; its count stays, and its sum too, unless that was right and is made so again.
pub fn change(image: &mut [u8], change: impl FnOnce(&mut Record)) {
    let Ok(image) = <&mut Image>::try_from(image) else {
        return;
    };
    let mut record = Record::from_fields(image);
    let (trailer, summed) = (image[FIELDS..].to_vec(), has_right_sum(image));
    change(&mut record);
    record.write_image(image);
    image[FIELDS..].copy_from_slice(&trailer);
    if summed {
        repair_sum(image);
    }
}
