//! The image of a record: 628 bytes of fields in their order, then a trailer of the frame's kind.

use crate::frame::{trailer_of, TRAILER};
use crate::Record;

/// Bytes of the fields: me, n and cap of one byte each, M, DELIV, held of one byte.
pub const FIELDS: usize = DELIV_START + 4 * 12 + 1;
/// Bytes of an image.
pub const IMAGE: usize = FIELDS + TRAILER;
/// Where M starts, 144 four-byte numbers in rows of 12.
pub const M_START: usize = 3;
/// Where DELIV starts, 12 such numbers.
pub const DELIV_START: usize = M_START + 4 * 144;
/// Where held stands.
pub const HELD: usize = FIELDS - 1;

/// A record's image.
pub type Image = [u8; IMAGE];

impl Record {
    /// The record's image.
    pub fn to_image(&self) -> Image {
        let mut image = [0; IMAGE];
        self.write_image(&mut image);
        image
    }

    /// Writes the record's image over another.
    pub fn write_image(&self, image: &mut Image) {
        image[..M_START].copy_from_slice(&[self.me, self.n, self.cap]);
        write_numbers(&mut image[M_START..DELIV_START], &self.m);
        write_numbers(&mut image[DELIV_START..HELD], &self.deliv);
        image[HELD] = self.held;
        seal(image);
    }

    /// The record with these fields, whatever the trailer says.
    pub fn from_fields(image: &Image) -> Record {
        let mut record = Record { me: image[0], n: image[1], cap: image[2], held: image[HELD], ..Record::ZERO };
        read_numbers(&image[M_START..DELIV_START], &mut record.m);
        read_numbers(&image[DELIV_START..HELD], &mut record.deliv);
        record
    }

    /// The record that an image with a right trailer has.
    pub fn from_image(image: &Image) -> Option<Record> {
        is_sealed(image).then(|| Record::from_fields(image))
    }

    /// The record of a sound image: 632 bytes, a right trailer, and every record rule kept.
    pub fn of_sound_image(image: &[u8]) -> Option<Record> {
        Record::from_image(image.try_into().ok()?).filter(Record::keeps_rules)
    }
}

/// Writes the trailer of the fields.
pub fn seal(image: &mut Image) {
    let (fields, trailer) = image.split_at_mut(FIELDS);
    trailer.copy_from_slice(&trailer_of(fields));
}

/// Whether the trailer is that of the fields.
fn is_sealed(image: &Image) -> bool {
    let (fields, trailer) = image.split_at(FIELDS);
    trailer == trailer_of(fields)
}

/// Writes numbers of four bytes, little-endian, end to end.
fn write_numbers(bytes: &mut [u8], numbers: &[u32]) {
    for (four, number) in bytes.chunks_exact_mut(4).zip(numbers) {
        four.copy_from_slice(&number.to_le_bytes());
    }
}

/// Reads numbers of four bytes, little-endian, end to end.
fn read_numbers(bytes: &[u8], numbers: &mut [u32]) {
    for (four, number) in bytes.chunks_exact(4).zip(numbers) {
        *number = u32::from_le_bytes([four[0], four[1], four[2], four[3]]);
    }
}
