//! A frame spelled out from free parts, sound or not, for tests and generators.

use crate::frame::{sum_of, trailer_of, Entry, Frame, TRAILER};

/// The parts of a frame, each of which may break its rule.
#[derive(Clone, Debug, PartialEq, Eq)]
pub struct Draft {
    pub kind: u8,
    pub from: u8,
    pub to: u8,
    pub n: u8,
    pub cap: u8,
    /// The byte at offset 7.
    pub zero: u8,
    pub entries: Vec<Entry>,
    pub body: Vec<u8>,
}

impl Draft {
    /// The frame's bytes with a right trailer.
    pub fn bytes(&self) -> Vec<u8> {
        let (e, b) = (self.entries.len() as u8, self.body.len() as u8);
        let mut bytes = vec![self.kind, self.from, self.to, e, b, self.n, self.cap, self.zero];
        for entry in &self.entries {
            bytes.extend([entry.row as u8, entry.column as u8]);
            bytes.extend(entry.value.to_le_bytes());
        }
        bytes.extend(&self.body);
        bytes.extend(trailer_of(&bytes));
        bytes
    }

    /// The parts of a frame.
    pub fn of(frame: Frame) -> Draft {
        let bytes = frame.bytes();
        Draft {
            kind: bytes[0],
            from: bytes[1],
            to: bytes[2],
            n: bytes[5],
            cap: bytes[6],
            zero: bytes[7],
            entries: frame.entries().collect(),
            body: frame.body().to_vec(),
        }
    }

    /// Puts an entry in its order, in place of one with the same row and column.
    pub fn set(&mut self, row: usize, column: usize, value: u32) {
        self.entries.retain(|entry| (entry.row, entry.column) != (row, column));
        let before = self.entries.iter().filter(|entry| (entry.row, entry.column) < (row, column)).count();
        self.entries.insert(before, Entry { row, column, value });
    }
}

/// Writes a right trailer at the end of the bytes.
pub fn repair(bytes: &mut [u8]) {
    if let Some(count) = bytes.len().checked_sub(TRAILER) {
        let trailer = trailer_of(&bytes[..count]);
        bytes[count..].copy_from_slice(&trailer);
    }
}

/// Writes a right sum at the end of the bytes, whatever their count is.
pub fn repair_sum(bytes: &mut [u8]) {
    if let Some((front, sum)) = bytes.split_last_chunk_mut::<2>() {
        *sum = sum_of(&*front).to_le_bytes();
    }
}

/// Whether the sum at the end of the bytes is right, whatever their count is.
pub fn has_right_sum(bytes: &[u8]) -> bool {
    bytes.split_last_chunk::<2>().is_some_and(|(front, sum)| sum_of(front).to_le_bytes() == *sum)
}

/// Writes the sum of an old plant at the end of the bytes, in which each byte counts once, whatever its offset.
pub fn write_old_sum(bytes: &mut [u8]) {
    if let Some((front, sum)) = bytes.split_last_chunk_mut::<2>() {
        *sum = front.iter().fold(0, |sum: u16, byte| sum.wrapping_add(u16::from(*byte))).to_le_bytes();
    }
}
