//! The frame: its layout, checks 8 to 14, and the writing of issued frames.

use crate::record::in_range;
use crate::{Record, Refusal};

/// Bytes in front of the entries.
pub const HEADER: usize = 8;
/// Bytes of an entry: row, column, value (4 bytes).
pub const ENTRY: usize = 6;
/// Bytes of the trailer: the byte count in front of it, then the sum.
pub const TRAILER: usize = 4;
/// A whole frame has at least this many bytes.
pub const SHORTEST: usize = HEADER + TRAILER;

/// The kind byte of a user frame.
pub const USER: u8 = 1;
/// The kind byte of an extra frame.
pub const EXTRA: u8 = 2;

/// An entry of a frame: row, column, value.
#[derive(Clone, Copy, Debug, PartialEq, Eq)]
pub struct Entry {
    pub row: usize,
    pub column: usize,
    pub value: u32,
}

/// A frame's bytes, 12 + 6 × e + b of them by its own e and b, and at most 802.
#[derive(Clone, Copy, Debug)]
pub struct Frame<'a> {
    bytes: &'a [u8],
}

impl<'a> Frame<'a> {
    /// The frame at the front of the bytes, as long as its own e and b say, if that is there and at most 802.
    pub fn first_of(bytes: &'a [u8]) -> Option<Frame<'a>> {
        let (e, b) = (*bytes.get(3)?, *bytes.get(4)?);
        let length = SHORTEST + ENTRY * e as usize + b as usize;
        if length > Record::FRAME {
            return None;
        }
        bytes.get(..length).map(|bytes| Frame { bytes })
    }

    /// The frames that lie end to end from the front of the bytes.
    pub fn all_of(mut bytes: &'a [u8]) -> impl Iterator<Item = Frame<'a>> {
        std::iter::from_fn(move || {
            let frame = Frame::first_of(bytes)?;
            bytes = &bytes[frame.bytes.len()..];
            Some(frame)
        })
    }

    /// The frame that these bytes are whole, or the first of checks 8 to 14 that they meet at this record.
    pub fn check(bytes: &'a [u8], record: &Record) -> Result<Frame<'a>, Refusal> {
        refuse(!has_sound_trailer(bytes), 8)?;
        let frame = Frame::check_parts(bytes, record.n as usize)?;
        refuse(frame.to() != record.me as usize, 12)?;
        refuse(frame.knows_more_than(record), 13)?;
        refuse(frame.number() <= record.deliv[frame.from()], 14)?;
        Ok(frame)
    }

    /// The frame that these bytes are whole, or one of checks 8 to 11 that they meet with their own n and cap taken for
    /// a record's, or 1 where these are out of range.
    pub fn check_alone(bytes: &'a [u8]) -> Result<Frame<'a>, Refusal> {
        refuse(!has_sound_trailer(bytes), 8)?;
        let [n, cap] = [bytes[5], bytes[6]].map(usize::from);
        refuse(!in_range(0, n, cap), 1)?;
        Frame::check_parts(bytes, n)
    }

    /// The frame that these bytes with a sound trailer are, or the first of checks 9 to 11 that they meet among n nodes;
    /// the cap is the frame's own.
    fn check_parts(bytes: &'a [u8], n: usize) -> Result<Frame<'a>, Refusal> {
        refuse(!matches!(bytes[0], USER | EXTRA) || bytes[7] != 0, 9)?;
        refuse(!has_sound_parties(bytes, n), 10)?;
        let frame = Frame::first_of(bytes).filter(|frame| frame.bytes.len() == bytes.len()).ok_or(11)?;
        refuse(!frame.has_sound_parts(n), 11)?;
        Ok(frame)
    }

    /// The whole frame.
    pub fn bytes(&self) -> &'a [u8] {
        self.bytes
    }

    /// Kind: 1 user, 2 extra.
    pub fn kind(&self) -> u8 {
        self.bytes[0]
    }

    /// The node that issued it.
    pub fn from(&self) -> usize {
        self.bytes[1] as usize
    }

    /// The node it is for.
    pub fn to(&self) -> usize {
        self.bytes[2] as usize
    }

    /// The cap of the node that issued it.
    pub fn cap(&self) -> usize {
        self.bytes[6] as usize
    }

    /// e, the entry count.
    pub fn entry_count(&self) -> usize {
        self.bytes[3] as usize
    }

    /// Where the entries end and the body starts.
    fn entries_end(&self) -> usize {
        HEADER + ENTRY * self.entry_count()
    }

    /// The entries in their order.
    pub fn entries(&self) -> impl Iterator<Item = Entry> + 'a {
        self.bytes[HEADER..self.entries_end()].chunks_exact(ENTRY).map(|bytes| Entry {
            row: bytes[0] as usize,
            column: bytes[1] as usize,
            value: u32::from_le_bytes([bytes[2], bytes[3], bytes[4], bytes[5]]),
        })
    }

    /// The body, b bytes.
    pub fn body(&self) -> &'a [u8] {
        &self.bytes[self.entries_end()..self.bytes.len() - TRAILER]
    }

    /// One more than its entry in row from, column to (1 without such an entry).
    pub fn number(&self) -> u32 {
        let (from, to) = (self.from(), self.to());
        let before = self.entries().find(|entry| entry.row == from && entry.column == to);
        before.map_or(1, |entry| entry.value.saturating_add(1))
    }

    /// For every x, its entry (x,to) is at most DELIV[x].
    pub fn is_deliverable(&self, deliv: &[u32; 12]) -> bool {
        let to = self.to();
        self.entries().all(|entry| entry.column != to || entry.value <= deliv[entry.row])
    }

    /// b and e keep their rules, e by the frame's own cap, and so does every entry.
    fn has_sound_parts(&self, n: usize) -> bool {
        let longest = if self.kind() == USER { Record::BODY } else { 0 };
        self.body().len() <= longest
            && self.entry_count() <= self.cap()
            && self.entries().all(|entry| self.allows(entry, n))
            && self.entries_rise()
    }

    /// Row and column below n and unequal, column ≠ from, value 1 to 1,000,000,000; in an extra every column is to.
    fn allows(&self, entry: Entry, n: usize) -> bool {
        entry.row < n
            && entry.column < n
            && entry.row != entry.column
            && entry.column != self.from()
            && (1..=Record::COUNT).contains(&entry.value)
            && (self.kind() == USER || entry.column == self.to())
    }

    /// Entries are strictly rising by row then column.
    fn entries_rise(&self) -> bool {
        let places = || self.entries().map(|entry| (entry.row, entry.column));
        places().zip(places().skip(1)).all(|(first, second)| first < second)
    }

    /// An entry in row me exceeds M there.
    fn knows_more_than(&self, record: &Record) -> bool {
        let me = record.me as usize;
        self.entries().any(|entry| entry.row == me && entry.value > record.entry(me, entry.column))
    }
}

/// The number when the check is met.
pub fn refuse(met: bool, number: Refusal) -> Result<(), Refusal> {
    if met {
        Err(number)
    } else {
        Ok(())
    }
}

/// The frame's length is 12 to 802, and both trailer fields are right.
fn has_sound_trailer(bytes: &[u8]) -> bool {
    if !(SHORTEST..=Record::FRAME).contains(&bytes.len()) {
        return false;
    }
    let (front, trailer) = bytes.split_at(bytes.len() - TRAILER);
    trailer == trailer_of(front)
}

/// The frame's n is this one, its cap, which is its sender's, is in range for it, from and to are below n, and they are
/// unequal.
fn has_sound_parties(bytes: &[u8], n: usize) -> bool {
    let [from, to, frame_n, cap] = [bytes[1], bytes[2], bytes[5], bytes[6]].map(usize::from);
    frame_n == n && in_range(from, n, cap) && to < n && from != to
}

/// The byte count in front of the trailer, then the sum over all bytes before the sum, the two of the count among them.
pub fn trailer_of(front: &[u8]) -> [u8; TRAILER] {
    let count = (front.len() as u16).to_le_bytes();
    let sum = sum_of(front.iter().chain(&count)).to_le_bytes();
    [count[0], count[1], sum[0], sum[1]]
}

/// The sum, modulo 65,536, of each byte times one more than its offset.
pub fn sum_of<'a>(bytes: impl IntoIterator<Item = &'a u8>) -> u16 {
    bytes.into_iter().enumerate().fold(0, |sum: u16, (offset, byte)| {
        let weight = (offset as u16).wrapping_add(1);
        sum.wrapping_add(weight.wrapping_mul(u16::from(*byte)))
    })
}

/// Frame output: issued frames end to end in issue order.
pub struct Output<'a> {
    bytes: &'a mut [u8],
    written: usize,
}

impl<'a> Output<'a> {
    /// An output in which no frame is issued yet.
    pub fn new(bytes: &'a mut [u8]) -> Output<'a> {
        Output { bytes, written: 0 }
    }

    /// How many bytes are written.
    pub fn written(&self) -> usize {
        self.written
    }

    /// Issues a user frame that carries every non-zero entry of M.
    pub fn issue_user(&mut self, record: &Record, to: usize, body: &[u8]) {
        self.issue(USER, record, to, record.entries(), body);
    }

    /// Issues an extra frame that carries the non-zero entries of column to.
    pub fn issue_extra(&mut self, record: &Record, to: usize) {
        self.issue(EXTRA, record, to, record.column(to), &[]);
    }

    /// Issues a frame from me after those issued before it.
    fn issue(&mut self, kind: u8, record: &Record, to: usize, entries: impl Iterator<Item = Entry>, body: &[u8]) {
        let start = self.written;
        self.put(&[kind, record.me, to as u8, 0, body.len() as u8, record.n, record.cap, 0]);
        let mut e = 0;
        for entry in entries {
            self.put(&[entry.row as u8, entry.column as u8]);
            self.put(&entry.value.to_le_bytes());
            e += 1;
        }
        self.bytes[start + 3] = e;
        self.put(body);
        let trailer = trailer_of(&self.bytes[start..self.written]);
        self.put(&trailer);
    }

    /// Writes the next bytes.
    fn put(&mut self, bytes: &[u8]) {
        let end = self.written + bytes.len();
        self.bytes[self.written..end].copy_from_slice(bytes);
        self.written = end;
    }
}
