//! The node's record and its rules.

use crate::frame::Entry;
use crate::Refusal;

/// The record has: me, n, the cap, the matrix M, the vector DELIV, and the number of held frames.
#[derive(Clone, Copy, Debug, PartialEq, Eq)]
pub struct Record {
    /// This node's number, below n.
    pub me: u8,
    /// The number of nodes, 2 to 12.
    pub n: u8,
    /// How many entries of M may be non-zero, n to n × n.
    pub cap: u8,
    /// M[x,y], at 12 × x + y, is the known count of frames issued by x to y.
    pub m: [u32; 144],
    /// DELIV[x] counts frames from x delivered here.
    pub deliv: [u32; 12],
    /// The number of held frames.
    pub held: u8,
}

impl Record {
    /// n is at most this.
    pub const NODES: usize = 12;
    /// At most this many frames are held.
    pub const HELD: usize = 16;
    /// A body has at most this many bytes.
    pub const BODY: usize = 64;
    /// A whole frame has at most this many bytes.
    pub const FRAME: usize = 802;
    /// Nothing exceeds this.
    pub const COUNT: u32 = 1_000_000_000;

    /// The all-zero record.
    pub const ZERO: Record = Record { me: 0, n: 0, cap: 0, m: [0; 144], deliv: [0; 12], held: 0 };

    /// A fresh record is all zero but for me, n and cap; 1 when one of these is out of range.
    pub fn fresh(me: usize, n: usize, cap: usize) -> Result<Record, Refusal> {
        if !in_range(me, n, cap) {
            return Err(1);
        }
        Ok(Record { me: me as u8, n: n as u8, cap: cap as u8, ..Record::ZERO })
    }

    /// M[row,column].
    pub fn entry(&self, row: usize, column: usize) -> u32 {
        self.m[Record::NODES * row + column]
    }

    /// M[row,column], to be written.
    pub fn entry_mut(&mut self, row: usize, column: usize) -> &mut u32 {
        &mut self.m[Record::NODES * row + column]
    }

    /// The non-zero entries of M below n, rising by row then column.
    pub fn entries(&self) -> impl Iterator<Item = Entry> + '_ {
        let n = self.n as usize;
        let rows = self.m.chunks_exact(Record::NODES).take(n).enumerate();
        rows.flat_map(move |(row, values)| {
            let values = values.iter().take(n).enumerate();
            values.filter(|(_, value)| **value != 0).map(move |(column, value)| Entry { row, column, value: *value })
        })
    }

    /// The non-zero entries of one column of M, rising by row.
    pub fn column(&self, column: usize) -> impl Iterator<Item = Entry> + '_ {
        let rows = self.m.chunks_exact(Record::NODES).take(self.n as usize).enumerate();
        rows.map(move |(row, values)| Entry { row, column, value: values[column] }).filter(|entry| entry.value != 0)
    }

    /// How many entries of M are non-zero.
    pub fn standing(&self) -> usize {
        self.m.iter().filter(|value| **value != 0).count()
    }

    /// The column with the most non-zero entries, the lowest on ties.
    pub fn fullest_column(&self) -> usize {
        let mut counts = [0; Record::NODES];
        for row in self.m.chunks_exact(Record::NODES) {
            for (count, value) in counts.iter_mut().zip(row) {
                *count += usize::from(*value != 0);
            }
        }
        let most = counts.iter().copied().max().unwrap_or(0);
        counts.iter().position(|count| *count == most).unwrap_or(0)
    }

    /// The column becomes zero, except M[me,column], which becomes its old value plus one.
    pub fn count_issue(&mut self, column: usize) {
        let me = self.me as usize;
        let issued = self.entry(me, column).saturating_add(1);
        for row in 0..Record::NODES {
            *self.entry_mut(row, column) = 0;
        }
        *self.entry_mut(me, column) = issued;
    }

    /// Whether the record keeps every record rule.
    pub fn keeps_rules(&self) -> bool {
        in_range(self.me as usize, self.n as usize, self.cap as usize)
            && self.matrix_keeps_rules()
            && self.vector_keeps_rules()
            && self.held as usize <= Record::HELD
    }

    /// M[x,x] = 0, column me and all from n on are zero, at most cap entries are non-zero, and none is too large.
    fn matrix_keeps_rules(&self) -> bool {
        let (me, n) = (self.me as usize, self.n as usize);
        let mut standing = 0;
        for (row, values) in self.m.chunks_exact(Record::NODES).enumerate() {
            for (column, value) in values.iter().enumerate() {
                if *value == 0 {
                    continue;
                }
                if row == column || column == me || row >= n || column >= n || *value > Record::COUNT {
                    return false;
                }
                standing += 1;
            }
        }
        standing <= self.cap as usize
    }

    /// DELIV[me] and all from n on are zero, and none is too large.
    fn vector_keeps_rules(&self) -> bool {
        let (me, n) = (self.me as usize, self.n as usize);
        let allowed = |(x, value): (usize, &u32)| *value == 0 || (x != me && x < n && *value <= Record::COUNT);
        self.deliv.iter().enumerate().all(allowed)
    }

    /// Whether an M entry in row me, or a DELIV entry, is 1,000,000,000.
    pub fn is_at_limit(&self) -> bool {
        let start = Record::NODES * self.me as usize;
        let row = &self.m[start..start + Record::NODES];
        row.contains(&Record::COUNT) || self.deliv.contains(&Record::COUNT)
    }
}

/// n is 2 to 12, me is below n, and cap is n to n × n.
pub fn in_range(me: usize, n: usize, cap: usize) -> bool {
    (2..=Record::NODES).contains(&n) && me < n && (n..=n * n).contains(&cap)
}
