//! Records: sound ones of any values, ones at the limit, and ones that break a rule.

use reference::image::FIELDS;
use reference::random::Random;
use reference::Record;

/// The largest count.
pub const TOP: u32 = Record::COUNT;

/// A count of 1 to 1,000,000,000, mostly small or near the top.
pub fn any_count(random: &mut Random) -> u32 {
    match random.below(8) {
        0..=4 => random.within(1, 4) as u32,
        5 => TOP - random.below(3) as u32,
        6 => random.pick(&[255, 256, 65_535, 65_536, 16_777_216]),
        _ => random.within(1, TOP as usize) as u32,
    }
}

/// A number of nodes, every one of them, small ones more often.
pub fn any_n(random: &mut Random) -> usize {
    match random.below(4) {
        0 => random.within(2, 4),
        1 => random.within(3, 6),
        _ => random.within(2, 12),
    }
}

/// A cap for n nodes, often at a bound.
pub fn any_cap(random: &mut Random, n: usize) -> usize {
    match random.below(6) {
        0 | 1 => n,
        2 => n * n,
        3 => n + 1,
        _ => random.within(n, n * n),
    }
}

/// A cap for each of n nodes, drawn by `cap`: one for all, the least beside the largest, or each its own.
pub fn caps_by(random: &mut Random, n: usize, cap: fn(&mut Random, usize) -> usize) -> Vec<usize> {
    let one = cap(random, n);
    match random.below(4) {
        0 => vec![one; n],
        1 => (0..n).map(|_| random.pick(&[n, n * n])).collect(),
        _ => (0..n).map(|_| cap(random, n)).collect(),
    }
}

/// A cap for each of n nodes.
pub fn any_caps(random: &mut Random, n: usize) -> Vec<usize> {
    caps_by(random, n, any_cap)
}

/// The places of M that may be non-zero at this record, rising by row then column.
pub fn places(record: &Record) -> Vec<(usize, usize)> {
    let (me, n) = (record.me as usize, record.n as usize);
    let all = (0..n).flat_map(|row| (0..n).map(move |column| (row, column)));
    all.filter(|(row, column)| row != column && *column != me).collect()
}

/// Fills so many places, chosen at random, with any counts, and at times leaves a column out.
fn fill(random: &mut Random, record: &mut Record, count: usize) {
    let mut free = places(record);
    if random.once_in(3) {
        let empty = random.below(record.n as usize);
        free.retain(|(_, column)| *column != empty);
    }
    for _ in 0..count.min(free.len()) {
        let (row, column) = free.swap_remove(random.below(free.len()));
        *record.entry_mut(row, column) = any_count(random);
    }
}

/// A cap, and how many entries are to stand, at times all that may.
fn any_standing(random: &mut Random, n: usize) -> (usize, usize) {
    let cap = any_cap(random, n);
    let standing = if random.once_in(3) { cap } else { random.within(0, cap) };
    (cap, standing)
}

/// A record that keeps the rules, holds nothing, and is below the limit of check 5, at times with the fullest M.
pub fn any_record(random: &mut Random) -> Record {
    let dense = random.once_in(6);
    let n = if dense { 12 } else { any_n(random) };
    let (cap, standing) = if dense { random.pick(&[(110, 110), (121, 121)]) } else { any_standing(random, n) };
    let me = random.below(n);
    let mut record = Record { me: me as u8, n: n as u8, cap: cap as u8, ..Record::ZERO };
    fill(random, &mut record, standing);
    for x in (0..n).filter(|x| *x != me) {
        record.deliv[x] = if random.once_in(3) { 0 } else { any_count(random) };
    }
    stay_below_limit(&mut record);
    record
}

/// Lowers counts that meet check 5 by one.
pub fn stay_below_limit(record: &mut Record) {
    let row = Record::NODES * record.me as usize;
    let counts = record.m[row..row + Record::NODES].iter_mut().chain(&mut record.deliv);
    counts.for_each(|count| *count = (*count).min(TOP - 1));
}

/// How many ways there are to damage a record.
pub const WAYS: usize = 16;

/// Breaks a record rule in one of the ways, and says whether this record has that way.
pub fn damage(random: &mut Random, record: &mut Record, way: usize) -> bool {
    match way {
        0..=4 => damage_range(random, record, way),
        5 => raise(random, record, |row, column, _, n| row == column && row < n),
        6 => raise(random, record, |row, column, me, n| column == me && row != me && row < n),
        7 => exceed_cap(random, record),
        8 => raise_deliv(random, record, |x, me, _| x == me),
        9 => raise_above(random, record),
        10 => deliv_above(random, record),
        11 => set(&mut record.held, random.pick(&[17, 18, 32, 255])),
        12 => raise(random, record, |row, column, me, n| row >= n && column != me && column < n),
        13 => raise(random, record, |row, column, _, n| column >= n && row < n),
        14 => raise_deliv(random, record, |x, _, n| x >= n),
        _ => damage_bit(random, record),
    }
}

/// Writes a value, and says that it did.
fn set(place: &mut u8, value: u8) -> bool {
    *place = value;
    true
}

/// Puts n, me or cap out of range.
fn damage_range(random: &mut Random, record: &mut Record, way: usize) -> bool {
    let n = record.n;
    match way {
        0 => set(&mut record.n, random.pick(&[0, 1])),
        1 => set(&mut record.n, random.pick(&[13, 14, 128, 255])),
        2 => set(&mut record.me, random.pick(&[n, n + 1, 12, 13, 255]).max(n)),
        3 => set(&mut record.cap, random.pick(&[n - 1, 0, 1])),
        _ => set(&mut record.cap, random.pick(&[n * n + 1, 145, 255]).max(n * n + 1)),
    }
}

/// Writes a count to a place of M that fits.
fn raise(random: &mut Random, record: &mut Record, fits: impl Fn(usize, usize, usize, usize) -> bool) -> bool {
    let (me, n) = (record.me as usize, record.n as usize);
    let fitting: Vec<usize> = (0..144).filter(|place| fits(place / 12, place % 12, me, n)).collect();
    if !fitting.is_empty() {
        record.m[random.pick(&fitting)] = any_count(random);
    }
    !fitting.is_empty()
}

/// Writes a count to a place of DELIV that fits.
fn raise_deliv(random: &mut Random, record: &mut Record, fits: impl Fn(usize, usize, usize) -> bool) -> bool {
    let (me, n) = (record.me as usize, record.n as usize);
    let fitting: Vec<usize> = (0..12).filter(|x| fits(*x, me, n)).collect();
    if !fitting.is_empty() {
        record.deliv[random.pick(&fitting)] = any_count(random);
    }
    !fitting.is_empty()
}

/// A number just or far above the largest count.
fn too_large(random: &mut Random) -> u32 {
    random.pick(&[TOP + 1, TOP + 2, 1 << 31, u32::MAX])
}

/// Writes a number above the limit to M.
fn raise_above(random: &mut Random, record: &mut Record) -> bool {
    let (row, column) = random.pick(&places(record));
    *record.entry_mut(row, column) = too_large(random);
    true
}

/// Writes a number above the limit to DELIV.
fn deliv_above(random: &mut Random, record: &mut Record) -> bool {
    let x = (record.me as usize + 1) % record.n as usize;
    record.deliv[x] = too_large(random);
    true
}

/// Fills M to one entry more than cap.
fn exceed_cap(random: &mut Random, record: &mut Record) -> bool {
    let all = places(record).len();
    if all <= record.n as usize {
        return false;
    }
    record.cap = record.cap.min(all as u8 - 1);
    let cap = record.cap as usize;
    let mut free = places(record);
    free.retain(|(row, column)| record.entry(*row, *column) == 0);
    while record.standing() <= cap {
        let (row, column) = free.swap_remove(random.below(free.len()));
        *record.entry_mut(row, column) = any_count(random);
    }
    true
}

/// Changes one bit of the record's fields, which may leave it sound.
fn damage_bit(random: &mut Random, record: &mut Record) -> bool {
    let mut image = record.to_image();
    image[random.below(FIELDS)] ^= 1 << random.below(8);
    *record = Record::from_fields(&image);
    false
}
