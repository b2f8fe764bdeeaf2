//! Frames for a record: sound ones, and ones that meet a check.

use crate::neighbours::exchange;
use crate::records::{any_cap, any_count, TOP};
use crate::topics::TOPICS;
use reference::draft::{repair, repair_sum, write_old_sum, Draft};
use reference::frame::{Entry, EXTRA, USER};
use reference::random::Random;
use reference::{Record, Refusal};

/// A body of a length often at a bound, and never above it, of a topic often at a bound.
pub fn any_body(random: &mut Random) -> Vec<u8> {
    let length = match random.below(6) {
        0 | 1 => 0,
        2 => 64,
        3 => random.pick(&[1, 63]),
        _ => random.below(65),
    };
    let mut body = random.bytes(length);
    if let Some(topic) = body.first_mut().filter(|_| random.once_in(2)) {
        *topic = random.pick(&TOPICS);
    }
    body
}

/// A node other than the one given.
fn other_node(random: &mut Random, n: u8, node: u8) -> u8 {
    (node + 1 + random.below(n as usize - 1) as u8) % n
}

/// The cap of a sender beside the record's: the same, the largest, or any.
fn senders_cap(random: &mut Random, record: &Record) -> usize {
    let n = record.n as usize;
    match random.below(4) {
        0 | 1 => record.cap as usize,
        2 => n * n,
        _ => any_cap(random, n),
    }
}

/// A frame for the record's node that meets none of 8 to 14, deliverable if asked for.
pub fn sound(random: &mut Random, record: &Record, ready: bool) -> Draft {
    let from = other_node(random, record.n, record.me);
    let kind = if random.once_in(4) { EXTRA } else { USER };
    let body = if kind == USER { any_body(random) } else { Vec::new() };
    let Record { me, n, .. } = *record;
    let cap = senders_cap(random, record) as u8;
    let mut draft = Draft { kind, from, to: me, n, cap, zero: 0, entries: Vec::new(), body };
    add_number(random, record, &mut draft, ready);
    add_entries(random, record, &mut draft, ready);
    draft
}

/// Adds the entry in row from, column to, so that the number is above DELIV[from], and one above it if ready.
fn add_number(random: &mut Random, record: &Record, draft: &mut Draft, ready: bool) {
    let delivered = record.deliv[draft.from as usize];
    let ahead = if ready || random.once_in(4) { 0 } else { random.within(1, 40) as u32 };
    let before = (delivered + ahead).min(TOP);
    if before > 0 {
        draft.set(draft.from as usize, draft.to as usize, before);
    }
}

/// Adds further entries, no more than the frame's cap allows, often all of them, and more often so where these are many.
fn add_entries(random: &mut Random, record: &Record, draft: &mut Draft, ready: bool) {
    let mut free = free_places(record, draft);
    let room = free.len().min(draft.cap as usize - draft.entries.len());
    let times = if room > 100 { 2 } else { 4 };
    let wanted = if random.once_in(times) { room } else { random.within(0, room.min(10)) };
    for _ in 0..wanted {
        let (row, column) = free.swap_remove(random.below(free.len()));
        if let Some(value) = entry_value(random, record, row, column, ready) {
            draft.entries.push(Entry { row, column, value });
        }
    }
    draft.entries.sort_by_key(|entry| (entry.row, entry.column));
}

/// The places where a draft may have an entry beside the one for its number.
fn free_places(record: &Record, draft: &Draft) -> Vec<(usize, usize)> {
    let (n, from, to) = (record.n as usize, draft.from as usize, draft.to as usize);
    let all = (0..n).flat_map(|row| (0..n).map(move |column| (row, column)));
    let extra = draft.kind == EXTRA;
    let fits = |row, column| row != column && column != from && (!extra || column == to);
    all.filter(|(row, column)| fits(*row, *column) && (*row, *column) != (from, to)).collect()
}

/// A value for an entry: at most M in row me, at most DELIV in column me if the frame is to be ready.
fn entry_value(random: &mut Random, record: &Record, row: usize, column: usize, ready: bool) -> Option<u32> {
    let me = record.me as usize;
    let most = match (row == me, column == me && ready) {
        (true, _) => record.entry(me, column),
        (_, true) => record.deliv[row],
        _ => TOP,
    };
    let near = record.entry(row, column).saturating_add(random.below(3) as u32).saturating_sub(1);
    let value = if random.once_in(2) { any_count(random) } else { near.max(1) };
    (most > 0).then_some(value.min(most))
}

/// Bytes of a frame that meets the check, 8 to 14, if the record has such a frame.
pub fn damaged(random: &mut Random, record: &Record, check: Refusal) -> Vec<u8> {
    let ready = random.once_in(2);
    let mut draft = sound(random, record, ready);
    damage(random, record, &mut draft, check);
    finish(random, &draft, check)
}

/// Bytes of a frame that meets two checks, if the record has such a frame.
pub fn damaged_twice(random: &mut Random, record: &Record, checks: [Refusal; 2]) -> Vec<u8> {
    let ready = random.once_in(2);
    let mut draft = sound(random, record, ready);
    let [low, high] = [checks[0].min(checks[1]), checks[0].max(checks[1])];
    damage(random, record, &mut draft, high);
    damage(random, record, &mut draft, low);
    finish(random, &draft, low)
}

/// Spells a draft out; check 8 damages the bytes, and half of 11's ways are there too.
fn finish(random: &mut Random, draft: &Draft, check: Refusal) -> Vec<u8> {
    let mut bytes = draft.bytes();
    match check {
        8 => damage_trailer(random, &mut bytes),
        11 if random.once_in(4) => damage_lengths(random, &mut bytes),
        _ => (),
    }
    bytes
}

/// Changes a draft so that it meets the check, 9 to 14, where that can be.
pub fn damage(random: &mut Random, record: &Record, draft: &mut Draft, check: Refusal) {
    match check {
        9 => damage_kind(random, draft),
        10 => damage_parties(random, record, draft),
        11 => damage_parts(random, record, draft),
        12 => damage_destination(random, record, draft),
        13 => claim_more(random, record, draft),
        14 => repeat_number(random, record, draft),
        _ => (),
    }
}

/// A wrong kind, or a byte 7 that is not zero.
fn damage_kind(random: &mut Random, draft: &mut Draft) {
    if random.once_in(2) {
        draft.kind = random.pick(&[0, 3, 4, 128, 255]);
    } else {
        draft.zero = random.pick(&[1, 2, 255]);
    }
}

/// A wrong n, a cap out of range, or from or to not below n, or both equal.
fn damage_parties(random: &mut Random, record: &Record, draft: &mut Draft) {
    let n = record.n;
    match random.below(6) {
        0 => draft.n = random.pick(&[n - 1, n + 1, 0, 255]),
        1 => draft.cap = random.pick(&[n - 1, n * n + 1, 0, 255]),
        2 => draft.from = random.pick(&[n, n + 1, 255]),
        3 => draft.to = random.pick(&[n, n + 1, 255]),
        4 => draft.from = draft.to,
        _ => draft.to = draft.from,
    }
}

/// A body that is too long, too many entries, or an entry that breaks a rule.
fn damage_parts(random: &mut Random, record: &Record, draft: &mut Draft) {
    match random.below(8) {
        0 if draft.kind == EXTRA => draft.body = vec![random.byte()],
        0 => draft.body = random.bytes(65),
        1 => add_too_many(record, draft),
        2 => disorder(random, draft),
        _ => damage_entry(random, record, draft),
    }
}

/// Adds entries of a user frame up to one above its cap, in order and each sound; where there is no room for so many, the
/// cap is lowered as far as that can be.
fn add_too_many(record: &Record, draft: &mut Draft) {
    let (n, from, to) = (record.n as usize, draft.from as usize, draft.to as usize);
    draft.kind = USER;
    let all = (0..n).flat_map(|row| (0..n).map(move |column| (row, column)));
    for (row, column) in all.filter(|(row, column)| row != column && *column != from && *row != to) {
        if draft.entries.len() > draft.cap as usize {
            return;
        }
        if !draft.entries.iter().any(|entry| (entry.row, entry.column) == (row, column)) {
            draft.set(row, column, 1);
        }
    }
    if draft.entries.len() <= draft.cap as usize {
        draft.cap = (draft.entries.len() - 1).max(n) as u8;
    }
}

/// Swaps two entries, or repeats one.
fn disorder(random: &mut Random, draft: &mut Draft) {
    let count = draft.entries.len();
    if count > 1 && random.once_in(2) {
        draft.entries.swap(count - 2, count - 1);
    } else if count > 0 && count < 121 {
        let index = random.below(count);
        draft.entries.insert(index, draft.entries[index]);
    }
}

/// Breaks one rule of one entry, which is added if there is none.
fn damage_entry(random: &mut Random, record: &Record, draft: &mut Draft) {
    let (n, from, to) = (record.n as usize, draft.from as usize, draft.to as usize);
    if draft.entries.is_empty() {
        draft.set(from, to, 1);
    }
    let index = if random.once_in(2) { draft.entries.len() - 1 } else { random.below(draft.entries.len()) };
    let other = (to + 1 + random.below(n - 1)) % n;
    let entry = &mut draft.entries[index];
    match random.below(7) {
        0 => entry.row = random.pick(&[n, n + 1, 255]),
        1 => entry.column = random.pick(&[n, n + 1, 255]),
        2 => entry.row = entry.column,
        3 => entry.column = from,
        4 => entry.value = 0,
        5 => entry.value = random.pick(&[TOP + 1, TOP + 2, u32::MAX]),
        _ => entry.column = other,
    }
}

/// Another node as destination, or the frame turned round where there is no third one.
fn damage_destination(random: &mut Random, record: &Record, draft: &mut Draft) {
    let other = other_node(random, record.n, record.me);
    if other == draft.from {
        draft.entries.clear();
        draft.from = record.me;
    } else if draft.kind == EXTRA {
        draft.entries.clear();
    }
    draft.to = other;
}

/// An entry in row me that exceeds M there by one.
fn claim_more(random: &mut Random, record: &Record, draft: &mut Draft) {
    let (me, n) = (record.me as usize, record.n as usize);
    let columns: Vec<usize> = (0..n).filter(|column| *column != me && *column != draft.from as usize).collect();
    if columns.is_empty() || draft.entries.len() >= draft.cap as usize {
        return;
    }
    let column = random.pick(&columns);
    draft.kind = USER;
    draft.set(me, column, record.entry(me, column) + 1);
}

/// A number that is at most DELIV[from], where anything from there is delivered.
fn repeat_number(random: &mut Random, record: &Record, draft: &mut Draft) {
    let (from, to) = (draft.from as usize, draft.to as usize);
    let Some(delivered) = record.deliv.get(from).copied().filter(|count| *count > 0) else { return };
    draft.entries.retain(|entry| (entry.row, entry.column) != (from, to));
    let before = random.pick(&[delivered - 1, delivered / 2, 0]);
    if before > 0 && draft.entries.len() < draft.cap as usize {
        draft.set(from, to, before);
    }
}

/// A wrong length, a wrong trailer, neighbours exchanged, or an old plant's sum.
fn damage_trailer(random: &mut Random, bytes: &mut Vec<u8>) {
    let length = bytes.len();
    match random.below(8) {
        0 => bytes.truncate(random.pick(&[0, 1, 4, 8, 11])),
        1 => bytes.resize(random.pick(&[803, 804, 1024, 65_548]), 0),
        2 => bytes.truncate(length - 1),
        3 => bytes.push(0),
        4 => shift_count(random, bytes),
        5 => {
            exchange(random, bytes);
        }
        6 => write_old_sum(bytes),
        _ => bytes[length - 1 - random.below(4)] ^= 1 << random.below(8),
    }
    if bytes.len() < 12 || bytes.len() > 802 {
        repair(bytes);
    }
}

/// A wrong count under a right sum.
fn shift_count(random: &mut Random, bytes: &mut [u8]) {
    let at = bytes.len() - 4;
    let by = random.pick(&[1u16, 4, 65_535]);
    let count = u16::from_le_bytes([bytes[at], bytes[at + 1]]).wrapping_add(by);
    bytes[at..at + 2].copy_from_slice(&count.to_le_bytes());
    repair_sum(bytes);
}

/// Puts the cap of a whole frame of n nodes at or beside one of its bounds, or makes it as many as the frame's entries,
/// under a right trailer; it may stay in range.
pub fn move_cap(random: &mut Random, n: u8, bytes: &mut [u8]) {
    let entries = bytes[3].clamp(n, n * n);
    bytes[6] = random.pick(&[0, n - 1, n, n * n, n * n + 1, 255, entries]);
    repair(bytes);
}

/// Bytes of a frame with one entry more than its cap, which meets 11 if n is above 3.
pub fn overfull(random: &mut Random, record: &Record) -> Vec<u8> {
    let ready = random.once_in(2);
    let mut draft = sound(random, record, ready);
    add_too_many(record, &mut draft);
    draft.bytes()
}

/// An e or b that does not fit the length, under a right trailer.
fn damage_lengths(random: &mut Random, bytes: &mut [u8]) {
    let index = random.pick(&[3, 4]);
    bytes[index] = random.pick(&[bytes[index].wrapping_add(1), bytes[index].wrapping_sub(1), 0, 64, 65, 255]);
    repair(bytes);
}

/// Changes one byte, under a right trailer if asked for.
pub fn damage_byte(random: &mut Random, bytes: &mut [u8], repaired: bool) {
    let index = if random.once_in(2) { random.below(bytes.len().min(8)) } else { random.below(bytes.len()) };
    bytes[index] = match random.below(3) {
        0 => random.byte(),
        1 => bytes[index].wrapping_add(1),
        _ => bytes[index] ^ (1 << random.below(8)),
    };
    if repaired {
        repair(bytes);
    }
}
