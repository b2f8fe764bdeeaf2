//! Shelves: sound ones of any frames, and ones that meet check 4.

use crate::{frames, neighbours};
use reference::draft::{repair, write_old_sum, Draft};
use reference::frame::{Frame, EXTRA, USER};
use reference::random::Random;
use reference::{shelf, Record};

/// Bytes of a place.
const PLACE: usize = Record::FRAME;

/// A sound shelf for a record that holds nothing, with about so many frames, whose number goes into the record.
pub fn any_shelf(random: &mut Random, record: &mut Record, wanted: usize) -> Vec<u8> {
    let mut shelf = vec![0; shelf::LENGTH];
    let mut labels = Vec::new();
    for _ in 0..3 * wanted {
        let ready = random.once_in(6);
        let draft = frames::sound(random, record, ready);
        let bytes = draft.bytes();
        let label = label_of(&bytes);
        if labels.len() < wanted && !labels.contains(&label) {
            put(&mut shelf, labels.len(), &bytes);
            labels.push(label);
        }
    }
    record.held = labels.len() as u8;
    shelf
}

/// From and number of a whole frame.
fn label_of(bytes: &[u8]) -> Option<(usize, u32)> {
    Frame::first_of(bytes).map(|frame| (frame.from(), frame.number()))
}

/// Lays bytes at the start of a place, and zeros after them.
fn put(shelf: &mut [u8], place: usize, bytes: &[u8]) {
    let bytes = &bytes[..bytes.len().min(PLACE)];
    let place = &mut shelf[PLACE * place..PLACE * (place + 1)];
    place.fill(0);
    place[..bytes.len()].copy_from_slice(bytes);
}

/// The frame in a place.
pub fn frame_at(shelf: &[u8], place: usize) -> Option<Frame<'_>> {
    Frame::first_of(shelf.get(PLACE * place..PLACE * (place + 1))?)
}

/// A frame with the same from and number as the one in a place, of the other kind if asked for.
pub fn twin(shelf: &[u8], place: usize, other_kind: bool) -> Option<Vec<u8>> {
    let mut draft = Draft::of(frame_at(shelf, place)?);
    if other_kind && draft.kind == EXTRA {
        draft.kind = USER;
    } else if other_kind {
        draft.kind = EXTRA;
        draft.body.clear();
        draft.entries.retain(|entry| entry.column == draft.to as usize);
    }
    Some(draft.bytes())
}

/// How many ways there are to damage a shelf.
pub const WAYS: usize = 16;
/// The way that moves the cap of a held frame.
pub const MOVED_CAP: usize = 14;

/// Damages a sound shelf, or the number of held frames, in one of the ways, and says whether it has that way.
pub fn damage(random: &mut Random, record: &mut Record, shelf: &mut [u8], way: usize) -> bool {
    let held = record.held as usize;
    match way {
        0 if held < 16 => dirty(random, shelf, PLACE * held),
        1 if held < 16 => claim_another(record),
        2 if (1..16).contains(&held) => repeat(random, record, shelf),
        _ if held == 0 => false,
        3 => dirty_end(random, shelf, held),
        4 | 5 => damage_bytes(random, shelf, held, way == 5),
        6 | 7 => damage_frame(random, record, shelf),
        8 => forget_one(record),
        9 => exceed_place(random, shelf, held),
        10 => empty_place(random, shelf, held),
        11 => shift(shelf),
        12 => exchange(random, shelf, held),
        13 => age(random, shelf, held),
        MOVED_CAP => move_cap(random, record.n, shelf, held),
        15 => overfill(random, record, shelf),
        _ => false,
    }
}

/// An index from start to before end, often the first or the last.
fn any_index(random: &mut Random, start: usize, end: usize) -> usize {
    let between = random.within(start, end - 1);
    random.pick(&[start, between, end - 1])
}

/// A non-zero byte in a free place.
fn dirty(random: &mut Random, shelf: &mut [u8], start: usize) -> bool {
    let index = any_index(random, start, shelf.len());
    shelf[index] = 1 << random.below(8);
    true
}

/// One more frame held than there is.
fn claim_another(record: &mut Record) -> bool {
    record.held += 1;
    true
}

/// One frame fewer held than there is.
fn forget_one(record: &mut Record) -> bool {
    record.held -= 1;
    true
}

/// A held frame that is there twice, perhaps in the other kind.
fn repeat(random: &mut Random, record: &mut Record, shelf: &mut [u8]) -> bool {
    let held = record.held as usize;
    let other_kind = random.once_in(2);
    let Some(bytes) = twin(shelf, random.below(held), other_kind) else { return false };
    put(shelf, held, &bytes);
    record.held += 1;
    true
}

/// A non-zero byte after a frame in its place.
fn dirty_end(random: &mut Random, shelf: &mut [u8], held: usize) -> bool {
    let place = random.below(held);
    let length = frame_at(shelf, place).map_or(PLACE, |frame| frame.bytes().len());
    if length < PLACE {
        let index = any_index(random, length, PLACE);
        shelf[PLACE * place + index] = 1 << random.below(8);
    }
    length < PLACE
}

/// One byte of a held frame changed, with or without a repaired trailer, which may leave it sound.
fn damage_bytes(random: &mut Random, shelf: &mut [u8], held: usize, repaired: bool) -> bool {
    let place = random.below(held);
    let Some(frame) = frame_at(shelf, place) else { return false };
    let mut bytes = frame.bytes().to_vec();
    frames::damage_byte(random, &mut bytes, repaired);
    put(shelf, place, &bytes);
    false
}

/// A held frame with one entry more than its cap, for which four nodes have room.
fn overfill(random: &mut Random, record: &Record, shelf: &mut [u8]) -> bool {
    let place = random.below(record.held as usize);
    put(shelf, place, &frames::overfull(random, record));
    record.n > 3
}

/// A held frame that would meet one of 8 to 14, where the record has such a frame.
fn damage_frame(random: &mut Random, record: &Record, shelf: &mut [u8]) -> bool {
    let place = random.below(record.held as usize);
    let check = random.within(8, 14) as u8;
    let bytes = frames::damaged(random, record, check);
    put(shelf, place, &bytes);
    false
}

/// An e or b by which a frame exceeds its place.
fn exceed_place(random: &mut Random, shelf: &mut [u8], held: usize) -> bool {
    let start = PLACE * random.below(held);
    (shelf[start + 3], shelf[start + 4]) = random.pick(&[(255, 255), (132, 0), (121, 65), (131, 5)]);
    repair(&mut shelf[start..start + PLACE]);
    true
}

/// A held place that is all zero.
fn empty_place(random: &mut Random, shelf: &mut [u8], held: usize) -> bool {
    let start = PLACE * random.below(held);
    shelf[start..start + PLACE].fill(0);
    true
}

/// The whole shelf one byte further on.
fn shift(shelf: &mut [u8]) -> bool {
    shelf.rotate_right(1);
    true
}

/// A held frame with unequal neighbours in front of its sum exchanged.
fn exchange(random: &mut Random, shelf: &mut [u8], held: usize) -> bool {
    let frame = any_held(random, shelf, held);
    neighbours::exchange(random, frame)
}

/// A held frame with an old plant's sum, which may by chance be the right one.
fn age(random: &mut Random, shelf: &mut [u8], held: usize) -> bool {
    write_old_sum(any_held(random, shelf, held));
    false
}

/// A held frame with its cap at or beside one of its bounds, which may leave it sound.
fn move_cap(random: &mut Random, n: u8, shelf: &mut [u8], held: usize) -> bool {
    let frame = any_held(random, shelf, held);
    frames::move_cap(random, n, frame);
    false
}

/// The bytes of any held frame.
fn any_held<'a>(random: &mut Random, shelf: &'a mut [u8], held: usize) -> &'a mut [u8] {
    let place = random.below(held);
    let length = frame_at(shelf, place).map_or(0, |frame| frame.bytes().len());
    &mut shelf[PLACE * place..][..length]
}
