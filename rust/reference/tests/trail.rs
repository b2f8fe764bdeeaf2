//! The trail on both sides of every bound, its window against a plain count, and damage at every byte and bit.

mod common;

use common::draft;
use reference::cursor::Cursor;
use reference::draft::{repair, repair_sum, Draft};
use reference::frame::{EXTRA, USER};
use reference::random::Random;
use reference::trail::{back, largest, walk, write};
use reference::Refusal;

const TOP: u32 = 1_000_000_000;
/// What stands in a file's bytes that are not in use.
const FILL: u8 = 0xA5;

/// A user frame of 13 bytes, document 01's first example.
fn user() -> Vec<u8> {
    draft(USER, 0, 1, 3, 3, &[], b"O").bytes()
}

/// An extra frame of 24 bytes, with another n and cap.
fn extra() -> Vec<u8> {
    draft(EXTRA, 0, 1, 4, 7, &[(0, 1, 1), (2, 1, 5)], &[]).bytes()
}

/// The largest frame: n 12, all 121 entries, a body of 64.
fn frame_of_802() -> Vec<u8> {
    let all = (0..12).flat_map(|row| (0..12).map(move |column| (row, column, TOP)));
    let places: Vec<_> = all.filter(|(row, column, _)| row != column && *column != 0).collect();
    draft(USER, 0, 5, 12, 144, &places, &[0xFF; 64]).bytes()
}

/// The places that a walk shows, and what it ends with; nothing comes after a refusal.
fn shown(file: &[u8]) -> (Vec<(usize, usize)>, Result<(), Refusal>) {
    let mut places = Vec::new();
    let mut frames = back(file);
    while let Some(shown) = frames.next() {
        match shown {
            Ok(shown) => places.push((shown.start, shown.length())),
            Err(number) => {
                assert!(frames.next().is_none());
                return (places, Err(number));
            }
        }
    }
    (places, Ok(()))
}

/// The places of frames that lie end to end, the last first.
fn places(frames: &[Vec<u8>]) -> Vec<(usize, usize)> {
    let starts = frames.iter().scan(0, |end, frame| {
        *end += frame.len();
        Some((*end - frame.len(), frame.len()))
    });
    let mut places: Vec<_> = starts.collect();
    places.reverse();
    places
}

/// Whether these bytes can be written and, alone in a file, be shown; the two must agree.
fn is_taken(bytes: &[u8]) -> bool {
    let mut file = vec![FILL; bytes.len() + 5];
    let written = write(&mut file, 2, bytes);
    let alone = (vec![(0, bytes.len())], Ok(()));
    match written {
        Ok(used) => {
            assert_eq!((used, &file[2..used]), (bytes.len() + 2, bytes));
            assert_eq!(file[..2].iter().chain(&file[used..]).find(|byte| **byte != FILL), None);
            assert_eq!(shown(bytes), alone);
        }
        Err(number) => {
            assert_eq!((number, file), (19, vec![FILL; bytes.len() + 5]));
            assert!(bytes.is_empty() || shown(bytes) == (vec![], Err(19)));
        }
    }
    written.is_ok()
}

/// Whether a changed user frame with an entry is taken.
fn is_taken_changed(change: impl FnOnce(&mut Draft)) -> bool {
    let mut draft = draft(USER, 0, 1, 3, 5, &[(0, 1, 3), (0, 2, 6), (1, 2, 1)], b"body");
    change(&mut draft);
    is_taken(&draft.bytes())
}

#[test]
fn windows_are_1_to_64() {
    let trail = [user(), extra()].concat();
    for w in [0, 65, 66, 256, 257, 1 << 32, (1 << 32) + 1, usize::MAX] {
        assert_eq!([walk(&[], w), walk(&trail, w), walk(b"bad", w)], [Err(19); 3], "{w}");
        assert!([&[][..], &trail, b"bad"].iter().all(|file| Cursor::start(file, w).step(file).is_err()), "{w}");
    }
    for w in 1..=64 {
        assert_eq!([walk(&[], w), walk(&trail, w), walk(b"bad", w)], [Ok(0), Ok(1), Err(19)], "{w}");
    }
}

#[test]
fn an_empty_file_shows_nothing() {
    assert_eq!(shown(&[]), (vec![], Ok(())));
    assert!(matches!(Cursor::start(&[], 1).step(&[]), Ok(None)));
}

#[test]
fn room_to_the_byte() {
    for frame in [draft(USER, 0, 1, 2, 2, &[], &[]).bytes(), user(), extra(), frame_of_802()] {
        let length = frame.len();
        for used in [0, 1, 50] {
            for (room, fits) in [(0, false), (length - 1, false), (length, true), (length + 1, true)] {
                let mut file = vec![FILL; used + room];
                let mut expected = file.clone();
                if fits {
                    expected[used..used + length].copy_from_slice(&frame);
                }
                assert_eq!(write(&mut file, used, &frame), if fits { Ok(used + length) } else { Err(3) });
                assert_eq!(file, expected, "{used} in use of {}", used + room);
            }
        }
    }
}

#[test]
fn a_number_in_use_at_or_above_the_length_leaves_no_room() {
    let frame = user();
    for length in [0, 1, 13, 40] {
        let far = usize::MAX - frame.len();
        for used in [length, length + 1, far - 1, far, far + 1, far + 2, usize::MAX] {
            let mut file = vec![FILL; length];
            assert_eq!(write(&mut file, used, &frame), Err(3), "{used} in use of {length}");
            assert_eq!(write(&mut file, used, &frame[1..]), Err(19), "{used} in use of {length}");
            assert_eq!(file, vec![FILL; length]);
        }
    }
}

#[test]
fn a_write_does_not_look_at_what_is_written() {
    let mut file = [FILL; 40];
    assert_eq!(write(&mut file, 3, &user()), Ok(16));
    assert_eq!(file[..3], [FILL; 3]);
    assert_eq!(shown(&file[..16]), (vec![(3, 13)], Err(19)));
}

#[test]
fn lengths_of_12_to_802() {
    let shortest = draft(USER, 0, 1, 2, 2, &[], &[]).bytes();
    assert_eq!([shortest.len(), frame_of_802().len()], [12, 802]);
    assert!(is_taken(&shortest) && is_taken(&frame_of_802()));
    for length in [0, 1, 4, 8, 11, 803, 1000, 65_539, 65_540, 65_548] {
        let mut bytes = [&frame_of_802()[..], &vec![0; 65_548]].concat();
        bytes.truncate(length);
        repair(&mut bytes);
        assert!(!is_taken(&bytes), "{length}");
    }
}

#[test]
fn too_short_for_a_trailer() {
    for length in 1..12 {
        for byte in [0, 1, FILL] {
            let file = vec![byte; length];
            assert_eq!(shown(&file), (vec![], Err(19)), "{length} of {byte}");
            assert_eq!(shown(&[file, user()].concat()), (vec![(length, 13)], Err(19)), "{length} of {byte}");
        }
    }
    // A trailer alone, whose count points to its own start.
    assert_eq!(shown(&[0, 0, 0, 0, 1]), (vec![], Err(19)));
    assert_eq!(shown(&[0, 0, 0, 0]), (vec![], Err(19)));
}

#[test]
fn a_trailer_that_points_before_the_start() {
    let trail = [user(), extra()].concat();
    assert_eq!(shown(&trail), (vec![(13, 24), (0, 13)], Ok(())));
    for missing in 1..13 {
        assert_eq!(shown(&trail[missing..]), (vec![(13 - missing, 24)], Err(19)), "{missing} bytes missing");
    }
    assert_eq!(shown(&trail[13..]), (vec![(0, 24)], Ok(())));
    assert_eq!(shown(&trail[14..]), (vec![], Err(19)));
    assert_eq!(shown(&[0xFF; 65_538]), (vec![], Err(19)));
}

#[test]
fn either_trailer_field_wrong() {
    let bytes = user();
    for index in bytes.len() - 4..bytes.len() {
        let mut wrong = bytes.clone();
        wrong[index] ^= 1;
        assert!(!is_taken(&wrong), "{index}");
    }
    // The count points one byte too far or not far enough, under a right sum.
    for by in [1, u8::MAX] {
        let mut wrong = bytes.clone();
        wrong[9] = wrong[9].wrapping_add(by);
        repair_sum(&mut wrong);
        assert!(!is_taken(&wrong), "{by}");
        assert_eq!(shown(&[&[0], &wrong[..]].concat()), (vec![], Err(19)), "{by}");
    }
    // A zero in front of the trailer, under a right sum, and the count is right for e and b.
    let mut stretched = [&bytes[..9], &[0], &bytes[9..]].concat();
    repair_sum(&mut stretched);
    assert_eq!(write(&mut [FILL; 40], 0, &stretched), Err(19));
    assert_eq!(shown(&stretched), (vec![], Err(19)));
}

#[test]
fn a_frames_own_n_is_2_to_12() {
    for (n, taken) in [(0, false), (1, false), (2, true), (3, true), (11, true), (12, true), (13, false), (255, false)]
    {
        let cap = n.max(2);
        assert_eq!(is_taken(&draft(USER, 0, 1, n, cap, &[], &[]).bytes()), taken, "{n}");
    }
    assert!(!is_taken(&draft(USER, 0, 1, 1, 1, &[], &[]).bytes()));
    assert!(!is_taken(&draft(USER, 0, 1, 16, 16, &[], &[]).bytes()));
}

#[test]
fn a_frames_own_cap_is_n_to_n_times_n() {
    for n in 2..=12u8 {
        for (cap, taken) in [(0, false), (n - 1, false), (n, true), (n + 1, true), (n * n, true), (n * n + 1, false)] {
            assert_eq!(is_taken(&draft(USER, 0, 1, n, cap, &[], &[]).bytes()), taken, "{n} {cap}");
        }
    }
}

#[test]
fn kind_zero_and_parties() {
    assert_eq!([0, 1, 3, 255].map(|kind| is_taken_changed(|draft| draft.kind = kind)), [false, true, false, false]);
    assert_eq!([0, 1, 255].map(|zero| is_taken_changed(|draft| draft.zero = zero)), [true, false, false]);
    let from = [0, 1, 3, 255].map(|from| is_taken_changed(|draft| draft.from = from));
    assert_eq!(from, [true, false, false, false]);
    // Whoever it is for: a trail has no node.
    let to = [0, 1, 2, 3, 255].map(|to| is_taken_changed(|draft| draft.to = to));
    assert_eq!(to, [false, true, true, false, false]);
}

#[test]
fn body_and_entry_count() {
    let body = [0, 64, 65, 255].map(|length| is_taken_changed(|draft| draft.body = vec![3; length]));
    assert_eq!(body, [true, true, false, false]);
    let with_body = |body: &[u8]| is_taken(&draft(EXTRA, 0, 1, 3, 5, &[(0, 1, 3)], body).bytes());
    assert_eq!([with_body(&[]), with_body(&[1])], [true, false]);
    let caps = [0, 2, 3, 4, 9, 10, 255].map(|cap| is_taken_changed(|draft| draft.cap = cap));
    assert_eq!(caps, [false, false, true, true, true, false, false]);
    let places = [(0, 1, 1), (0, 2, 1), (0, 3, 1), (2, 1, 1), (2, 3, 1)];
    let count = |cap, count| is_taken(&draft(USER, 0, 1, 4, cap, &places[..count], &[]).bytes());
    assert_eq!([count(4, 4), count(4, 5), count(5, 5), count(16, 5)], [true, false, true, true]);
    for (index, byte) in [(3, 2), (3, 4), (4, 3), (4, 5), (3, 255), (4, 255)] {
        let mut bytes = draft(USER, 0, 1, 3, 5, &[(0, 1, 3), (0, 2, 6), (1, 2, 1)], b"body").bytes();
        bytes[index] = byte;
        repair(&mut bytes);
        assert!(!is_taken(&bytes), "{byte} at {index}");
    }
}

#[test]
fn entries_keep_their_rules() {
    let taken = |kind, triples: &[(usize, usize, u32)]| is_taken(&draft(kind, 0, 1, 3, 5, triples, &[]).bytes());
    assert!(taken(USER, &[(0, 1, 3), (2, 1, 1)]) && taken(EXTRA, &[(0, 1, 3), (2, 1, 1)]));
    for second in [(3, 1, 1), (2, 3, 1), (2, 2, 1), (2, 0, 1), (0, 1, 4)] {
        assert!(!taken(USER, &[(0, 1, 3), second]), "{second:?}");
    }
    let values = [0, 1, TOP, TOP + 1, u32::MAX].map(|value| taken(USER, &[(0, 1, value)]));
    assert_eq!(values, [false, true, true, false, false]);
    assert!(!taken(USER, &[(2, 1, 1), (0, 1, 3)]) && !taken(USER, &[(0, 2, 1), (0, 1, 3)]));
    assert!(taken(USER, &[(0, 1, 3), (0, 2, 1)]) && !taken(EXTRA, &[(0, 1, 3), (0, 2, 1)]));
}

#[test]
fn a_frame_in_a_body_is_not_shown() {
    let inner = user();
    let outer = draft(USER, 0, 1, 3, 3, &[], &inner).bytes();
    let trail = [inner.clone(), outer.clone()].concat();
    assert_eq!(shown(&trail), (vec![(13, 25), (0, 13)], Ok(())));
    // Cut behind the inner frame, the file ends with it, and what is in front is no frame.
    assert_eq!(shown(&trail[..13 + 8 + 13]), (vec![(21, 13)], Err(19)));
}

/// A sound frame of any n and cap, an extra frame once in so many times.
fn any_frame(random: &mut Random, times: usize) -> Vec<u8> {
    let n = random.within(2, 12);
    let cap = random.within(n, n * n);
    let (from, kind) = (random.below(n), if random.once_in(times) { EXTRA } else { USER });
    let to = (from + 1 + random.below(n - 1)) % n;
    let length = if kind == USER { random.below(65) } else { 0 };
    let body = random.bytes(length);
    let mut draft = draft(kind, from as u8, to as u8, n as u8, cap as u8, &[], &body);
    for _ in 0..random.below(8).min(cap) {
        let row = random.below(n);
        let column = if kind == EXTRA { to } else { random.below(n) };
        if row != column && column != from {
            draft.set(row, column, random.within(1, TOP as usize) as u32);
        }
    }
    draft.bytes()
}

/// So many frames, an extra frame once in so many times.
fn any_frames(random: &mut Random, count: usize, times: usize) -> Vec<Vec<u8>> {
    (0..count).map(|_| any_frame(random, times)).collect()
}

/// The file that has the frames written one on another from empty, with room to the byte.
fn written(frames: &[Vec<u8>]) -> Vec<u8> {
    let mut file = vec![FILL; frames.iter().map(Vec::len).sum()];
    let used = frames.iter().try_fold(0, |used, frame| write(&mut file, used, frame));
    assert_eq!(used, Ok(file.len()));
    file
}

/// Which frames are extra frames, the last first.
fn extras_of(frames: &[Vec<u8>]) -> Vec<bool> {
    frames.iter().rev().map(|frame| frame[0] == EXTRA).collect()
}

/// The largest count of a walk made step by step, with what its cursor says at each.
fn stepped(file: &[u8], w: usize, extras: &[bool]) -> u64 {
    let mut cursor = Cursor::start(file, w);
    for shown in 1..=extras.len() {
        let (frame, after) = cursor.step(file).unwrap().unwrap();
        let window = &extras[shown.saturating_sub(w)..shown];
        let bits = (0..shown.min(64)).filter(|i| extras[shown - 1 - i]).fold(0, |bits, i| bits | 1 << i);
        let count = window.iter().filter(|extra| **extra).count() as u64;
        assert_eq!(after.numbers()[..4], [frame.start as u64, w as u64, bits, count]);
        assert_eq!(after.most as usize, (1..=shown).map(|shown| largest(w, &extras[..shown])).max().unwrap());
        cursor = after;
    }
    assert!(matches!(cursor.step(file), Ok(None)));
    cursor.most
}

#[test]
fn a_written_trail_shows_its_frames_and_no_other() {
    let mut random = Random::new(21);
    for round in 0..400 {
        let (count, times) = (random.pick(&[0, 1, 2, 5, 63, 64, 65, 130]), random.pick(&[1, 2, 5, 40]));
        let frames = any_frames(&mut random, count, times);
        let file = written(&frames);
        assert_eq!(shown(&file), (places(&frames), Ok(())));
        let extras = extras_of(&frames);
        for w in 1..=64 {
            assert_eq!(walk(&file, w), Ok(largest(w, &extras)), "{w} of {count}");
        }
        if round < 20 {
            let w = random.within(1, 64);
            assert_eq!(stepped(&file, w, &extras), largest(w, &extras) as u64, "{w} of {count}");
        }
    }
}

#[test]
fn windows_by_hand() {
    let of = |kinds: &str| -> Vec<Vec<u8>> {
        kinds.chars().map(|kind| if kind == 'x' { extra() } else { user() }).collect()
    };
    let figures = |kinds: &str, windows: &[usize]| -> Vec<usize> {
        let frames = of(kinds);
        assert!(windows.iter().all(|w| walk(&written(&frames), *w) == Ok(largest(*w, &extras_of(&frames)))));
        windows.iter().map(|w| walk(&written(&frames), *w).unwrap()).collect()
    };
    assert_eq!(figures("uuu", &[1, 2, 3, 4, 64]), [0, 0, 0, 0, 0]);
    assert_eq!(figures("xxx", &[1, 2, 3, 4, 64]), [1, 2, 3, 3, 3]);
    assert_eq!(figures("xuxuux", &[1, 2, 3, 4, 5, 6, 7, 64]), [1, 1, 2, 2, 2, 3, 3, 3]);
    assert_eq!(figures("xxuuuxu", &[1, 2, 3, 5, 6, 7]), [1, 2, 2, 2, 3, 3]);
    assert_eq!(figures("uxuuuxx", &[1, 2, 3, 5, 6, 7]), [1, 2, 2, 2, 3, 3]);
    let long = format!("{}{}{}", "x".repeat(64), "u".repeat(64), "x".repeat(63));
    assert_eq!(figures(&long, &[1, 62, 63, 64]), [1, 62, 63, 64]);
    assert_eq!(figures(&"xu".repeat(64), &[1, 2, 3, 63, 64]), [1, 1, 2, 32, 32]);
}

#[test]
fn a_trail_cut_at_every_byte() {
    let mut random = Random::new(22);
    let frames = any_frames(&mut random, 40, 3);
    let file = written(&frames);
    let all = places(&frames);
    for cut in 0..=file.len() {
        let whole: Vec<_> = all.iter().copied().filter(|(start, length)| start + length <= cut).collect();
        let reached = whole.first().map_or(0, |(start, length)| start + length);
        let (expected, ends) = if reached == cut { (whole, Ok(())) } else { (vec![], Err(19)) };
        assert_eq!(shown(&file[..cut]), (expected, ends), "cut at {cut}");
        assert_eq!(walk(&file[..cut], 64).is_ok(), ends.is_ok());
        let behind: Vec<_> = all.iter().copied().filter(|(start, _)| *start >= cut).collect();
        let ends = if behind.last().map_or(file.len(), |(start, _)| *start) == cut { Ok(()) } else { Err(19) };
        let moved = behind.iter().map(|(start, length)| (start - cut, *length)).collect();
        assert_eq!(shown(&file[cut..]), (moved, ends), "cut in front of {cut}");
    }
}

#[test]
fn each_bit_of_a_trail_flipped() {
    let frames = [user(), extra(), draft(USER, 1, 0, 2, 2, &[(1, 0, 7)], b"body").bytes(), extra()];
    let file = written(&frames);
    let all = places(&frames);
    for bit in 0..8 * file.len() {
        let mut damaged = file.clone();
        damaged[bit / 8] ^= 1 << (bit % 8);
        let behind: Vec<_> = all.iter().copied().filter(|(start, _)| *start > bit / 8).collect();
        assert_eq!(shown(&damaged), (behind, Err(19)), "bit {bit}");
        assert_eq!(walk(&damaged, 1), Err(19), "bit {bit}");
    }
}

#[test]
fn any_five_numbers_are_a_cursor() {
    let file = [user(), extra()].concat();
    let step = |numbers: [u64; 5]| {
        Cursor::of(numbers).step(&file).map(|step| step.map(|(shown, after)| (shown.start, after.numbers())))
    };
    assert_eq!(step([37, 3, 0, 0, 0]), Ok(Some((13, [13, 3, 1, 1, 1]))));
    assert_eq!(step([u64::MAX, 3, 0, 0, 0]), Ok(Some((13, [13, 3, 1, 1, 1]))));
    assert_eq!(step([38, 3, 4, 3, 9]), Ok(Some((13, [13, 3, 9, 3, 9]))));
    assert_eq!(step([13, 1, u64::MAX, 0, 0]), Ok(Some((0, [0, 1, u64::MAX - 1, 0, 0]))));
    assert_eq!(step([37, 64, 1 << 63, u64::MAX, 7]), Ok(Some((13, [13, 64, 1, 64, 64]))));
    assert_eq!(step([37, 64, 1 << 62, u64::MAX, 7]), Ok(Some((13, [13, 64, 1 << 63 | 1, 65, 65]))));
    assert_eq!(step([13, 2, 2, 1, u64::MAX]), Ok(Some((0, [0, 2, 4, 0, u64::MAX]))));
    assert_eq!(step([13, 2, 1, 1, 0]), Ok(Some((0, [0, 2, 2, 1, 1]))));
    assert_eq!(step([0, 2, 1, 1, 0]), Ok(None));
    assert_eq!([step([0, 0, 1, 1, 0]), step([0, 65, 1, 1, 0]), step([12, 1, 0, 0, 0])], [Err(19), Err(19), Err(19)]);
}
