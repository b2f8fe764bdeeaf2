//! Cutting bytes into frames: whole outputs, what is cut off, and any bytes at all.

mod common;

use common::spelled;
use host::sizes::{FRAME, SHORTEST};
use host::{Frame, Frames, Kind};

/// Bytes from a seed.
fn bytes_of(seed: u64, length: usize) -> Vec<u8> {
    let mut state = seed;
    let mut next = || {
        state = state.wrapping_mul(6_364_136_223_846_793_005).wrapping_add(1_442_695_040_888_963_407);
        (state >> 56) as u8
    };
    (0..length).map(|_| next()).collect()
}

/// The lengths of the frames of some bytes, and what is left.
fn lengths(bytes: &[u8]) -> (Vec<usize>, usize) {
    let mut frames = Frames::new(bytes);
    let lengths = frames.by_ref().map(|frame| frame.bytes().len()).collect();
    (lengths, frames.rest().len())
}

#[test]
fn frames_end_to_end_are_cut_by_their_own_lengths() {
    let entries: Vec<(u8, u8, u32)> = (0..12)
        .flat_map(|row| (1..12).map(move |column| (row, column, 5)))
        .filter(|(row, column, _)| row != column)
        .collect();
    let frames = [
        spelled(1, 0, 1, 3, 3, &[], &[]),
        spelled(2, 0, 1, 3, 3, &[(0, 1, 7)], &[]),
        spelled(1, 0, 1, 12, 144, &entries[..121], &[1; 64]),
        spelled(1, 2, 0, 3, 3, &[(2, 0, u32::MAX)], b"body"),
    ];
    assert_eq!(frames[2].len(), FRAME);
    let bytes = frames.concat();
    assert!(Frames::new(&bytes).map(|frame| frame.bytes()).eq(frames.iter().map(|frame| &frame[..])));
    let seen: Vec<_> =
        Frames::new(&bytes).map(|frame| (frame.kind(), frame.from(), frame.to(), frame.number())).collect();
    let (user, extra) = (Some(Kind::User), Some(Kind::Extra));
    assert_eq!(seen, [(user, 0, 1, 1), (extra, 0, 1, 8), (user, 0, 1, 6), (user, 2, 0, u32::MAX)]);
}

#[test]
fn a_frame_that_is_cut_off_is_none() {
    let frame = spelled(1, 0, 1, 3, 3, &[(0, 1, 7)], b"body");
    for length in 0..frame.len() {
        assert_eq!(Frame::first_of(&frame[..length]), None);
        assert_eq!(lengths(&[&frame, &frame[..length]].concat()), (vec![frame.len()], length));
    }
    assert_eq!(lengths(&frame), (vec![frame.len()], 0));
}

#[test]
fn the_lengths_of_every_e_and_b() {
    for e in 0..=255 {
        for b in 0..=255 {
            let mut bytes = vec![0; 2000];
            (bytes[3], bytes[4]) = (e, b);
            let length = SHORTEST + 6 * usize::from(e) + usize::from(b);
            let expected = (length <= FRAME).then_some(length);
            let first = Frame::first_of(&bytes);
            assert_eq!(first.map(|frame| frame.bytes().len()), expected, "{e} {b}");
            assert!(first.is_none_or(|frame| frame.kind().is_none() && frame.number() == 1));
        }
    }
}

#[test]
fn any_bytes_are_cut_and_come_to_an_end() {
    let mut cut = 0;
    for seed in 0..20_000 {
        let mut bytes = bytes_of(seed, (seed % 1500) as usize);
        bytes.iter_mut().for_each(|byte| *byte >>= seed % 8);
        let mut frames = Frames::new(&bytes);
        let mut length = 0;
        for frame in frames.by_ref() {
            let seen = (frame.kind(), frame.from(), frame.to(), frame.number());
            assert!(seen.3 > 0);
            assert!((SHORTEST..=FRAME).contains(&frame.bytes().len()));
            length += frame.bytes().len();
            cut += 1;
        }
        assert_eq!(frames.rest(), &bytes[length..]);
        assert_eq!(frames.next(), None);
    }
    assert!(cut > 10_000, "{cut}");
}
