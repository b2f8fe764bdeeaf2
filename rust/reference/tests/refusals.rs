//! Each refusal on both sides of its bound.

mod common;

use common::*;
use reference::draft::{repair, repair_sum, Draft};
use reference::frame::{EXTRA, USER};
use reference::*;

const TOP: u32 = 1_000_000_000;

/// A node 1 of three that has delivered a little, with room in its matrix.
fn sample() -> Record {
    with(1, 3, 5, &[(1, 0, 2), (1, 2, 1), (0, 2, 4)], &[(0, 3), (2, 1)])
}

/// A frame that the sample takes: number 4 from 0.
fn sound() -> Draft {
    draft(USER, 0, 1, 3, 5, &[(0, 1, 3), (0, 2, 6), (1, 2, 1)], b"body")
}

/// The number of an offer of the draft to the sample with an empty shelf.
fn offered(draft: &Draft) -> u8 {
    offer_number(sample(), &draft.bytes(), &empty_shelf())
}

/// The number of an offer of a changed sound frame.
fn changed(change: impl FnOnce(&mut Draft)) -> u8 {
    let mut draft = sound();
    change(&mut draft);
    offered(&draft)
}

/// All three calls give this number for the record, or none does.
fn all_calls(record: Record) -> u8 {
    let shelf = empty_shelf();
    let sent = send_number(record, 99, 0, &[0; 65], 0);
    assert_eq!(deliver_number(record, &shelf[1..], 0, 0), if sent == 2 { 2 } else { 3 });
    assert_eq!(offer_number(record, &[], &shelf[1..]), if sent == 2 { 2 } else { 3 });
    sent
}

#[test]
fn check_1() {
    let number = |me, n, cap| set_up(me, n, cap).0.err().unwrap_or(0);
    assert_eq!(
        [number(0, 0, 0), number(0, 1, 1), number(0, 2, 2), number(0, 12, 12), number(0, 13, 13)],
        [1, 1, 0, 0, 1]
    );
    assert_eq!([number(2, 3, 5), number(3, 3, 5), number(11, 12, 144), number(12, 12, 144)], [0, 1, 0, 1]);
    assert_eq!([number(0, 3, 2), number(0, 3, 3), number(0, 3, 9), number(0, 3, 10)], [1, 0, 0, 1]);
    assert_eq!([number(0, 12, 11), number(0, 12, 144), number(0, 12, 145)], [1, 0, 1]);
    assert_eq!([number(256, 3, 3), number(0, 259, 3), number(0, 3, 259), number(0, usize::MAX, 3)], [1, 1, 1, 1]);
    assert_eq!(set_up(3, 3, 3).1, Record::ZERO);
    assert_eq!(set_up(2, 3, 4).1, Record { me: 2, n: 3, cap: 4, ..Record::ZERO });
}

#[test]
fn check_2_ranges() {
    let with_ranges = |me, n, cap| all_calls(Record { me, n, cap, ..Record::ZERO });
    for (me, n, cap) in [(0, 2, 2), (1, 2, 4), (11, 12, 144), (0, 12, 12)] {
        assert_eq!(with_ranges(me, n, cap), 3);
    }
    for (me, n, cap) in
        [(0, 0, 0), (0, 1, 1), (0, 13, 13), (2, 2, 2), (0, 2, 1), (0, 2, 5), (12, 12, 20), (255, 255, 255)]
    {
        assert_eq!(with_ranges(me, n, cap), 2);
    }
}

#[test]
fn check_2_matrix_and_vector() {
    let broken = |change: &dyn Fn(&mut Record)| {
        let mut record = sample();
        change(&mut record);
        all_calls(record)
    };
    assert_eq!(broken(&|_| ()), 3);
    for x in 0..12 {
        assert_eq!(broken(&|record| *record.entry_mut(x, x) = 1), 2);
        assert_eq!(broken(&|record| *record.entry_mut(x, 1) = 1), 2);
    }
    for x in 3..12 {
        assert_eq!(broken(&|record| *record.entry_mut(x, 0) = 1), 2);
        assert_eq!(broken(&|record| *record.entry_mut(0, x) = 1), 2);
        assert_eq!(broken(&|record| record.deliv[x] = 1), 2);
    }
    assert_eq!(broken(&|record| record.deliv[1] = 1), 2);
    assert_eq!(broken(&|record| record.deliv[0] = TOP), 3);
    assert_eq!(broken(&|record| record.deliv[0] = TOP + 1), 2);
    assert_eq!(broken(&|record| *record.entry_mut(2, 0) = TOP), 3);
    assert_eq!(broken(&|record| *record.entry_mut(2, 0) = TOP + 1), 2);
    assert_eq!(broken(&|record| *record.entry_mut(2, 0) = u32::MAX), 2);
    assert_eq!([broken(&|record| record.held = 16), broken(&|record| record.held = 17)], [3, 2]);
}

#[test]
fn check_2_cap() {
    let four = [(1, 0, 1), (1, 2, 1), (0, 2, 1), (2, 0, 1)];
    assert_eq!(all_calls(with(1, 3, 4, &four, &[])), 3);
    assert_eq!(all_calls(with(1, 3, 3, &four, &[])), 2);
}

#[test]
fn check_3() {
    let shelf = empty_shelf();
    assert_eq!([2047, 2048, 2049].map(|length| send_number(sample(), 0, 0, &[], length)), [3, 0, 0]);
    assert_eq!([2047, 2048, 2049].map(|length| deliver_number(sample(), &shelf, length, 64)), [3, 0, 0]);
    assert_eq!([63, 64, 65].map(|length| deliver_number(sample(), &shelf, 2048, length)), [3, 0, 0]);
    let lengths = [0, 12_831, 12_832, 12_833];
    assert_eq!(lengths.map(|length| deliver_number(sample(), &vec![0; length], 2048, 64)), [3, 3, 0, 3]);
    assert_eq!(lengths.map(|length| offer_number(sample(), &sound().bytes(), &vec![0; length])), [3, 3, 0, 3]);
    assert_eq!(send_number(sample(), 1, 0, &[0; 65], 2047), 3);
}

/// The number that offer and deliver give for the sample with this shelf.
fn shelved(held: u8, shelf: &[u8]) -> u8 {
    let record = Record { held, ..sample() };
    let number = deliver_number(record, shelf, 2048, 64);
    assert_eq!(offer_number(record, &[], shelf), if number == 4 { 4 } else { 8 });
    number
}

#[test]
fn check_4_layout() {
    let (_, one) = holding(sample(), &[sound().bytes()]);
    assert_eq!([shelved(0, &empty_shelf()), shelved(1, &empty_shelf())], [0, 4]);
    assert_eq!([shelved(0, &one), shelved(1, &one), shelved(2, &one), shelved(16, &one)], [4, 0, 4, 4]);
    let length = sound().bytes().len();
    for index in [length, 801, 802, 12_831] {
        let mut shelf = one.clone();
        shelf[index] = 1;
        assert_eq!(shelved(1, &shelf), 4);
    }
    let (_, gap) = holding(sample(), &[Vec::new(), sound().bytes()]);
    assert_eq!([shelved(1, &gap), shelved(2, &gap)], [4, 4]);
    let mut long = one.clone();
    long[3] = 255;
    assert_eq!(shelved(1, &long), 4);
}

#[test]
fn check_4_takes_checks_8_to_14() {
    let with_frame = |bytes: Vec<u8>| shelved(1, &holding(sample(), &[bytes]).1);
    let with_change = |change: &dyn Fn(&mut Draft)| {
        let mut draft = sound();
        change(&mut draft);
        with_frame(draft.bytes())
    };
    let mut bad_sum = sound().bytes();
    bad_sum[9] ^= 1;
    assert_eq!(with_frame(bad_sum), 4);
    assert_eq!(with_change(&|_| ()), 0);
    assert_eq!(with_change(&|draft| draft.kind = 3), 4);
    assert_eq!([2, 3, 9, 10].map(|cap| with_change(&|draft| draft.cap = cap)), [4, 0, 0, 4]);
    assert_eq!(with_change(&|draft| draft.body = vec![0; 65]), 4);
    assert_eq!(with_change(&|draft| draft.to = 2), 4);
    assert_eq!(with_change(&|draft| draft.set(1, 2, 2)), 4);
    assert_eq!(with_change(&|draft| draft.set(0, 1, 2)), 4);
}

#[test]
fn check_4_two_alike() {
    let second = draft(USER, 0, 1, 3, 5, &[(0, 1, 4)], &[]).bytes();
    let same_number = draft(EXTRA, 0, 1, 3, 5, &[(0, 1, 3)], &[]).bytes();
    let other_from = draft(USER, 2, 1, 3, 5, &[(2, 1, 3)], &[]).bytes();
    let number = |frames: &[Vec<u8>]| shelved(frames.len() as u8, &holding(sample(), frames).1);
    assert_eq!(number(&[sound().bytes(), second.clone(), other_from.clone()]), 0);
    assert_eq!(number(&[sound().bytes(), second.clone(), sound().bytes()]), 4);
    assert_eq!(number(&[sound().bytes(), other_from, same_number]), 4);
}

#[test]
fn check_5() {
    let shelf = empty_shelf();
    let numbers = |m: &[(usize, usize, u32)], deliv: &[(usize, u32)]| {
        let record = with(1, 3, 5, m, deliv);
        [send_number(record, 0, 0, &[], 2048), deliver_number(record, &shelf, 2048, 64)]
    };
    assert_eq!(numbers(&[(1, 0, TOP - 1)], &[(0, TOP - 1)]), [0, 0]);
    assert_eq!(numbers(&[(1, 2, TOP)], &[]), [5, 5]);
    assert_eq!(numbers(&[], &[(2, TOP)]), [5, 5]);
    assert_eq!(numbers(&[(0, 2, TOP), (2, 0, TOP)], &[]), [0, 0]);
    let limit = with(1, 3, 5, &[(1, 2, TOP)], &[(0, TOP)]);
    assert_eq!(send_number(limit, 1, 0, &[], 2048), 5);
    assert_eq!(offer_number(limit, &draft(USER, 2, 1, 3, 5, &[], &[]).bytes(), &shelf), 0);
    let mut out = [0; 2048];
    let (_, after) = send(with(1, 3, 5, &[(1, 0, TOP - 1)], &[]), 0, 0, &[], &mut out);
    assert_eq!(after.entry(1, 0), TOP);
}

#[test]
fn checks_6_and_7() {
    let numbers = [0, 1, 2, 3, 4, 12, 256, 258, usize::MAX].map(|to| send_number(sample(), to, 0, &[], 2048));
    assert_eq!(numbers, [0, 6, 0, 6, 6, 6, 6, 6, 6]);
    assert_eq!(
        [0, 64, 65, 256, 257].map(|length| send_number(sample(), 0, 0, &vec![1; length], 2048)),
        [0, 0, 7, 7, 7]
    );
    assert_eq!(send_number(sample(), 1, 0, &[0; 65], 2048), 6);
}

#[test]
fn check_8() {
    let number = |bytes: &[u8]| offer_number(sample(), bytes, &empty_shelf());
    for length in [0, 1, 4, 11, 803, 65_548] {
        let mut bytes = vec![0; length];
        repair(&mut bytes);
        assert_eq!(number(&bytes), 8, "{length}");
    }
    for length in [12, 802] {
        let mut bytes = vec![0; length];
        repair(&mut bytes);
        assert_eq!(number(&bytes), 9, "{length}");
    }
    let bytes = sound().bytes();
    for index in bytes.len() - 4..bytes.len() {
        let mut wrong = bytes.clone();
        wrong[index] ^= 1;
        assert_eq!(number(&wrong), 8);
    }
    let mut wrong_count = bytes.clone();
    let at = bytes.len() - 4;
    wrong_count[at] += 1;
    repair_sum(&mut wrong_count);
    assert_eq!([number(&bytes), number(&wrong_count), number(&bytes[..at])], [0, 8, 8]);
}

#[test]
fn checks_9_and_10() {
    assert_eq!([0, 1, 3, 255].map(|kind| changed(|draft| draft.kind = kind)), [9, 0, 9, 9]);
    assert_eq!(changed(|draft| draft.zero = 1), 9);
    assert_eq!(changed(|draft| (draft.kind, draft.n) = (3, 4)), 9);
    assert_eq!([2, 3, 4].map(|n| changed(|draft| draft.n = n)), [10, 0, 10]);
    let caps = [0, 1, 2, 3, 4, 5, 6, 9, 10, 12, 255];
    assert_eq!(caps.map(|cap| changed(|draft| draft.cap = cap)), [10, 10, 10, 0, 0, 0, 0, 0, 10, 10, 10]);
    assert_eq!([0, 1, 3, 255].map(|from| changed(|draft| draft.from = from)), [0, 10, 10, 10]);
    assert_eq!([0, 1, 2, 3, 255].map(|to| changed(|draft| draft.to = to)), [10, 0, 12, 10, 10]);
}

#[test]
fn check_11_lengths() {
    assert_eq!([0, 64, 65, 255].map(|b| changed(|draft| draft.body = vec![3; b])), [0, 0, 11, 11]);
    let extra = |body: &[u8]| offered(&draft(EXTRA, 0, 1, 3, 5, &[(0, 1, 3)], body));
    assert_eq!([extra(&[]), extra(&[1])], [0, 11]);
    for (index, byte) in [(3, 2), (3, 4), (4, 3), (4, 5), (3, 255), (4, 255)] {
        let mut bytes = sound().bytes();
        bytes[index] = byte;
        repair(&mut bytes);
        assert_eq!(offer_number(sample(), &bytes, &empty_shelf()), 11);
    }
}

/// The numbers for a frame with this cap and so many entries: of its offer to a node of four with another cap, and of a
/// deliver there where it is held.
fn carried(receiver: usize, cap: u8, count: usize) -> [u8; 2] {
    let places = [(0, 1, 1), (0, 2, 1), (0, 3, 1), (2, 1, 1), (2, 3, 1), (3, 1, 1), (3, 2, 1)];
    let frame = draft(USER, 0, 1, 4, cap, &places[..count], &[]).bytes();
    let (held, shelf) = holding(fresh(1, 4, receiver), std::slice::from_ref(&frame));
    [offer_number(fresh(1, 4, receiver), &frame, &empty_shelf()), deliver_number(held, &shelf, 2048, 64)]
}

#[test]
fn check_11_entry_count_is_held_to_the_frames_own_cap() {
    for receiver in [4, 5, 6, 16] {
        for cap in 4..=6 {
            assert_eq!(carried(receiver, cap, cap as usize), [0, 0], "cap {cap} to {receiver}");
            assert_eq!(carried(receiver, cap, cap as usize + 1), [11, 4], "cap {cap} to {receiver}");
        }
        assert_eq!([3, 4, 16, 17].map(|cap| carried(receiver, cap, 3)), [[10, 4], [0, 0], [0, 0], [10, 4]]);
        // 10 stands in front of 11.
        assert_eq!([3, 17].map(|cap| carried(receiver, cap, 4)), [[10, 4]; 2]);
    }
}

#[test]
fn trim_is_by_the_nodes_own_cap() {
    // Seven entries of the frame's cap 7, of which four are not in column 1.
    let places = [(0, 1, 1), (0, 2, 1), (0, 3, 1), (2, 1, 1), (2, 3, 1), (3, 1, 1), (3, 2, 1)];
    let frame = draft(USER, 0, 1, 4, 7, &places, &[]).bytes();
    let delivered = |cap, kept: &[(usize, usize, u32)]| {
        let record = with(1, 4, cap, kept, &[(2, 1), (3, 1), (0, 1)]);
        let (record, mut shelf) = holding(record, std::slice::from_ref(&frame));
        match deliver(record, &mut shelf, &mut [0; 2048], &mut [0; 64]) {
            (DeliverAnswer::Delivered(delivery), after) => (delivery.extras, delivery.bytes, after.standing()),
            other => panic!("{other:?}"),
        }
    };
    assert_eq!(delivered(4, &[]), (0, 0, 4));
    assert_eq!([4, 5, 16].map(|cap| delivered(cap, &[(1, 0, 1)])), [(1, 24, 4), (0, 0, 5), (0, 0, 5)]);
    let five = [(1, 0, 1), (1, 2, 1), (2, 0, 1), (3, 0, 1), (1, 3, 1)];
    assert_eq!([5, 8, 9].map(|cap| delivered(cap, &five)), [(2, 60, 5), (1, 30, 7), (0, 0, 9)]);
}

#[test]
fn check_11_entries() {
    let number = |kind, triples: &[(usize, usize, u32)]| offered(&draft(kind, 0, 1, 3, 5, triples, &[]));
    assert_eq!(number(USER, &[(0, 1, 3), (2, 1, 1)]), 0);
    assert_eq!(number(USER, &[(0, 1, 3), (3, 1, 1)]), 11);
    assert_eq!(number(USER, &[(0, 1, 3), (2, 3, 1)]), 11);
    assert_eq!(number(USER, &[(0, 1, 3), (2, 2, 1)]), 11);
    assert_eq!(number(USER, &[(0, 1, 3), (2, 0, 1)]), 11);
    assert_eq!([0, 1, TOP, TOP + 1].map(|value| number(USER, &[(0, 1, 3), (2, 1, value)])), [11, 0, 0, 11]);
    assert_eq!(number(USER, &[(0, 1, 3), (0, 1, 4)]), 11);
    assert_eq!(number(USER, &[(2, 1, 1), (0, 1, 3)]), 11);
    assert_eq!(number(USER, &[(0, 2, 1), (0, 1, 3)]), 11);
    assert_eq!([number(USER, &[(0, 1, 3), (0, 2, 1)]), number(EXTRA, &[(0, 1, 3), (0, 2, 1)])], [0, 11]);
    assert_eq!(number(EXTRA, &[(0, 1, 3), (2, 1, 1)]), 0);
}

#[test]
fn check_12() {
    assert_eq!([1, 2].map(|to| changed(|draft| draft.to = to)), [0, 12]);
    assert_eq!(offered(&draft(USER, 1, 0, 3, 5, &[(1, 2, 9)], &[])), 12);
}

#[test]
fn check_13() {
    assert_eq!([1, 2].map(|value| changed(|draft| draft.set(1, 2, value))), [0, 13]);
    let number = |value| offered(&draft(USER, 2, 1, 3, 5, &[(1, 0, value), (2, 1, 1)], &[]));
    assert_eq!([number(2), number(3)], [0, 13]);
    assert_eq!(changed(|draft| draft.entries = entries(&[(1, 2, 2)])), 13);
}

#[test]
fn check_14() {
    assert_eq!([1, 2, 3, 4].map(|value| changed(|draft| draft.set(0, 1, value))), [14, 14, 0, 0]);
    assert_eq!(changed(|draft| draft.entries.clear()), 14);
    let first = draft(USER, 0, 1, 3, 5, &[], &[]).bytes();
    assert_eq!(offer_number(with(1, 3, 5, &[], &[(0, 1)]), &first, &empty_shelf()), 14);
    assert_eq!(offer_number(with(1, 3, 5, &[], &[]), &first, &empty_shelf()), 0);
}

#[test]
fn a_number_past_the_limit_is_held() {
    let frame = draft(USER, 0, 1, 3, 5, &[(0, 1, TOP)], &[]).bytes();
    let record = with(1, 3, 5, &[], &[(0, TOP)]);
    assert_eq!(offer_number(record, &frame, &empty_shelf()), 0);
    let (record, shelf) = holding(record, &[frame]);
    assert_eq!(deliver_number(record, &shelf, 2048, 64), 5);
    let (record, mut shelf) = holding(with(1, 3, 5, &[], &[(0, TOP - 1)]), &[frame_number_top()]);
    let (answer, after) = deliver(record, &mut shelf, &mut [0; 2048], &mut [0; 64]);
    assert!(matches!(answer, DeliverAnswer::Delivered(delivery) if delivery.number == TOP));
    assert_eq!(after.deliv[0], TOP);
}

/// A frame with number 1,000,000,000 from 0.
fn frame_number_top() -> Vec<u8> {
    draft(USER, 0, 1, 3, 5, &[(0, 1, TOP - 1)], &[]).bytes()
}

/// Waiting frames from 0 for the sample, so many of them, numbered from 5.
fn waiting(count: usize) -> Vec<Vec<u8>> {
    (0..count).map(|index| draft(USER, 0, 1, 3, 5, &[(0, 1, 4 + index as u32)], &[]).bytes()).collect()
}

#[test]
fn checks_15_and_16() {
    let number = |count, frame: &[u8]| {
        let (record, shelf) = holding(sample(), &waiting(count));
        offer_number(record, frame, &shelf)
    };
    let ready = sound().bytes();
    let late = draft(USER, 0, 1, 3, 5, &[(0, 1, 40)], &[]).bytes();
    let twin = draft(EXTRA, 0, 1, 3, 5, &[(0, 1, 4)], &[]).bytes();
    assert_eq!([0, 14, 15, 16].map(|count| number(count, &ready)), [0, 0, 0, 16]);
    assert_eq!([0, 14, 15, 16].map(|count| number(count, &late)), [0, 0, 16, 16]);
    assert_eq!([0, 1, 14, 15, 16].map(|count| number(count, &twin)), [0, 15, 15, 15, 15]);
}

#[test]
fn sixteen_waiting_frames_are_none() {
    let (record, mut shelf) = holding(sample(), &waiting(16));
    let (answer, after) = deliver(record, &mut shelf, &mut [0; 2048], &mut [0; 64]);
    assert_eq!((answer, after), (DeliverAnswer::None { looked: 16 }, record));
}

#[test]
fn of_two_checks_met_the_lower_is_given() {
    let shelf = empty_shelf();
    let limit = with(1, 3, 5, &[(1, 2, TOP)], &[]);
    let broken = Record { held: 17, ..limit };
    assert_eq!([send_number(broken, 1, 0, &[], 0), send_number(limit, 1, 0, &[], 0)], [2, 3]);
    assert_eq!([send_number(limit, 1, 0, &[0; 65], 2048), send_number(sample(), 1, 0, &[0; 65], 2048)], [5, 6]);
    let torn = Record { held: 1, ..limit };
    assert_eq!([deliver_number(broken, &[], 0, 0), deliver_number(torn, &shelf, 0, 0)], [2, 3]);
    assert_eq!([deliver_number(torn, &shelf, 2048, 64), deliver_number(limit, &shelf, 2048, 64)], [4, 5]);
    assert_eq!([offer_number(broken, &[], &[]), offer_number(torn, &[], &[])], [2, 3]);
    assert_eq!([offer_number(torn, &[], &shelf), offer_number(sample(), &[], &shelf)], [4, 8]);
}

#[test]
fn of_two_checks_met_by_a_frame_the_lower_is_given() {
    let mut eight = draft(3, 0, 1, 4, 5, &[], &[]).bytes();
    eight[7] = 1;
    assert_eq!(offer_number(sample(), &eight, &empty_shelf()), 8);
    assert_eq!(offered(&draft(3, 0, 1, 4, 5, &[], &[])), 9);
    assert_eq!(offered(&draft(USER, 0, 1, 4, 5, &[(2, 2, 0)], &[])), 10);
    assert_eq!(offered(&draft(USER, 0, 2, 3, 5, &[(2, 2, 0)], &[])), 11);
    assert_eq!(offered(&draft(USER, 0, 2, 3, 5, &[(1, 2, 9)], &[])), 12);
    assert_eq!(offered(&draft(USER, 0, 1, 3, 5, &[(1, 2, 9)], &[])), 13);
    assert_eq!(offered(&draft(USER, 0, 1, 3, 5, &[(1, 2, 1)], &[])), 14);
    let (record, shelf) = holding(sample(), &waiting(16));
    assert_eq!(offer_number(record, &draft(USER, 0, 1, 3, 5, &[(0, 1, 2)], &[]).bytes(), &shelf), 14);
    assert_eq!(offer_number(record, &waiting(1)[0], &shelf), 15);
}
