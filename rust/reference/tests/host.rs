//! The host's calls: the order of their checks, what they write, and that a refusal leaves every byte.

mod common;

use common::*;
use reference::frame::USER;
use reference::host::{self, ANSWER};
use reference::image::Image;
use reference::node::OUTPUT;
use reference::*;

/// What stands in an answer before a call.
const MARK: u8 = 0xA5;
/// An answer that a call left.
const LEFT: [u8; 20] = [MARK; 20];

/// Node 1 of three with one frame held that waits, and its shelf.
fn state() -> (Record, Vec<u8>) {
    let waiting = draft(USER, 0, 1, 3, 3, &[(0, 1, 1)], b"two").bytes();
    holding(fresh(1, 3, 3), &[waiting])
}

/// The frame for which the held one waits.
fn first() -> Vec<u8> {
    draft(USER, 0, 1, 3, 3, &[], b"one").bytes()
}

/// An image whose record breaks a rule, with a right trailer.
fn unruly() -> Image {
    Record { held: 17, ..fresh(1, 3, 3) }.to_image()
}

/// A call on an image, a shelf and an answer.
type Call<'a> = &'a mut dyn FnMut(&mut [u8], &mut [u8], &mut [u8]) -> u8;

/// The numbers that send, offer and deliver give with an answer of this length and the other buffers as they must be;
/// each refused call leaves all.
fn numbers(image: &[u8], answer_length: usize) -> [u8; 3] {
    let (mut out, mut body, mut answer) = ([0; OUTPUT], [0; 64], vec![MARK; answer_length]);
    let shelf = state().1;
    let mut number = |call: Call| {
        let (mut after, mut after_shelf) = (image.to_vec(), shelf.clone());
        let number = call(&mut after, &mut after_shelf, &mut answer);
        let left = after == image && after_shelf == shelf && answer == vec![MARK; answer_length];
        assert_eq!(left, number != 0);
        answer.fill(MARK);
        number
    };
    [
        number(&mut |image, _, answer| host::send(image, 0, 0, &[], &mut out, answer)),
        number(&mut |image, shelf, answer| host::offer(image, &first(), shelf, answer)),
        number(&mut |image, shelf, answer| host::deliver(image, shelf, &mut [0; OUTPUT], &mut body, answer)),
    ]
}

#[test]
fn set_up_looks_at_its_numbers_and_then_at_the_length_alone() {
    for length in [0, 1, 628, 631, 632, 633, 1000] {
        let mut image = vec![MARK; length];
        assert_eq!(host::set_up(&mut image, 3, 3, 3), 1);
        assert_eq!(image, vec![MARK; length]);
        let number = host::set_up(&mut image, 2, 3, 4);
        assert_eq!(number, if length == 632 { 0 } else { 20 });
        assert!(number == 0 || image == vec![MARK; length]);
        assert!(number != 0 || image == fresh(2, 3, 4).to_image());
    }
}

#[test]
fn an_image_of_another_length_a_bad_trailer_or_a_broken_rule_is_20() {
    let sound = state().0.to_image();
    let mut images = vec![sound[..631].to_vec(), [&sound[..], &[0]].concat(), vec![], unruly().to_vec()];
    for index in [0, 3, 627, 628, 629, 630, 631] {
        let mut damaged = sound;
        damaged[index] ^= 1;
        images.push(damaged.to_vec());
    }
    for image in images {
        for answer_length in [0, 10, 11, 20] {
            assert_eq!(numbers(&image, answer_length), [20; 3], "{} bytes", image.len());
        }
    }
}

#[test]
fn an_answer_of_fewer_than_eleven_bytes_is_3_behind_20() {
    let waits = state().0.to_image();
    for length in 0..ANSWER {
        assert_eq!(numbers(&waits, length), [3; 3]);
    }
    // A deliver of none writes the answer alone, which `numbers` takes for a call that is not refused.
    let (mut image, mut shelf) = (waits, state().1);
    let mut answer = LEFT;
    assert_eq!(host::deliver(&mut image, &mut shelf, &mut [0; OUTPUT], &mut [0; 64], &mut answer), 0);
    assert_eq!((image, shelf), (waits, state().1));
    assert_eq!(answer[..ANSWER], [0, 0, 0, 0, 0, 0, 1, 0, 0, 0, 0]);
    assert_eq!(answer[ANSWER..], LEFT[ANSWER..]);
}

#[test]
fn a_short_answer_stands_in_front_of_4_and_5() {
    let mut limit = with(1, 3, 3, &[], &[(2, 1_000_000_000)]).to_image();
    assert_eq!(host::send(&mut limit, 1, 0, &[0; 65], &mut [0; OUTPUT], &mut [0; 10]), 3);
    assert_eq!(host::send(&mut limit, 1, 0, &[0; 65], &mut [0; OUTPUT], &mut [0; 11]), 5);
    let mut image = fresh(1, 3, 3).to_image();
    let mut shelf = state().1;
    assert_eq!(host::offer(&mut image, &[], &mut shelf, &mut [0; 10]), 3);
    assert_eq!(host::offer(&mut image, &[], &mut shelf, &mut [0; 11]), 4);
}

#[test]
fn a_send_answers_with_extra_frames_and_frame_bytes_alone() {
    let (mut image, mut out, mut answer) = (fresh(0, 3, 3).to_image(), [MARK; OUTPUT], LEFT);
    assert_eq!(host::send(&mut image, 1, 1, b"O", &mut out, &mut answer), 0);
    assert_eq!(answer[..ANSWER], [0, 0, 0, 0, 0, 0, 0, 0, 0, 13, 0]);
    assert_eq!(answer[ANSWER..], LEFT[ANSWER..]);
    assert_eq!(image, with(0, 3, 3, &[(0, 1, 1)], &[]).to_image());
    assert_eq!(out[..14], [1, 0, 1, 0, 1, 3, 3, 0, 0x4F, 9, 0, 0x51, 3, MARK]);
}

#[test]
fn an_offer_answers_with_zeros_and_a_delivery_names_its_frame() {
    let ((record, mut shelf), mut answer) = (state(), LEFT);
    let (mut image, mut out, mut body) = (record.to_image(), [0; OUTPUT], [MARK; 64]);
    assert_eq!(host::offer(&mut image, &first(), &mut shelf, &mut answer), 0);
    assert_eq!(answer[..ANSWER], [0; ANSWER]);
    assert_eq!(image, Record { held: 2, ..record }.to_image());
    assert_eq!(host::deliver(&mut image, &mut shelf, &mut out, &mut body, &mut answer), 0);
    assert_eq!(answer[..ANSWER], [1, 0, 1, 0, 0, 0, 2, 3, 0, 0, 0]);
    assert_eq!(answer[ANSWER..], LEFT[ANSWER..]);
    assert_eq!(body[..4], *b"one\xA5");
    assert_eq!(host::deliver(&mut image, &mut shelf, &mut out, &mut body, &mut answer), 0);
    assert_eq!(answer[..ANSWER], [1, 0, 2, 0, 0, 0, 1, 3, 0, 0, 0]);
    assert_eq!(image, with(1, 3, 3, &[], &[(0, 2)]).to_image());
}

#[test]
fn an_answer_has_each_number_in_its_place() {
    let delivery =
        node::Delivery { kind: 2, from: 11, number: 0x0403_0201, looked: 16, body: 64, bytes: 0x0605, extras: 7 };
    let bytes = [2, 11, 1, 2, 3, 4, 16, 64, 7, 5, 6];
    assert_eq!((host::answer_of(&delivery), host::read_answer(&bytes)), (bytes, delivery));
}
