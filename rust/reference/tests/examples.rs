//! The shop examples of document 01.

mod common;

use common::*;
use reference::frame::{Entry, EXTRA, USER};
use reference::list::List;
use reference::*;

const ORDER: [u8; 13] = [0x01, 0x00, 0x01, 0x00, 0x01, 0x03, 0x03, 0x00, 0x4F, 0x09, 0x00, 0x51, 0x03];

#[test]
fn a_fresh_node_sends_one_letter() {
    let mut out = [0xEE; 2048];
    let (answer, record) = send(fresh(0, 3, 3), 1, 1, b"O", &mut out);
    assert_eq!(answer, SendAnswer::Sent { bytes: 13, extras: 0 });
    assert_eq!(out[..13], ORDER);
    assert_eq!(record, with(0, 3, 3, &[(0, 1, 1)], &[]));
    assert!(out[13..].iter().all(|byte| *byte == 0xEE));
}

#[test]
fn a_wrong_sum_is_8() {
    let mut wrong = ORDER;
    wrong[11] = 0x52;
    assert_eq!(offer_number(fresh(1, 3, 3), &ORDER, &empty_shelf()), 0);
    assert_eq!(offer_number(fresh(1, 3, 3), &wrong, &empty_shelf()), 8);
}

#[test]
fn set_up_takes_caps_to_n_times_n() {
    assert_eq!(set_up(0, 2, 4).0, Ok(()));
    assert_eq!(set_up(0, 2, 5), (Err(1), Record::ZERO));
    assert_eq!(set_up(0, 1, 1), (Err(1), Record::ZERO));
}

#[test]
fn body_and_destination() {
    assert_eq!(send_number(fresh(0, 3, 3), 1, 1, &[b'O'; 64], 2048), 0);
    assert_eq!(send_number(fresh(0, 3, 3), 1, 1, &[b'O'; 65], 2048), 7);
    assert_eq!(send_number(fresh(0, 3, 3), 0, 1, b"O", 2048), 6);
}

#[test]
fn a_delivery_trims_the_lowest_of_the_fullest_columns() {
    let mut list = List::alike(3, 3).unwrap();
    for (i, j) in [(0, 1), (0, 2), (1, 2), (1, 0), (2, 1), (2, 0)] {
        assert!(matches!(list.send(i, j, 0, &[]), SendAnswer::Sent { extras: 0, .. }));
    }
    assert_eq!(list.offer(0, 3), OfferAnswer::Held { held: 1, deliverable: true });
    list.deliver(0);
    assert_eq!(list.seats[0].record.standing(), 3);
    list.offer(0, 5);
    let (answer, _) = list.deliver(0);
    let DeliverAnswer::Delivered(delivery) = answer else { panic!("{answer:?}") };
    assert_eq!((delivery.kind, delivery.from, delivery.number, delivery.looked), (USER, 2, 1, 1));
    assert_eq!((delivery.body, delivery.bytes, delivery.extras), (0, 24, 1));
    let extra = list.frame(6);
    assert_eq!((extra.kind(), extra.from(), extra.to(), extra.number()), (EXTRA, 0, 1, 2));
    assert_eq!(extra.entries().collect::<Vec<Entry>>(), entries(&[(0, 1, 1), (2, 1, 1)]));
    let left: Vec<Entry> = list.seats[0].record.entries().collect();
    assert_eq!(left, entries(&[(0, 1, 2), (0, 2, 1), (1, 2, 1)]));
}

#[test]
fn a_frame_offered_again() {
    let mut list = List::alike(3, 3).unwrap();
    list.send(0, 1, 2, b"x");
    assert_eq!(list.offer(1, 0), OfferAnswer::Held { held: 1, deliverable: true });
    assert_eq!(list.offer(1, 0), OfferAnswer::Refused(15));
    assert_eq!(list.deliver(1).1, b"x");
    assert_eq!(list.offer(1, 0), OfferAnswer::Refused(14));
}

#[test]
fn the_sixteenth_place_is_for_a_deliverable_frame() {
    let mut list = List::alike(3, 3).unwrap();
    for _ in 0..18 {
        list.send(0, 1, 0, &[]);
    }
    for issue in 1..16 {
        assert_eq!(list.offer(1, issue), OfferAnswer::Held { held: issue, deliverable: false });
    }
    assert_eq!(list.offer(1, 16), OfferAnswer::Refused(16));
    assert_eq!(list.offer(1, 0), OfferAnswer::Held { held: 16, deliverable: true });
    assert_eq!(list.offer(1, 5), OfferAnswer::Refused(15));
    assert_eq!(list.offer(1, 17), OfferAnswer::Refused(16));
    let (answer, _) = list.deliver(1);
    assert!(matches!(answer, DeliverAnswer::Delivered(delivery) if delivery.looked == 16 && delivery.number == 1));
}

#[test]
fn an_extra_delivered_changes_only_the_count() {
    let record = with(1, 3, 3, &[(0, 2, 4)], &[(0, 1), (2, 1)]);
    let extra = draft(EXTRA, 0, 1, 3, 3, &[(0, 1, 1), (2, 1, 1)], &[]).bytes();
    let (record, mut shelf) = holding(record, &[extra]);
    let (mut out, mut body) = (vec![9; 2048], vec![9; 64]);
    let (answer, after) = deliver(record, &mut shelf, &mut out, &mut body);
    let delivery = node::Delivery { kind: EXTRA, from: 0, number: 2, looked: 1, body: 0, bytes: 0, extras: 0 };
    assert_eq!(answer, DeliverAnswer::Delivered(delivery));
    assert_eq!(after, with(1, 3, 3, &[(0, 2, 4)], &[(0, 2), (2, 1)]));
    assert_eq!((shelf, out, body), (empty_shelf(), vec![9; 2048], vec![9; 64]));
}

#[test]
fn a_send_clears_its_column_but_for_its_own_count() {
    let record = with(0, 4, 6, &[(0, 1, 2), (2, 1, 3), (3, 1, 4), (2, 3, 5)], &[]);
    let mut out = [0; 2048];
    let (answer, after) = send(record, 1, 0, &[], &mut out);
    assert_eq!(answer, SendAnswer::Sent { bytes: 36, extras: 0 });
    assert_eq!(after, with(0, 4, 6, &[(0, 1, 3), (2, 3, 5)], &[]));
    let carried = frame::Frame::first_of(&out).unwrap();
    assert_eq!(carried.number(), 3);
    assert_eq!(carried.entries().collect::<Vec<Entry>>(), entries(&[(0, 1, 2), (2, 1, 3), (2, 3, 5), (3, 1, 4)]));
}

#[test]
fn a_later_place_is_delivered_first_and_the_rest_moves_down() {
    let waiting = draft(USER, 0, 1, 3, 5, &[(0, 1, 1)], b"second").bytes();
    let ready = draft(USER, 2, 1, 3, 5, &[(2, 0, 7)], b"ready").bytes();
    let other = draft(USER, 0, 1, 3, 5, &[(0, 1, 2), (0, 2, 1)], b"third").bytes();
    let (record, mut shelf) = holding(fresh(1, 3, 5), &[waiting.clone(), ready, other.clone()]);
    let (mut out, mut body) = ([0; 2048], [0; 64]);
    let (answer, after) = deliver(record, &mut shelf, &mut out, &mut body);
    let delivery = node::Delivery { kind: USER, from: 2, number: 1, looked: 2, body: 5, bytes: 0, extras: 0 };
    assert_eq!(answer, DeliverAnswer::Delivered(delivery));
    assert_eq!(&body[..6], b"ready\0");
    let (record, left) = holding(with(1, 3, 5, &[(2, 0, 7)], &[(2, 1)]), &[waiting, other]);
    assert_eq!((after, &shelf), (record, &left));
    let (answer, after) = deliver(after, &mut shelf, &mut out, &mut body);
    assert_eq!((answer, after), (DeliverAnswer::None { looked: 2 }, record));
    assert_eq!(shelf, left);
}
