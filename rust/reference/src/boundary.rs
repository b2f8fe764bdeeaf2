//! Lists that reach the largest frame, send and delivery, a full shelf, a full matrix, an extra of a send, and a frame that
//! carries more than its receiver's cap. They run on anything that takes a list's steps, so that one implementation can be
//! tested by them and two can be compared. And sends on both sides of 21, and loads that come to the end of their issues,
//! or have halves in their shares.

use crate::list::List;
use crate::node::Delivery;
use crate::{DeliverAnswer, OfferAnswer, Refusal, SendAnswer};
use std::ops::RangeInclusive;

/// Seeds of loads with 4 nodes and 400 draws that come to the end of their 180 issues under cap 4, which very few do: 177
/// are issued in the end from the first two, 178 from the others.
pub const CROWDED_LOADS: [u32; 4] = [4137459756, 678678812, 3541979015, 12640737];

/// Lines of loads in whose tables a share is an exact half. In each of the first three one goes up and one goes down: 3
/// and 1 extras in 8 user frames, 9 and 3 in 24, 3 and 1 in 40. In the last, 1 in 8 goes down.
pub const HALF_LOADS: [&str; 4] = ["4 1923450 64\n", "4 24 120\n", "4 1 125\n", "3 41 48\n"];

/// The class of a mover.
const MOVER: usize = 0;
/// The class of a camera.
const CAMERA: usize = 1;
/// The class of a panel.
const PANEL: usize = 3;

/// Both sides of every bound between topic groups.
const TOPICS: [u8; 8] = [0, 31, 32, 95, 96, 127, 128, 255];
/// The place of topic 128, which an empty body has, among these.
const EMPTY: usize = 6;

/// Classes, huge ones too that are 0 when cut to a byte or times 4, and the number that a send of each topic gives.
const NUMBERS: [(usize, [Refusal; 8]); 8] = [
    (MOVER, [0, 0, 21, 21, 21, 21, 0, 0]),
    (CAMERA, [21, 21, 0, 0, 21, 21, 0, 0]),
    (2, [21, 21, 21, 21, 0, 0, 0, 0]),
    (PANEL, [21, 21, 21, 21, 21, 21, 0, 0]),
    (4, [21; 8]),
    (256, [21; 8]),
    (usize::MAX / 4 + 1, [21; 8]),
    (usize::MAX, [21; 8]),
];

/// A send at a fresh node 0 of two, or at one that has sent, and the number that it gives, 0 for none.
#[derive(Clone, Debug, PartialEq, Eq)]
pub struct SendCase {
    pub to: usize,
    pub class: usize,
    pub body: Vec<u8>,
    pub number: Refusal,
}

/// Sends of both sides of every topic bound and of an empty body by every class, and sends that meet two checks.
pub fn sends_by_class() -> Vec<SendCase> {
    let mut cases = other_sends();
    for (class, numbers) in NUMBERS {
        cases.push(SendCase { to: 1, class, body: Vec::new(), number: numbers[EMPTY] });
        for (topic, number) in TOPICS.into_iter().zip(numbers) {
            let long = [&[topic][..], &[!topic; 63]].concat();
            cases.extend([vec![topic], long].map(|body| SendCase { to: 1, class, body, number }));
        }
    }
    cases
}

/// Sends that meet 6 or 7 and 21 together, and the letter "O", which is a camera's, once, 64 and 65 times.
fn other_sends() -> Vec<SendCase> {
    let case = |to, class, body: &[u8], number| SendCase { to, class, body: body.to_vec(), number };
    vec![
        case(1, PANEL, &[0; 65], 7),
        case(1, usize::MAX, &[255; 65], 7),
        case(0, PANEL, &[0], 6),
        case(2, usize::MAX, &[], 6),
        case(usize::MAX, 4, &[255; 65], 6),
        case(1, CAMERA, b"O", 0),
        case(1, CAMERA, &[b'O'; 64], 0),
        case(1, CAMERA, &[b'O'; 65], 7),
        case(1, MOVER, b"O", 21),
    ]
}

/// Makes these sends at node 0 of two: a refused one issues nothing, and another one frame with its body.
pub fn who_may_say_what(list: &mut impl Steps) {
    for case in sends_by_class() {
        let before = list.issued().len();
        let number = match list.send(0, case.to, case.class, &case.body) {
            SendAnswer::Refused(number) => number,
            SendAnswer::Sent { .. } => 0,
        };
        assert_eq!(number, case.number, "{case:?}");
        let issued = &list.issued()[before..];
        assert_eq!(issued.len(), usize::from(number == 0), "{case:?}");
        let has_body =
            |frame: &Vec<u8>| frame[4] as usize == case.body.len() && frame[..frame.len() - 4].ends_with(&case.body);
        assert!(issued.iter().all(has_body), "{case:?}");
    }
}

/// What takes a list's steps.
pub trait Steps {
    /// A send at node i with any class.
    fn send(&mut self, i: usize, j: usize, class: usize, body: &[u8]) -> SendAnswer;
    /// An offer of an issued frame, counted from 0, at a node.
    fn offer(&mut self, node: usize, issue: usize) -> OfferAnswer;
    /// A deliver at a node.
    fn deliver(&mut self, node: usize) -> DeliverAnswer;
    /// The frames in issue order.
    fn issued(&self) -> &[Vec<u8>];
}

impl Steps for List {
    fn send(&mut self, i: usize, j: usize, class: usize, body: &[u8]) -> SendAnswer {
        List::send(self, i, j, class, body)
    }

    fn offer(&mut self, node: usize, issue: usize) -> OfferAnswer {
        List::offer(self, node, issue)
    }

    fn deliver(&mut self, node: usize) -> DeliverAnswer {
        List::deliver(self, node).0
    }

    fn issued(&self) -> &[Vec<u8>] {
        &self.issued
    }
}

/// Sends with an empty body, which must be taken; gives the issue.
fn send_ok(list: &mut impl Steps, i: usize, j: usize) -> usize {
    let issue = list.issued().len();
    assert!(matches!(list.send(i, j, MOVER, &[]), SendAnswer::Sent { extras: 0, .. }));
    issue
}

/// Brings an issued frame to its destination, where it must be delivered.
pub fn bring(list: &mut impl Steps, issue: usize) -> Delivery {
    let to = list.issued()[issue][2] as usize;
    assert!(matches!(list.offer(to, issue), OfferAnswer::Held { deliverable: true, .. }));
    match list.deliver(to) {
        DeliverAnswer::Delivered(delivery) => delivery,
        other => panic!("{other:?}"),
    }
}

/// Sends to all of the nodes but itself.
fn send_all(list: &mut impl Steps, i: usize, nodes: RangeInclusive<usize>) {
    for j in nodes.filter(|j| *j != i) {
        send_ok(list, i, j);
    }
}

/// Sends from x to each of the nodes 1 to the last given, and then to 0, where that is delivered.
fn tell(list: &mut impl Steps, x: usize, last: usize) -> Delivery {
    send_all(list, x, 1..=last);
    let issue = send_ok(list, x, 0);
    bring(list, issue)
}

/// Lets node 0 of 12 know of a frame from every other node to each of the nodes 1 to the last given.
fn know(list: &mut impl Steps, last: usize) {
    send_all(list, 0, 1..=last);
    for x in 1..12 {
        assert_eq!(tell(list, x, last).extras, 0);
    }
}

/// The delivery at node 0 of n after which its matrix is full, (n − 1) × (n − 1) entries, under a cap of one less or more.
pub fn full_matrix(list: &mut impl Steps, n: usize) -> Delivery {
    let last = n - 1;
    send_all(list, 0, 1..=last);
    for x in 1..last {
        assert_eq!(tell(list, x, last).extras, 0);
    }
    tell(list, last, last)
}

/// The send to 3 at node 0 of 4 that issues one extra frame, to 1 (cap 4): four entries stand, and the send adds one.
pub fn send_with_an_extra(list: &mut impl Steps) {
    for (i, j) in [(0, 1), (0, 2), (3, 1), (3, 2)] {
        send_ok(list, i, j);
    }
    let issue = send_ok(list, 3, 0);
    assert_eq!(bring(list, issue).extras, 0);
    assert_eq!(list.send(0, 3, MOVER, &[]), SendAnswer::Sent { bytes: 36 + 24, extras: 1 });
}

/// A frame of 802 bytes (n 12, cap 121 or more), held at node 5, where it waits; gives its issue.
pub fn frame_of_802(list: &mut impl Steps) -> usize {
    know(list, 11);
    assert_eq!(list.send(0, 5, PANEL, &[0xFF; 64]), SendAnswer::Sent { bytes: 802, extras: 0 });
    let issue = list.issued().len() - 1;
    assert_eq!(list.offer(5, issue), OfferAnswer::Held { held: 1, deliverable: false });
    assert_eq!(list.deliver(5), DeliverAnswer::None { looked: 1 });
    issue
}

/// A send of 814 bytes in all (n 12, cap 110); gives the issue of its extra frame.
pub fn send_of_814(list: &mut impl Steps) -> usize {
    know(list, 10);
    assert_eq!(list.send(0, 11, MOVER, &[1; 64]), SendAnswer::Sent { bytes: 814, extras: 1 });
    list.issued().len() - 1
}

/// Caps of 12 nodes among which a delivery at node 0 reaches [`delivery_of_846`]: the last has the largest, the nodes
/// between them the least.
pub const CAPS_OF_846: [usize; 12] = [19, 12, 12, 12, 12, 12, 12, 12, 12, 12, 12, 144];

/// A delivery that issues 846 bytes in eleven extra frames, the most that any delivery issues (caps as above).
///
/// Why it is the most: let the frame go from 11 to 0 among 12 nodes, let c be the cap of node 0, and let s entries stand
/// after the merge. The frame carries none of its sender's column, 11, and none of row 0 that node 0 lacks. So it adds at
/// most ten entries to each of ten columns, to at most c that stood before: s is at most 100 + c. Up to ten extra frames
/// have at most 10 × 78 bytes. All eleven have 11 × 12 bytes, and 6 more for each of the s entries. The last of them is
/// issued only if one entry in each of ten columns, and the entries of the least full one, are more than c. If s were 120
/// or more, c would be 20 or more, so every column would have 11 entries, s would be 121 and c 21, and the least full
/// column would need 12. So s is at most 119, and 11 × 12 + 6 × 119 are the most bytes. Here c is 19, nine columns have 11
/// entries, and two have 10. With fewer nodes, ten columns of ten entries have less.
pub fn delivery_of_846(list: &mut impl Steps) {
    send_all(list, 0, 1..=8);
    send_ok(list, 0, 11);
    send_all(list, 11, 1..=10);
    for x in 1..=10 {
        let first = send_ok(list, x, 11);
        let hint = send_ok(list, x, 0);
        assert_eq!(bring(list, hint).extras, 0);
        send_all(list, x, 1..=10);
        let second = send_ok(list, x, 11);
        bring(list, first);
        assert_eq!(bring(list, second).extras, 0);
    }
    let issue = send_ok(list, 11, 0);
    let delivery = bring(list, issue);
    assert_eq!((delivery.bytes, delivery.extras), (846, 11));
}

/// Lets node 0 of n, which has room for a full matrix, send all of it to node 1: (n − 1) × (n − 1) entries, which is more
/// than the least cap for n above 2. Gives the delivery there.
pub fn more_than_the_cap(list: &mut impl Steps, n: usize) -> Delivery {
    assert_eq!(full_matrix(list, n).extras, 0);
    let to_1: Vec<usize> = (0..list.issued().len()).filter(|issue| list.issued()[*issue][2] == 1).collect();
    for issue in to_1 {
        assert_eq!(bring(list, issue).extras, 0);
    }
    let issue = send_ok(list, 0, 1);
    assert_eq!(list.issued()[issue][3] as usize, (n - 1) * (n - 1));
    bring(list, issue)
}

/// A delivery that issues 504 bytes in seven extra frames, the most under one cap for all (n 12, cap 55).
pub fn delivery_of_504(list: &mut impl Steps) {
    send_all(list, 11, 1..=10);
    for x in 6..=10 {
        send_ok(list, x, 11);
    }
    for x in 1..=5 {
        let first = send_ok(list, x, 11);
        let hint = send_ok(list, x, 6);
        bring(list, hint);
        for y in (1..=10).filter(|y| *y != x && *y != 6) {
            send_ok(list, x, y);
        }
        let second = send_ok(list, x, 11);
        bring(list, first);
        bring(list, second);
    }
    for x in 6..=10 {
        send_all(list, x, 1..=10);
        let issue = send_ok(list, x, 0);
        bring(list, issue);
    }
    let issue = list.issued().len();
    assert!(matches!(list.send(11, 0, MOVER, &[]), SendAnswer::Sent { extras: 1, .. }));
    let delivery = bring(list, issue);
    assert_eq!((delivery.bytes, delivery.extras), (504, 7));
}

/// Sixteen frames of 802 bytes to node 5 (n 12, cap 144): fifteen that wait are held, and the last is refused.
pub fn sixteen_of_802(list: &mut impl Steps) {
    know(list, 11);
    let start = list.issued().len();
    for _ in 0..16 {
        list.send(0, 5, MOVER, &[9; 64]);
        for x in (1..12).filter(|x| *x != 5) {
            send_ok(list, x, 5);
            let issue = send_ok(list, x, 0);
            bring(list, issue);
        }
    }
    let issued = list.issued();
    let whole: Vec<usize> = (start..issued.len()).filter(|issue| issued[*issue].len() == 802).collect();
    assert_eq!(whole.len(), 16);
    for (place, issue) in whole.iter().take(15).enumerate() {
        assert_eq!(list.offer(5, *issue), OfferAnswer::Held { held: place + 1, deliverable: false });
    }
    assert_eq!(list.offer(5, whole[15]), OfferAnswer::Refused(16));
    assert_eq!(list.deliver(5), DeliverAnswer::None { looked: 15 });
}
