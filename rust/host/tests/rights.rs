//! Who may say what: the classes, both sides of each bound of topics and classes, and that 21 comes last.

mod common;

use common::{cut, delivered, plant, sealed, send, spelled};
use host::sizes::{ANSWER, BODY, IMAGE, OUTPUT};
use host::{lent, topics, Class, Node, Output, Refusal};

/// The number of a send to node 1 at a fresh image of node 0 of 3. A refusal must leave every lent byte.
fn number_of_send(class: usize, body: &[u8]) -> u8 {
    let (mut image, mut out, mut answer) = ([0xA5; IMAGE], [0xA5; OUTPUT], [0xA5; ANSWER]);
    assert_eq!(lent::set_up(&mut image, 0, 3, 3), 0);
    let before = image;
    let number = lent::send(&mut image, 1, class, body, &mut out, &mut answer);
    let left = (image, out, answer) == (before, [0xA5; OUTPUT], [0xA5; ANSWER]);
    assert_eq!(left, number != 0, "{class} {body:?}");
    number
}

/// The same of a [`Node`].
fn number_of_node(class: Class, body: &[u8]) -> u8 {
    let mut node = Node::set_up(0, 3, 3).unwrap();
    let before = *node.bytes();
    let number = node.send(1, class, body, &mut Output::new()).map_or_else(Refusal::number, |_| 0);
    assert_eq!(*node.bytes() == before, number != 0, "{class:?} {body:?}");
    number
}

#[test]
fn who_may_say_what_on_both_sides_of_each_bound() {
    let topics = [0, 31, 32, 95, 96, 127, 128, 255];
    let numbers = [
        (0, [0, 0, 21, 21, 21, 21, 0, 0]),
        (1, [21, 21, 0, 0, 21, 21, 0, 0]),
        (2, [21, 21, 21, 21, 0, 0, 0, 0]),
        (3, [21, 21, 21, 21, 21, 21, 0, 0]),
        (4, [21; 8]),
        (255, [21; 8]),
        (256, [21; 8]),
        (1 << 32, [21; 8]),
        (usize::MAX / 4 + 1, [21; 8]),
        (usize::MAX, [21; 8]),
    ];
    for (class, numbers) in numbers {
        assert_eq!(topics.map(|topic| number_of_send(class, &[topic])), numbers, "{class}");
        // The bytes behind the topic do not count.
        assert_eq!(topics.map(|topic| number_of_send(class, &[topic, !topic])), numbers, "{class}");
        if let Some(class) = Class::of(class) {
            assert_eq!(topics.map(|topic| number_of_node(class, &[topic; BODY])), numbers, "{class:?}");
        }
    }
}

#[test]
fn the_ranges_of_topics_are_those_of_the_linked_code() {
    for topic in 0..=255 {
        let within =
            [topics::MOTION, topics::EXPOSURE, topics::FILING, topics::NOTES].map(|group| group.contains(&topic));
        assert_eq!(within.map(usize::from).iter().sum::<usize>(), 1, "{topic}");
        let [motion, exposure, filing, notes] = within;
        let may = [motion || notes, exposure || notes, filing || notes, notes, false];
        let numbers = may.map(|may| if may { 0 } else { 21 });
        assert_eq!([0, 1, 2, 3, 4].map(|class| number_of_send(class, &[topic])), numbers, "{topic}");
    }
}

#[test]
fn an_empty_body_is_a_note_that_every_class_may_send() {
    assert_eq!([0, 1, 2, 3, 4, 1 << 32].map(|class| number_of_send(class, &[])), [0, 0, 0, 0, 21, 21]);
    assert_eq!(topics::EMPTY, 128);
    for class in Class::ALL {
        assert_eq!([&[][..], &[topics::EMPTY]].map(|body| number_of_node(class, body)), [0; 2], "{class:?}");
    }
}

#[test]
fn the_right_is_the_last_check() {
    let mut fresh = [0; IMAGE];
    assert_eq!(lent::set_up(&mut fresh, 0, 3, 3), 0);
    let mut counted_out = fresh[..IMAGE - 4].to_vec();
    counted_out[3 + 4..3 + 8].copy_from_slice(&1_000_000_000_u32.to_le_bytes());
    let (mut counted_out, mut damaged) = (sealed(counted_out), fresh.to_vec());
    damaged[IMAGE - 1] ^= 1;
    let (class, long) = (Class::Panel.number(), [0; BODY + 1]);
    let (mut out, mut answer) = ([0; OUTPUT], [0; ANSWER]);
    assert_eq!(lent::send(&mut damaged, 0, class, &long, &mut out[1..], &mut answer), 20);
    assert_eq!(lent::send(&mut counted_out, 0, class, &long, &mut out[1..], &mut answer), 3);
    assert_eq!(lent::send(&mut counted_out, 0, class, &long, &mut out, &mut answer), 5);
    assert_eq!(lent::send(&mut fresh, 0, class, &long, &mut out, &mut answer), 6);
    assert_eq!(lent::send(&mut fresh, 1, class, &long, &mut out, &mut answer), 7);
    assert_eq!(lent::send(&mut fresh, 1, class, &long[1..], &mut out, &mut answer), 21);
    assert_eq!([3, 4, usize::MAX].map(|class| number_of_send(class, &long)), [7; 3]);
    assert_eq!((number_of_node(Class::Panel, &long), number_of_node(Class::Panel, &long[1..])), (7, 21));
}

/// Node 0 of 4 with cap 4 and four counts in its matrix, none of them in column 1: a send to 1 issues an extra frame.
fn with_four_counts() -> Node {
    let mut nodes = plant(4, 4);
    for (from, to) in [(1, 2), (1, 3), (1, 0), (2, 3), (2, 0), (3, 2), (3, 0)] {
        let frame = send(&mut nodes[from], to, &[]).remove(0);
        if to == 0 {
            nodes[0].offer(&frame).unwrap();
        }
    }
    assert_eq!(delivered(&mut nodes[0]).len(), 3);
    nodes.remove(0)
}

#[test]
fn a_note_gives_the_same_frames_from_every_class() {
    let frames = [
        spelled(1, 0, 1, 4, 4, &[(1, 2, 1), (1, 3, 1), (2, 3, 1), (3, 2, 1)], b"\x80note"),
        // An extra frame has no topic and needs no right.
        spelled(2, 0, 2, 4, 4, &[(1, 2, 1), (3, 2, 1)], &[]),
    ];
    let left = Class::ALL.map(|class| {
        let (mut node, mut output) = (with_four_counts(), Output::new());
        let sent = node.send(1, class, b"\x80note", &mut output).unwrap();
        assert_eq!((sent.extras, &cut(sent.issued)[..]), (1, &frames[..]), "{class:?}");
        *node.bytes()
    });
    assert!(left.iter().all(|bytes| *bytes == left[0]));
}

#[test]
fn classes_have_the_numbers_0_to_3() {
    assert_eq!(Class::ALL.map(Class::number), [0, 1, 2, 3]);
    assert_eq!([Class::Mover, Class::Camera, Class::Archive, Class::Panel], Class::ALL);
    assert_eq!([0, 1, 2, 3].map(Class::of), Class::ALL.map(Some));
    assert_eq!([4, 255, 256, 1 << 32, usize::MAX].map(Class::of), [None; 5]);
}
