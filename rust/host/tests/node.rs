//! A node: what its calls answer, both sides of each bound, and that it is stored and loaded whole.

mod common;

use common::{before_an_extra, cut, delivered, plant, plant_with, sealed, send, spelled};
use host::sizes::{BODY, FRAME, HELD, IMAGE, NODES, QUEUE, STORED};
use host::{Class, Delivered, Frame, Kind, Node, Output, Refusal};

/// The refusal of a call that must be refused.
fn refused<T>(result: Result<T, Refusal>) -> Refusal {
    match result {
        Ok(_) => panic!("the call was taken"),
        Err(refusal) => refusal,
    }
}

#[test]
fn set_up_takes_its_ranges_and_no_more() {
    for (me, n, cap) in [(0, 2, 2), (1, 2, 4), (11, NODES, 12), (0, NODES, 144), (2, 3, 9)] {
        let node = Node::set_up(me, n, cap).expect("in range");
        assert_eq!((node.me(), node.n(), node.cap(), node.held()), (me, n, cap, 0));
        assert!(node.bytes()[IMAGE..].iter().all(|byte| *byte == 0));
    }
    let far = 1 << 32;
    for (me, n, cap) in [(0, 1, 1), (2, 2, 2), (0, 13, 13), (0, 2, 1), (0, 2, 5), (far, 3, 3), (0, far + 3, 3)] {
        assert_eq!(refused(Node::set_up(me, n, cap)), Refusal::OutOfRange, "{me} {n} {cap}");
    }
}

#[test]
fn a_send_issues_the_frame_of_the_first_example() {
    let mut output = Output::new();
    let mut node = Node::set_up(0, 3, 3).unwrap();
    let sent = node.send(1, Class::Camera, b"O", &mut output).unwrap();
    let example = [0x01, 0x00, 0x01, 0x00, 0x01, 0x03, 0x03, 0x00, 0x4F, 0x09, 0x00, 0x51, 0x03];
    assert_eq!((sent.extras, sent.issued), (0, &example[..]));
    let frame = sent.frames().next().unwrap();
    assert_eq!((frame.kind(), frame.from(), frame.to(), frame.number()), (Some(Kind::User), 0, 1, 1));
}

#[test]
fn a_send_is_refused_for_its_destination_and_its_body() {
    let mut node = Node::set_up(1, 3, 3).unwrap();
    let (before, mut output) = (*node.bytes(), Output::new());
    for to in [1, 3, 12, 256, 1 << 32, usize::MAX] {
        assert_eq!(refused(node.send(to, Class::Mover, &[], &mut output)), Refusal::Destination, "{to}");
    }
    for length in [BODY + 1, 256, 1 << 16] {
        assert_eq!(refused(node.send(0, Class::Mover, &vec![1; length], &mut output)), Refusal::LongBody, "{length}");
    }
    assert_eq!(node.bytes(), &before);
    assert_eq!(send(&mut node, 2, &[]), [spelled(1, 1, 2, 3, 3, &[], &[])]);
    assert_eq!(send(&mut node, 2, &[7; BODY]), [spelled(1, 1, 2, 3, 3, &[(1, 2, 1)], &[7; BODY])]);
}

#[test]
fn an_extra_frame_comes_behind_the_user_frame_and_is_delivered_without_a_body() {
    let (mut nodes, frames) = before_an_extra();
    let mut output = Output::new();
    let delivery = nodes[0].deliver(&mut output).unwrap().frame().unwrap();
    assert_eq!((delivery.kind, delivery.from, delivery.number, delivery.looked), (Kind::User, 2, 1, 1));
    assert_eq!((delivery.extras, delivery.frames().count()), (1, 1));
    let extra = cut(delivery.issued).remove(0);
    assert_eq!(extra, spelled(2, 0, 1, 3, 3, &[(0, 1, 1), (2, 1, 1)], &[]));
    for frame in [&frames[0], &frames[4], &extra] {
        nodes[1].offer(frame).unwrap();
    }
    let kinds = [Kind::User, Kind::User, Kind::Extra].map(|kind| {
        let delivery = nodes[1].deliver(&mut output).unwrap().frame().unwrap();
        assert_eq!((delivery.kind, delivery.body, delivery.extras), (kind, &[][..], 0));
        (delivery.from, delivery.number)
    });
    assert_eq!(kinds, [(0, 1), (2, 1), (0, 2)]);
}

#[test]
fn offers_are_refused_with_their_numbers() {
    let entry = |row, column, value| [(row, column, value)];
    let mut node = Node::set_up(1, 3, 3).unwrap();
    let sound = spelled(1, 0, 1, 3, 3, &[], b"one");
    let mut with_byte_7 = sound[..sound.len() - 4].to_vec();
    with_byte_7[7] = 1;
    let cases = [
        (vec![], Refusal::DamagedFrame),
        (sound[..sound.len() - 1].to_vec(), Refusal::DamagedFrame),
        (vec![1; FRAME + 1], Refusal::DamagedFrame),
        (spelled(3, 0, 1, 3, 3, &[], b"one"), Refusal::UnknownKind),
        (sealed(with_byte_7), Refusal::UnknownKind),
        (spelled(1, 0, 1, 3, 2, &[], b"one"), Refusal::OtherPlant),
        (spelled(1, 0, 1, 3, 10, &[], b"one"), Refusal::OtherPlant),
        (spelled(2, 0, 1, 3, 3, &[], b"one"), Refusal::BadParts),
        (spelled(1, 0, 1, 3, 3, &entry(0, 0, 1), b"one"), Refusal::BadParts),
        (spelled(1, 0, 2, 3, 3, &[], b"one"), Refusal::OtherNode),
        (spelled(1, 0, 1, 3, 3, &entry(1, 2, 1), b"one"), Refusal::NotIssued),
    ];
    for (frame, refusal) in cases {
        assert_eq!(refused(node.offer(&frame)), refusal);
        assert_eq!(node.held(), 0);
    }
    node.offer(&sound).unwrap();
    assert_eq!((refused(node.offer(&sound)), node.held()), (Refusal::Held, 1));
    assert_eq!(delivered(&mut node), [b"one"]);
    assert_eq!((refused(node.offer(&sound)), node.held()), (Refusal::Delivered, 0));
}

#[test]
fn the_sixteenth_place_is_kept_for_a_frame_that_can_be_delivered() {
    let mut nodes = plant(2, 2);
    let frames: Vec<Vec<u8>> = (0..=HELD as u8).flat_map(|body| send(&mut nodes[0], 1, &[body])).collect();
    assert_eq!(frames.len(), HELD + 1);
    for frame in &frames[1..HELD] {
        nodes[1].offer(frame).unwrap();
    }
    assert!(matches!(nodes[1].deliver(&mut Output::new()), Ok(Delivered::None { looked: 15 })));
    assert_eq!(refused(nodes[1].offer(&frames[HELD])), Refusal::QueueFull);
    nodes[1].offer(&frames[0]).unwrap();
    assert_eq!((nodes[1].held(), refused(nodes[1].offer(&frames[HELD]))), (HELD, Refusal::QueueFull));
    assert_eq!(nodes[1].deliver(&mut Output::new()).unwrap().frame().unwrap().looked, HELD);
    let bodies: Vec<Vec<u8>> = (1..HELD as u8).map(|body| vec![body]).collect();
    assert_eq!(delivered(&mut nodes[1]), bodies);
    nodes[1].offer(&frames[HELD]).unwrap();
    assert_eq!((delivered(&mut nodes[1]), nodes[1].held()), (vec![vec![HELD as u8]], 0));
}

#[test]
fn a_node_is_stored_and_loaded_whole() {
    let mut nodes = plant(2, 2);
    let frames = [b"one", b"two"].map(|body| send(&mut nodes[0], 1, body).remove(0));
    nodes[1].offer(&frames[1]).unwrap();
    let stored: Vec<Vec<u8>> = nodes.iter().map(|node| node.bytes().to_vec()).collect();
    drop(nodes);
    let mut nodes: Vec<Node> = stored.iter().map(|bytes| Node::load(bytes.clone()).expect("as stored")).collect();
    assert!(nodes.iter().zip(&stored).all(|(node, bytes)| node.bytes()[..] == bytes[..]));
    assert_eq!((nodes[1].me(), nodes[1].held()), (1, 1));
    nodes[1].offer(&frames[0]).unwrap();
    assert_eq!(delivered(&mut nodes[1]), [b"one", b"two"]);
    let third = send(&mut nodes[0], 1, b"three");
    assert_eq!(Frame::first_of(&third[0]).unwrap().number(), 3);
}

#[test]
fn what_was_not_stored_so_is_not_loaded() {
    let mut nodes = plant(2, 2);
    let frame = send(&mut nodes[0], 1, b"one").remove(0);
    nodes[1].offer(&frame).unwrap();
    let stored = nodes[1].bytes().to_vec();
    for length in [0, 1, IMAGE - 1] {
        assert_eq!(refused(Node::load(stored[..length].to_vec())), Refusal::Image, "{length}");
    }
    for length in [IMAGE, STORED - 1] {
        assert_eq!(refused(Node::load(stored[..length].to_vec())), Refusal::TooShort, "{length}");
    }
    assert_eq!(refused(Node::load([&stored[..], &[0]].concat())), Refusal::TooShort);
    for index in 0..STORED {
        let mut damaged = stored.clone();
        damaged[index] ^= 1;
        let refusal = if index < IMAGE { Refusal::Image } else { Refusal::WrongQueue };
        assert_eq!(refused(Node::load(damaged)), refusal, "byte {index}");
    }
}

#[test]
fn frames_of_any_cap_in_range_are_taken_and_each_node_trims_by_its_own() {
    let mut nodes = plant_with(&[9, 3, 4]);
    // A send and, if it is brought, its delivery; gives its frame and how many extra frames the delivery issued.
    let mut tell = |from: usize, to: usize, bring: bool| {
        let sent = send(&mut nodes[from], to, &[]);
        assert_eq!((sent.len(), usize::from(sent[0][6])), (1, nodes[from].cap()));
        let mut output = Output::new();
        let mut deliver = |frame: &[u8]| {
            nodes[to].offer(frame).expect("a cap in range is no reason to refuse");
            nodes[to].deliver(&mut output).unwrap().frame().unwrap().extras
        };
        (sent[0].clone(), if bring { deliver(&sent[0]) } else { 0 })
    };
    for (from, to, bring) in [(1, 2, false), (0, 1, true), (0, 2, false), (1, 0, true), (2, 0, true), (2, 1, true)] {
        assert_eq!(tell(from, to, bring).1, 0);
    }
    assert_eq!(tell(2, 0, true).1, 0);
    // Node 1 keeps three entries and is brought four, of which one is new to it.
    let (frame, extras) = tell(0, 1, true);
    assert_eq!((frame[3], frame[6], extras), (4, 9, 1));
    assert_eq!(nodes.iter().map(Node::cap).collect::<Vec<_>>(), [9, 3, 4]);
}

#[test]
fn an_output_serves_any_calls_and_sizes_are_as_document_01_says() {
    assert_eq!((IMAGE, QUEUE, STORED, NODES, HELD, BODY, FRAME), (632, 12_832, 13_464, 12, 16, 64, 802));
    let (mut nodes, mut output) = (plant(2, 2), Output::default());
    let issued = nodes[0].send(1, Class::Mover, &[9; BODY], &mut output).unwrap().issued.to_vec();
    nodes[1].offer(&issued).unwrap();
    assert_eq!(nodes[1].deliver(&mut output).unwrap().frame().unwrap().body, [9; BODY]);
    let next = nodes[1].send(0, Class::Archive, b"short", &mut output).unwrap().issued.to_vec();
    nodes[0].offer(&next).unwrap();
    assert_eq!(nodes[0].deliver(&mut output).unwrap().frame().unwrap().body, b"short");
}

/// Takes what may go to another thread.
fn is_send_and_sync<T: Send + Sync>(_: &T) {}

#[test]
fn nodes_may_be_used_on_different_threads() {
    let nodes = plant(4, 4);
    nodes.iter().for_each(is_send_and_sync);
    assert_eq!(format!("{:?}", nodes[2]), "Node { me: 2, n: 4, cap: 4, held: 0, .. }");
    let threads: Vec<_> = nodes
        .into_iter()
        .map(|mut node| {
            let to = (node.me() + 1) % 4;
            std::thread::spawn(move || (0..200).map(|body| send(&mut node, to, &[body]).remove(0)).collect::<Vec<_>>())
        })
        .collect();
    for (me, thread) in threads.into_iter().enumerate() {
        let frames = thread.join().expect("the thread's sends are taken");
        let numbers = frames.iter().map(|frame| Frame::first_of(frame).unwrap());
        assert!(numbers.map(|frame| (frame.from(), frame.number())).eq((1..=200).map(|number| (me, number))));
    }
}
