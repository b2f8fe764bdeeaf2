//! What docs/host.md says happens when a duty is not done, one test for each.

mod common;

use common::{before_an_extra, delivered, plant, send, spelled};
use host::sizes::{ANSWER, HELD, IMAGE, OUTPUT, QUEUE};
use host::{lent, Class, Delivered, Frame, Node, Output, Refusal};

/// The refusal of an offer that must be refused.
fn refused(node: &mut Node, frame: &[u8]) -> Refusal {
    node.offer(frame).expect_err("the frame is refused")
}

/// A deliver of none, and how many frames are held.
fn waits(node: &mut Node) -> usize {
    match node.deliver(&mut Output::new()).expect("a deliver") {
        Delivered::None { looked } => looked,
        Delivered::Frame(delivery) => panic!("{delivery:?}"),
    }
}

#[test]
fn a_queue_that_is_not_all_zero_at_the_start_meets_4() {
    let mut image = [0; IMAGE];
    assert_eq!(lent::set_up(&mut image, 1, 3, 3), 0);
    let frame = send(&mut Node::set_up(0, 3, 3).unwrap(), 1, b"one").remove(0);
    for place in [0, 1, QUEUE / 2, QUEUE - 1] {
        let (mut queue, mut answer) = ([0; QUEUE], [0; ANSWER]);
        queue[place] = 1;
        assert_eq!(lent::offer(&mut image, &frame, &mut queue, &mut answer), 4, "{place}");
        assert_eq!(lent::deliver(&mut image, &mut queue, &mut [0; OUTPUT], &mut [0; 64], &mut answer), 4, "{place}");
    }
}

#[test]
fn without_delivering_the_queue_fills_up_and_16_is_met() {
    let mut nodes = plant(2, 2);
    let frames: Vec<Vec<u8>> = (0..=HELD).map(|_| send(&mut nodes[0], 1, &[]).remove(0)).collect();
    // In order, so that the first can be delivered: the later ones wait for it, and 15 places are for them.
    let refusals: Vec<Option<Refusal>> = frames.iter().map(|frame| nodes[1].offer(frame).err()).collect();
    assert_eq!(refusals.iter().position(|refusal| refusal.is_some()), Some(HELD - 1));
    assert_eq!(refusals[HELD - 1..], [Some(Refusal::QueueFull); 2]);
    assert_eq!(delivered(&mut nodes[1]).len(), HELD - 1);
    nodes[1].offer(&frames[HELD - 1]).expect("there is room again");
}

#[test]
fn one_deliver_an_offer_leaves_frames_behind() {
    let mut nodes = plant(2, 2);
    let frames = [b"one", b"two"].map(|body| send(&mut nodes[0], 1, body).remove(0));
    nodes[1].offer(&frames[1]).unwrap();
    assert_eq!(waits(&mut nodes[1]), 1);
    nodes[1].offer(&frames[0]).unwrap();
    assert_eq!(nodes[1].deliver(&mut Output::new()).unwrap().frame().unwrap().body, b"one");
    // It could be delivered, and no link will bring anything that makes the host call again.
    assert_eq!((nodes[1].held(), delivered(&mut nodes[1])), (1, vec![b"two".to_vec()]));
}

#[test]
fn a_frame_that_was_lost_and_is_not_resent_holds_up_all_that_was_sent_after_it() {
    let mut nodes = plant(3, 3);
    let lost = send(&mut nodes[0], 2, b"lost").remove(0);
    let hint = send(&mut nodes[0], 1, b"hint").remove(0);
    nodes[1].offer(&hint).unwrap();
    assert_eq!(delivered(&mut nodes[1]), [b"hint"]);
    for (index, body) in (0..20).enumerate() {
        let frame = send(&mut nodes[1], 2, &[body]).remove(0);
        let taken = nodes[2].offer(&frame);
        assert_eq!(taken.err(), (index >= HELD - 1).then_some(Refusal::QueueFull), "{index}");
        assert_eq!(waits(&mut nodes[2]), (index + 1).min(HELD - 1));
    }
    nodes[2].offer(&lost).expect("the frame that all wait for is taken");
    assert_eq!(delivered(&mut nodes[2]).len(), HELD);
}

#[test]
fn an_extra_frame_that_is_not_brought_holds_up_what_was_sent_after_it() {
    let (mut nodes, frames) = before_an_extra();
    let mut output = Output::new();
    let extra = nodes[0].deliver(&mut output).unwrap().frame().unwrap().issued.to_vec();
    let next = send(&mut nodes[0], 1, b"next").remove(0);
    for frame in [&frames[0], &frames[4], &next] {
        nodes[1].offer(frame).unwrap();
    }
    assert_eq!(delivered(&mut nodes[1]), [b"", b""]);
    assert_eq!(waits(&mut nodes[1]), 1);
    nodes[1].offer(&extra).unwrap();
    assert_eq!(delivered(&mut nodes[1]), [&b""[..], b"next"]);
}

#[test]
fn a_sender_set_up_anew_gets_its_frames_refused_with_14() {
    let mut nodes = plant(2, 2);
    for body in [b"one", b"two"] {
        let frame = send(&mut nodes[0], 1, body).remove(0);
        nodes[1].offer(&frame).unwrap();
        assert_eq!(delivered(&mut nodes[1]), [body]);
    }
    let mut anew = Node::set_up(0, 2, 2).unwrap();
    let refusals = [b"3rd", b"4th"].map(|body| refused(&mut nodes[1], &send(&mut anew, 1, body)[0]));
    assert_eq!(refusals, [Refusal::Delivered; 2]);
    // Once it has numbered past what it forgot, its frames are taken again: two messages are gone for good.
    let frame = send(&mut anew, 1, b"5th").remove(0);
    nodes[1].offer(&frame).unwrap();
    assert_eq!(delivered(&mut nodes[1]), [b"5th"]);
}

#[test]
fn a_receiver_set_up_anew_waits_for_ever() {
    let mut nodes = plant(2, 2);
    let first = send(&mut nodes[0], 1, b"one").remove(0);
    nodes[1].offer(&first).unwrap();
    assert_eq!(delivered(&mut nodes[1]), [b"one"]);
    // The next frame waits for the first, which was delivered before the power cut and is kept no more.
    let mut anew = Node::set_up(1, 2, 2).unwrap();
    for (held, body) in [b"two", b"3rd"].into_iter().enumerate() {
        anew.offer(&send(&mut nodes[0], 1, body)[0]).unwrap();
        assert_eq!(waits(&mut anew), held + 1);
    }
}

#[test]
fn a_receiver_set_up_anew_meets_13() {
    let mut nodes = plant(3, 3);
    send(&mut nodes[1], 2, b"forgotten");
    let told = send(&mut nodes[1], 0, b"told").remove(0);
    nodes[0].offer(&told).unwrap();
    assert_eq!(delivered(&mut nodes[0]), [b"told"]);
    // The answer tells of the frame from 1 to 2, which the fresh node has not issued.
    let answer = send(&mut nodes[0], 1, b"answer").remove(0);
    let mut anew = Node::set_up(1, 3, 3).unwrap();
    assert_eq!(refused(&mut anew, &answer), Refusal::NotIssued);
    assert!(nodes[1].offer(&answer).is_ok());
}

#[test]
fn an_image_without_its_queue_meets_4() {
    let mut nodes = plant(2, 2);
    let frames = [b"one", b"two"].map(|body| send(&mut nodes[0], 1, body).remove(0));
    let empty = nodes[1].bytes()[IMAGE..].to_vec();
    nodes[1].offer(&frames[1]).unwrap();
    let held = nodes[1].bytes()[IMAGE..].to_vec();
    let with_one = nodes[1].bytes()[..IMAGE].to_vec();
    assert_eq!(Node::load([&with_one[..], &empty].concat()).unwrap_err(), Refusal::WrongQueue);
    nodes[1].offer(&frames[0]).unwrap();
    assert_eq!(delivered(&mut nodes[1]).len(), 2);
    let after = nodes[1].bytes()[..IMAGE].to_vec();
    assert_eq!(Node::load([&after[..], &held].concat()).unwrap_err(), Refusal::WrongQueue);
    assert!(Node::load([&after[..], &empty].concat()).is_ok());
}

#[test]
fn a_stale_node_sends_a_number_again_and_no_check_of_its_own_finds_it() {
    let mut nodes = plant(2, 2);
    let stale = nodes[0].bytes().to_vec();
    let first = send(&mut nodes[0], 1, b"first").remove(0);
    let mut stale = Node::load(stale).expect("it is sound, though not the latest");
    let other = send(&mut stale, 1, b"other").remove(0);
    let numbers = [&first, &other].map(|frame| Frame::first_of(frame).map(|frame| frame.number()));
    assert_eq!(numbers, [Some(1); 2]);
    nodes[1].offer(&first).unwrap();
    assert_eq!(refused(&mut nodes[1], &other), Refusal::Held);
    assert_eq!(delivered(&mut nodes[1]), [b"first"]);
    assert_eq!(refused(&mut nodes[1], &other), Refusal::Delivered);
}

#[test]
fn a_message_delivered_and_then_forgotten_is_delivered_again() {
    let mut nodes = plant(2, 2);
    let frame = send(&mut nodes[0], 1, b"once").remove(0);
    nodes[1].offer(&frame).unwrap();
    let before = nodes[1].bytes().to_vec();
    assert_eq!(delivered(&mut nodes[1]), [b"once"]);
    // The power goes before the node is stored again.
    let mut loaded = Node::load(before).unwrap();
    assert_eq!(delivered(&mut loaded), [b"once"]);
}

#[test]
fn nodes_with_another_n_refuse_each_others_frames_with_10() {
    let frame = send(&mut Node::set_up(0, 3, 3).unwrap(), 1, &[]).remove(0);
    for n in [2, 4, 12] {
        assert_eq!(refused(&mut Node::set_up(1, n, n).unwrap(), &frame), Refusal::OtherPlant);
    }
}

#[test]
fn a_class_that_is_not_the_nodes_own_gives_a_frame_that_no_receiver_refuses() {
    let (mut panel, mut cover, mut output) = (plant(3, 3).remove(0), plant(3, 3).remove(0), Output::new());
    let motion = b"\x01closing";
    assert_eq!(panel.send(1, Class::Panel, motion, &mut output).unwrap_err(), Refusal::NoRight);
    // The panel's host hands a mover's class: frame and node become those of a mover.
    let frame = panel.send(1, Class::Mover, motion, &mut output).unwrap().issued.to_vec();
    assert_eq!(frame, spelled(1, 0, 1, 3, 3, &[], motion));
    assert_eq!(cover.send(1, Class::Mover, motion, &mut output).unwrap().issued, frame);
    assert!(panel.bytes() == cover.bytes());
    let mut receiver = Node::set_up(1, 3, 3).unwrap();
    receiver.offer(&frame).expect("the class is no part of the frame");
    assert_eq!(delivered(&mut receiver), [motion]);
}

#[test]
fn an_output_of_several_frames_offered_whole_is_refused_with_8() {
    let mut nodes = plant(4, 4);
    let mut frames = Vec::new();
    for (from, to) in [(0, 1), (0, 2), (0, 3), (1, 2), (1, 0), (2, 3), (2, 1), (2, 0)] {
        frames.push(send(&mut nodes[from], to, &[]).remove(0));
    }
    // The second of these deliveries issues two extra frames.
    let mut output = Output::new();
    nodes[0].offer(&frames[4]).unwrap();
    assert_eq!(nodes[0].deliver(&mut output).unwrap().frame().unwrap().extras, 0);
    nodes[0].offer(&frames[7]).unwrap();
    let delivery = nodes[0].deliver(&mut output).unwrap().frame().unwrap();
    let cut = common::cut(delivery.issued);
    assert_eq!((delivery.extras, cut.len()), (2, 2));
    for frame in cut {
        let to = Frame::first_of(&frame).unwrap().to();
        assert_eq!(refused(&mut nodes[to], delivery.issued), Refusal::DamagedFrame);
        nodes[to].offer(&frame).expect("cut out, it is taken");
    }
}
