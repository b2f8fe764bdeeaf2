//! Who may say what, on both implementations: every topic with every class and with numbers that are none, and 21 beside the
//! checks in front of it.

use differential::compare;
use generate::topics::NO_CLASSES;
use generate::{Buffers, Call, Case};
use reference::node::OUTPUT;
use reference::{set_up, Refusal};

/// A send at node 0 of 2 on both sides, with its number; document 02's words are held against it by the tests.
fn number(to: usize, class: usize, body: &[u8]) -> Refusal {
    let (_, record) = set_up(0, 2, 4);
    let buffers = Buffers { out: vec![0xC3; OUTPUT], ..Buffers::default() };
    let case = Case::written(&record, Call::Send { to, class, body: body.to_vec() }, buffers);
    compare(&case).unwrap_or_else(|difference| panic!("{difference}")).answer.number()
}

/// Whether document 02 lets a class send a topic.
fn may(class: usize, topic: u8) -> bool {
    match class {
        0 => topic <= 31 || topic >= 128,
        1 => (32..=95).contains(&topic) || topic >= 128,
        2 => topic >= 96,
        3 => topic >= 128,
        _ => false,
    }
}

#[test]
fn every_topic_by_every_class() {
    for class in (0..4).chain(NO_CLASSES) {
        for topic in 0..=255 {
            let expected = if may(class, topic) { 0 } else { 21 };
            for body in [vec![topic], vec![topic, !topic], [vec![topic], vec![topic ^ 0x80; 63]].concat()] {
                assert_eq!(number(1, class, &body), expected, "class {class}, {body:?}");
            }
        }
        assert_eq!(number(1, class, &[]), if class <= 3 { 0 } else { 21 }, "class {class}");
    }
}

#[test]
fn what_comes_before_21() {
    for class in (0..4).chain(NO_CLASSES) {
        for topic in 0..=255 {
            assert_eq!(number(1, class, &[topic; 65]), 7, "class {class}, topic {topic}");
            assert_eq!(number(0, class, &[topic]), 6, "class {class}, topic {topic}");
            assert_eq!(number(2, class, &[topic; 65]), 6, "class {class}, topic {topic}");
        }
    }
}
