//! Who may say what: the table in the request's words, the place of 21 among a send's checks, and lists.

mod common;

use common::*;
use reference::boundary;
use reference::frame::{EXTRA, USER};
use reference::history::History;
use reference::host::{self, ANSWER};
use reference::list::List;
use reference::node::OUTPUT;
use reference::rights::{group, may_send, topic, Group, Table, OURS};
use reference::*;

/// What stands in a lent buffer before a call.
const MARK: u8 = 0xA5;

/// Classes above 3, some of which are 0 when they are cut to a byte or times 4.
const NO_CLASSES: [usize; 7] = [4, 5, 128, 256, 65_536, usize::MAX / 4 + 1, usize::MAX];

/// The group that the request gives a topic.
fn group_in_words(topic: u8) -> Group {
    if topic < 32 {
        Group::Motion
    } else if topic < 96 {
        Group::Exposure
    } else if topic < 128 {
        Group::Filing
    } else {
        Group::Notes
    }
}

/// Whether the request lets a class send a topic: all four send notes, and beside these a mover sends motion, a camera
/// exposure, an archive filing.
fn may_in_words(class: usize, topic: u8) -> bool {
    let movers = class == 0 && topic <= 31;
    let cameras = class == 1 && (32..=95).contains(&topic);
    let archives = class == 2 && (96..=127).contains(&topic);
    let all = [0, 1, 2, 3].contains(&class) && topic >= 128;
    movers || cameras || archives || all
}

/// Bodies with this topic, whose other bytes have another.
fn bodies(topic: u8) -> [Vec<u8>; 3] {
    [1, 2, 64].map(|length| [&[topic][..], &vec![!topic; length - 1]].concat())
}

#[test]
fn the_table_is_the_requests_words() {
    let mut rights = [0; 4];
    for (class, topic) in (0..4).flat_map(|class| (0..=255).map(move |topic| (class, topic))) {
        let may = may_in_words(class, topic);
        rights[class] += usize::from(may);
        for body in bodies(topic) {
            assert_eq!(may_send(&OURS, class, &body), may, "class {class}, topic {topic}");
            let number = send_number(fresh(0, 2, 2), 1, class, &body, OUTPUT);
            assert_eq!(number, if may { 0 } else { 21 }, "class {class}, topic {topic}");
        }
    }
    assert_eq!(rights, [32 + 128, 64 + 128, 32 + 128, 128]);
}

#[test]
fn every_topic_is_in_its_group() {
    for byte in 0..=255 {
        assert_eq!(group(byte), group_in_words(byte), "topic {byte}");
        assert!(bodies(byte).iter().all(|body| topic(body) == byte));
    }
}

#[test]
fn an_empty_body_is_a_note() {
    assert_eq!((topic(&[]), group(128)), (128, Group::Notes));
    for class in 0..4 {
        assert!(may_send(&OURS, class, &[]));
        assert_eq!(send_number(fresh(0, 2, 2), 1, class, &[], OUTPUT), 0);
    }
}

#[test]
fn a_class_above_3_is_21_whatever_it_says() {
    for class in NO_CLASSES {
        let empty = [Vec::new()];
        for body in (0..=255).flat_map(bodies).chain(empty) {
            assert!(!may_send(&OURS, class, &body) && !may_send(&[1; 16], class, &body));
            assert_eq!(send_number(fresh(0, 2, 2), 1, class, &body, OUTPUT), 21, "class {class}, {body:?}");
        }
    }
}

#[test]
fn a_table_goes_class_by_class_with_four_groups_each() {
    let groups = [Group::Motion, Group::Exposure, Group::Filing, Group::Notes];
    for place in 0..16 {
        let mut table: Table = [0; 16];
        table[place] = 1;
        for (class, topic) in (0..6).flat_map(|class| (0..=255).map(move |topic| (class, topic))) {
            let may = class == place / 4 && group_in_words(topic) == groups[place % 4];
            assert_eq!(may_send(&table, class, &[topic]), may, "place {place}, class {class}, topic {topic}");
        }
    }
}

#[test]
fn both_sides_of_21_in_a_list_and_at_a_host() {
    boundary::who_may_say_what(&mut List::alike(2, 2).unwrap());
    let met = |wanted| boundary::sends_by_class().iter().filter(|case| case.number == wanted).count();
    assert_eq!([6, 7].map(met), [3, 3]);
    assert_eq!([21, 0].map(met), [104 + 1, 32 + 2]);
    for case in boundary::sends_by_class() {
        let (mut image, mut out, mut answer) = (fresh(0, 2, 2).to_image(), [0; OUTPUT], [0; ANSWER]);
        let number = host::send(&mut image, case.to, case.class, &case.body, &mut out, &mut answer);
        assert_eq!(number, case.number, "{case:?}");
    }
}

#[test]
fn check_21_stands_behind_all_others() {
    let limit = with(1, 3, 5, &[(1, 2, 1_000_000_000)], &[]);
    let broken = Record { held: 17, ..limit };
    let (sound, long) = (fresh(1, 3, 5), [0; 65]);
    for class in [1, 2, 3, 4, usize::MAX] {
        let calls: [(Record, usize, &[u8], usize); 6] = [
            (broken, 1, &long, 0),
            (limit, 1, &long, 0),
            (limit, 1, &long, OUTPUT),
            (sound, 1, &long, OUTPUT),
            (sound, 0, &long, OUTPUT),
            (sound, 0, &long[..64], OUTPUT),
        ];
        let node = calls.map(|(record, to, body, length)| send_number(record, to, class, body, length));
        assert_eq!(node, [2, 3, 5, 6, 7, 21]);
        let host = calls.map(|(record, to, body, length)| {
            let (mut image, mut answer) = (record.to_image(), [0; ANSWER]);
            host::send(&mut image, to, class, body, &mut vec![0; length], &mut answer)
        });
        assert_eq!(host, [20, 3, 5, 6, 7, 21]);
        assert_eq!(send_number(sound, 3, class, &[0], OUTPUT), 6);
    }
    assert_eq!(send_number(sound, 0, 0, &long[..64], OUTPUT), 0);
}

#[test]
fn a_refusal_with_21_leaves_every_lent_byte() {
    let record = with(1, 3, 5, &[(1, 0, 2), (0, 2, 4)], &[(0, 3)]);
    for (class, body) in [(3, &[31][..]), (0, &[32]), (1, &[96]), (2, &[95]), (4, &[]), (usize::MAX, &[128])] {
        let mut out = [MARK; OUTPUT];
        assert_eq!(node::send(record, 0, class, body, &mut out), (SendAnswer::Refused(21), record));
        let mut on = record;
        assert_eq!(node::send_on(&mut on, 0, class, body, &mut out), SendAnswer::Refused(21));
        let (mut image, mut answer) = (record.to_image(), [MARK; 20]);
        assert_eq!(host::send(&mut image, 0, class, body, &mut out, &mut answer), 21);
        assert_eq!((on, image, answer), (record, record.to_image(), [MARK; 20]));
        assert_eq!(out, [MARK; OUTPUT]);
    }
}

#[test]
fn the_class_is_no_part_of_the_frame() {
    // Four entries stand and the send adds one to them, so that an extra follows the user frame.
    let record = with(1, 4, 4, &[(1, 0, 2), (0, 2, 4), (3, 2, 1), (1, 2, 9)], &[(0, 3)]);
    for body in [&[][..], &[128], &[255, 0, 40], &[200; 64]] {
        let sent = |class| {
            let (mut out, mut host_out) = ([MARK; OUTPUT], [MARK; OUTPUT]);
            let (answer, after) = send(record, 3, class, body, &mut out);
            assert!(matches!(answer, SendAnswer::Sent { extras: 1, .. }), "{answer:?}");
            let (mut image, mut host_answer) = (record.to_image(), [MARK; ANSWER]);
            assert_eq!(host::send(&mut image, 3, class, body, &mut host_out, &mut host_answer), 0);
            assert_eq!((image, host_out), (after.to_image(), out));
            (answer, after, out, host_answer)
        };
        for class in [0, 2, 3] {
            assert_eq!(sent(class), sent(1), "class {class}");
        }
    }
}

#[test]
fn a_refused_step_of_a_list_changes_nothing() {
    let mut list = List::alike(3, 3).unwrap();
    list.send(0, 1, 1, b"O");
    let before = list.clone();
    for (class, body) in [(0, &b"O"[..]), (3, &[0]), (4, &[]), (usize::MAX, &[255])] {
        assert_eq!(list.send(0, 1, class, body), SendAnswer::Refused(21));
        assert_eq!((&list.seats, &list.issued), (&before.seats, &before.issued));
    }
}

/// A list of panels whose last delivery issues an extra, with its history.
fn panels() -> (List, History) {
    let (mut list, mut history) = (List::alike(3, 3).unwrap(), History::start(&[3; 3]));
    for (issue, (i, j)) in [(0, 1), (0, 2), (1, 2), (1, 0), (2, 1), (2, 0)].into_iter().enumerate() {
        let body = [200 + issue as u8, 0];
        assert!(matches!(list.send(i, j, 3, &body), SendAnswer::Sent { extras: 0, .. }));
        history.send(i, j, 3, &body, &list.issued[issue..]).unwrap();
    }
    for issue in [3, 5] {
        list.offer(0, issue);
        history.offer(0, &list.issued[issue]).unwrap();
        let before = list.issued.len();
        let (answer, body) = list.deliver(0);
        let DeliverAnswer::Delivered(delivery) = answer else { panic!("{answer:?}") };
        history.delivery(0, &delivery, &body, &list.issued[before..]).unwrap();
    }
    (list, history)
}

#[test]
fn extras_need_no_right() {
    let (list, history) = panels();
    let kinds: Vec<u8> = list.issued.iter().map(|frame| frame[0]).collect();
    assert_eq!(kinds, [USER, USER, USER, USER, USER, USER, EXTRA]);
    assert_eq!(list.frame(6).body(), []);
    history.rights_kept(&OURS, &list.issued).unwrap();
    // A table without any right stands against the six sends, and not against the extra.
    assert!(history.rights_kept(&[0; 16], &list.issued).unwrap_err().contains("issue 0 came from class 3"));
}
