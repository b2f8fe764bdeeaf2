//! The ceiling on extras: made-up lists that break each part of it, and lists on both sides of its bounds.

mod common;

use common::draft;
use reference::boundary::{self, Steps, CAPS_OF_846};
use reference::ceiling::{check, large_cap, longest, Counts, Said, Step};
use reference::frame::{EXTRA, USER};
use reference::list::List;
use reference::*;

/// Caps of three nodes, each below the bound of 4.
const SMALL: [usize; 3] = [3; 3];

/// A made-up list: its steps, and the frames that they issued.
#[derive(Clone, Debug, Default)]
struct Story {
    steps: Vec<Step>,
    log: Vec<Vec<u8>>,
}

impl Story {
    /// A step at a node that reports so many extras and issues frames of these kinds.
    fn with(mut self, node: usize, said: Said, reported: usize, kinds: &[u8]) -> Story {
        self.steps.push(Step { node, said, reported, issued: kinds.len() });
        self.log.extend(kinds.iter().map(|kind| frame(*kind, node, 0, 0)));
        self
    }

    /// What the check says of it among nodes with these caps.
    fn check(&self, caps: &[usize]) -> Result<Counts, String> {
        check(caps, &self.steps, &self.log)
    }

    /// What the check says is wrong with it among nodes with small caps.
    fn wrong(&self) -> String {
        self.check(&SMALL).unwrap_err()
    }
}

/// A story of one step at node 0.
fn step(said: Said, reported: usize, kinds: &[u8]) -> Story {
    Story::default().with(0, said, reported, kinds)
}

/// A frame from a node of three, with so many entries and body bytes.
fn frame(kind: u8, from: usize, entries: usize, body: usize) -> Vec<u8> {
    let triples: Vec<_> = (0..entries).map(|row| (row, 2, 1)).collect();
    draft(kind, from as u8, (from as u8 + 1) % 3, 3, 3, &triples, &vec![200; body]).bytes()
}

/// A story at the ceiling: each step issues as many extras as it may.
fn at_the_ceiling() -> Story {
    Story::default()
        .with(0, Said::Sent, 1, &[USER, EXTRA])
        .with(1, Said::Neither, 0, &[])
        .with(1, Said::Delivered(USER), 2, &[EXTRA, EXTRA])
        .with(2, Said::Delivered(EXTRA), 0, &[])
        .with(2, Said::Sent, 0, &[USER])
        .with(1, Said::Delivered(USER), 1, &[EXTRA])
}

#[test]
fn a_story_at_the_ceiling() {
    let counts = Counts { sent: 2, delivered: 2, extras_of_sends: 1, extras_of_deliveries: 3, several: 1, most: 2 };
    assert_eq!(at_the_ceiling().check(&SMALL), Ok(counts));
    assert_eq!(counts.extras(), 4);
    assert_eq!([counts, counts].into_iter().sum::<Counts>().extras(), 8);
    assert_eq!(Story::default().check(&SMALL), Ok(Counts::default()));
}

#[test]
fn a_report_that_is_not_what_was_issued() {
    for (said, reported, kinds) in [
        (Said::Sent, 0, &[USER, EXTRA][..]),
        (Said::Sent, 1, &[USER]),
        (Said::Delivered(USER), 1, &[EXTRA, EXTRA]),
        (Said::Delivered(USER), 2, &[EXTRA]),
        (Said::Delivered(USER), 1, &[]),
        (Said::Delivered(EXTRA), 1, &[]),
        (Said::Delivered(EXTRA), 0, &[EXTRA]),
        (Said::Neither, 1, &[]),
        (Said::Neither, 0, &[EXTRA]),
    ] {
        let wrong = step(said, reported, kinds).wrong();
        assert!(wrong.contains("step 0") && wrong.contains(&format!("and reports {reported}")), "{wrong}");
    }
}

#[test]
fn more_extras_than_a_step_may_issue() {
    for (said, kinds) in [
        (Said::Sent, &[USER, EXTRA, EXTRA][..]),
        (Said::Delivered(USER), &[EXTRA; 3]),
        (Said::Delivered(EXTRA), &[EXTRA]),
        (Said::Neither, &[EXTRA]),
    ] {
        let extras = kinds.iter().filter(|kind| **kind == EXTRA).count();
        let wrong = step(said, extras, kinds).wrong();
        assert!(wrong.contains(&format!("{extras} extras, and {} are the most", extras - 1)), "{wrong}");
    }
}

#[test]
fn a_send_issues_one_user_frame_and_no_other_step_does() {
    for (said, kinds) in [
        (Said::Sent, &[][..]),
        (Said::Sent, &[USER, USER]),
        (Said::Delivered(USER), &[USER]),
        (Said::Delivered(EXTRA), &[USER]),
        (Said::Neither, &[USER]),
    ] {
        let wrong = step(said, 0, kinds).wrong();
        assert!(wrong.contains(&format!("issued {} user frames", kinds.len())), "{wrong}");
    }
}

#[test]
fn the_sum_above_the_ceiling() {
    // A list cannot come here with every step as it should be: the ceiling is the sum of what the steps may issue. So the
    // sums are made up.
    let counts = Counts { sent: 3, delivered: 2, extras_of_sends: 3, extras_of_deliveries: 4, several: 2, most: 2 };
    counts.within_ceiling(3).unwrap();
    let above = [
        Counts { extras_of_sends: 4, ..counts },
        Counts { extras_of_deliveries: 5, ..counts },
        Counts { sent: 2, ..counts },
    ];
    for counts in above {
        assert!(counts.within_ceiling(3).unwrap_err().contains("above the ceiling"), "{counts:?}");
    }
    let fewer = Counts { delivered: 1, ..counts };
    assert!(fewer.within_ceiling(3).unwrap_err().contains("7 extras in all are above the ceiling of 5"));
    fewer.within_ceiling(5).unwrap();
}

#[test]
fn an_extra_under_a_large_cap_is_held_against_its_own_node() {
    let story = at_the_ceiling();
    for caps in [[4, 3, 3], [9, 3, 3], [3, 4, 3], [4, 4, 4]] {
        let wrong = story.check(&caps).unwrap_err();
        assert!(wrong.contains("extras under a cap of"), "{wrong}");
    }
    story.check(&[3, 3, 4]).unwrap();
    story.check(&[3, 3, 9]).unwrap();
    assert_eq!([2, 3, 4, 12].map(large_cap), [1, 4, 9, 121]);
}

#[test]
fn frames_longer_than_planned() {
    let sent = |cap, entries, body| {
        let story = Story { log: vec![frame(USER, 0, entries, body)], ..step(Said::Sent, 0, &[USER]) };
        story.check(&[cap; 3])
    };
    for (cap, entries) in [(3, 3), (4, 4), (9, 4)] {
        assert_eq!(longest(USER, 3, cap), 12 + 6 * entries + 64);
        sent(cap, entries, 64).unwrap();
        sent(cap, entries, 65).unwrap_err();
        assert!(sent(cap, entries + 1, 64).unwrap_err().contains("are the most"));
    }
    let with_extra = |entries, body| {
        let story = step(Said::Delivered(USER), 1, &[EXTRA]);
        Story { log: vec![frame(EXTRA, 0, entries, body)], ..story }.check(&SMALL)
    };
    assert_eq!((longest(EXTRA, 3, 3), longest(EXTRA, 12, 12), longest(USER, 12, 144)), (24, 78, 802));
    with_extra(2, 0).unwrap();
    with_extra(3, 0).unwrap_err();
    with_extra(2, 1).unwrap_err();
}

#[test]
fn a_log_of_other_frames() {
    let story = at_the_ceiling();
    let with_log = |log: &[Vec<u8>]| Story { log: log.to_vec(), ..story.clone() }.wrong();
    assert!(with_log(&story.log[..5]).contains("the log ends"));
    assert!(with_log(&[&story.log[..], &story.log[..1]].concat()).contains("the last 1 frames"));
    let replaced = |frame: Vec<u8>| with_log(&[&[frame], &story.log[1..]].concat());
    assert!(replaced(frame(USER, 1, 0, 0)).contains("a frame from 1"));
    assert!(replaced(frame(3, 0, 0, 0)).contains("of kind 3"));
    assert!(replaced(frame(USER, 0, 0, 0)[..11].to_vec()).contains("not whole"));
    assert!(replaced([frame(USER, 0, 0, 0), vec![0]].concat()).contains("not whole"));
    assert!(Story::default().with(3, Said::Neither, 0, &[]).wrong().contains("no such node"));
}

/// A list, and what the caller of each of its steps sees.
struct Watched {
    list: List,
    steps: Vec<Step>,
}

impl Watched {
    /// A list of nodes with these caps before its first step.
    fn start(caps: &[usize]) -> Watched {
        Watched { list: List::start(caps).unwrap(), steps: Vec::new() }
    }

    /// What its answers come to, which must be within the ceiling.
    fn counts(&self) -> Counts {
        check(&self.list.caps(), &self.steps, &self.list.issued).unwrap()
    }
}

impl Steps for Watched {
    fn send(&mut self, i: usize, j: usize, class: usize, body: &[u8]) -> SendAnswer {
        let before = self.list.issued.len();
        let answer = self.list.send(i, j, class, body);
        self.steps.push(Step::send(i, &answer, self.list.issued.len() - before));
        answer
    }

    fn offer(&mut self, node: usize, issue: usize) -> OfferAnswer {
        self.steps.push(Step::offer(node));
        self.list.offer(node, issue)
    }

    fn deliver(&mut self, node: usize) -> DeliverAnswer {
        let before = self.list.issued.len();
        let (answer, _) = self.list.deliver(node);
        self.steps.push(Step::deliver(node, &answer, self.list.issued.len() - before));
        answer
    }

    fn issued(&self) -> &[Vec<u8>] {
        &self.list.issued
    }
}

#[test]
fn a_send_that_issues_its_one_extra() {
    let mut list = Watched::start(&[4; 4]);
    boundary::send_with_an_extra(&mut list);
    let counts = Counts { sent: 6, delivered: 1, extras_of_sends: 1, ..Counts::default() };
    assert_eq!(list.counts(), counts);
    let extra = list.list.frame(6);
    assert_eq!((extra.kind(), extra.from(), extra.to(), extra.number()), (EXTRA, 0, 1, 2));
    assert_eq!(extra.entries().collect::<Vec<_>>(), common::entries(&[(0, 1, 1), (3, 1, 1)]));
}

/// Caps of n nodes: that of node 0, and one for the others.
fn caps(n: usize, first: usize, others: usize) -> Vec<usize> {
    [vec![first], vec![others; n - 1]].concat()
}

#[test]
fn both_sides_of_a_large_cap() {
    for n in 3..=12 {
        for (cap, extras) in [(large_cap(n) - 1, 1), (large_cap(n), 0), (large_cap(n) + 1, 0), (n * n, 0)] {
            // It is node 0's own cap that counts, whatever the others' caps are.
            for others in [cap, n, n * n] {
                let mut list = Watched::start(&caps(n, cap, others));
                assert_eq!(boundary::full_matrix(&mut list, n).extras, extras, "n {n}, cap {cap}");
                assert_eq!(list.counts().extras(), extras, "n {n}, cap {cap}");
                let standing = large_cap(n) - extras * (n - 2);
                assert_eq!(list.list.seats[0].record.standing(), standing, "n {n}, cap {cap}");
            }
        }
    }
}

#[test]
fn extras_at_a_node_with_the_least_cap_beside_one_with_the_largest() {
    for n in 4..=12 {
        let mut list = Watched::start(&caps(n, n * n, n));
        boundary::more_than_the_cap(&mut list, n);
        assert_eq!(list.counts().extras_of_deliveries, n - 2, "n {n}");
        let from = |issue| (list.list.frame(issue).kind(), list.list.frame(issue).from());
        let extras = (0..list.issued().len()).map(from).filter(|(kind, _)| *kind == EXTRA);
        assert!(extras.into_iter().all(|(_, from)| from == 1), "n {n}");
    }
}

#[test]
fn two_nodes_issue_no_extra() {
    for cap in 2..=4 {
        let mut list = Watched::start(&[cap; 2]);
        boundary::full_matrix(&mut list, 2);
        assert_eq!((large_cap(2), list.counts().extras()), (1, 0));
    }
}

#[test]
fn the_largest_frames_are_as_planned() {
    let longest_of = |list: &Watched, kind| {
        let lengths = list.issued().iter().filter(|frame| frame[0] == kind).map(Vec::len);
        (list.counts().extras(), lengths.max().unwrap())
    };
    let mut list = Watched::start(&[121; 12]);
    boundary::frame_of_802(&mut list);
    assert_eq!(longest_of(&list, USER), (0, longest(USER, 12, 121)));
    let mut list = Watched::start(&[110; 12]);
    boundary::send_of_814(&mut list);
    assert_eq!(longest_of(&list, USER), (1, longest(USER, 12, 110)));
    assert_eq!(longest_of(&list, EXTRA), (1, longest(EXTRA, 12, 110)));
    let mut list = Watched::start(&[55; 12]);
    boundary::delivery_of_504(&mut list);
    assert_eq!((list.counts().several, list.counts().most), (1, 7));
    let mut list = Watched::start(&CAPS_OF_846);
    boundary::delivery_of_846(&mut list);
    assert_eq!((list.counts().several, list.counts().most), (1, 11));
}
