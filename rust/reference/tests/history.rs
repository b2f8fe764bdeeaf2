//! What a history tells of lists that break demand 3 or the rights, made up step by step.

use reference::draft::Draft;
use reference::frame::{Frame, EXTRA, USER};
use reference::history::History;
use reference::node::Delivery;
use reference::rights::{Table, OURS};

/// A made-up list: its history, and its frames in issue order.
struct Story {
    history: History,
    issued: Vec<Vec<u8>>,
}

impl Story {
    /// A story of three nodes and cap 3.
    fn start() -> Story {
        Story { history: History::start(&[3; 3]), issued: Vec::new() }
    }

    /// A user frame with this number; gives the issue.
    fn send(&mut self, from: usize, to: usize, number: u32) -> Result<usize, String> {
        self.issued.push(frame(USER, from, to, number));
        let issue = self.issued.len() - 1;
        self.history.send(from, to, 0, &[], &self.issued[issue..]).map(|()| issue)
    }

    /// An accepted offer of an issue, and its delivery.
    fn bring(&mut self, issue: usize) -> Result<(), String> {
        self.history.offer(self.issued[issue][2] as usize, &self.issued[issue])?;
        self.deliver(issue, &[])
    }

    /// A delivery of an issue, which issued these extras.
    fn deliver(&mut self, issue: usize, extras: &[Vec<u8>]) -> Result<(), String> {
        let [kind, from, to] = [0, 1, 2].map(|index| self.issued[issue][index]);
        let number = Frame::first_of(&self.issued[issue]).unwrap().number();
        let delivery =
            Delivery { kind, from: from as usize, number, looked: 1, body: 0, bytes: 0, extras: extras.len() };
        self.history.delivery(to as usize, &delivery, &[], extras).map(|delivered| assert_eq!(delivered, issue))
    }
}

/// A draft without entries and body.
fn draft(kind: u8, from: usize, to: usize) -> Draft {
    Draft { kind, from: from as u8, to: to as u8, n: 3, cap: 3, zero: 0, entries: Vec::new(), body: Vec::new() }
}

/// A frame without a body, with one entry for its number.
fn frame(kind: u8, from: usize, to: usize, number: u32) -> Vec<u8> {
    let mut draft = draft(kind, from, to);
    if number > 1 {
        draft.set(from, to, number - 1);
    }
    draft.bytes()
}

#[test]
fn a_detour_overtakes() {
    let mut story = Story::start();
    let direct = story.send(0, 2, 1).unwrap();
    let hint = story.send(0, 1, 1).unwrap();
    story.bring(hint).unwrap();
    let detour = story.send(1, 2, 1).unwrap();
    story.history.check_causal_order().unwrap();
    story.bring(detour).unwrap();
    story.history.check_causal_order().unwrap_err();
    story.bring(direct).unwrap();
    story.history.check_causal_order().unwrap_err();
}

#[test]
fn unrelated_messages_have_no_order() {
    let mut story = Story::start();
    let (first, second) = (story.send(0, 2, 1).unwrap(), story.send(1, 2, 1).unwrap());
    story.bring(second).unwrap();
    story.bring(first).unwrap();
    story.history.check_causal_order().unwrap();
}

#[test]
fn an_extra_adds_no_link() {
    let mut story = Story::start();
    let (direct, hint) = (story.send(0, 2, 1).unwrap(), story.send(2, 0, 1).unwrap());
    story.history.offer(0, &story.issued[hint]).unwrap();
    let extra = frame(EXTRA, 0, 1, 1);
    story.deliver(hint, std::slice::from_ref(&extra)).unwrap();
    story.issued.push(extra);
    story.bring(2).unwrap();
    let other = story.send(1, 2, 1).unwrap();
    story.bring(other).unwrap();
    story.history.check_causal_order().unwrap();
    assert_eq!((story.history.earliest(), story.history.earliest_to(1)), (Some(direct), None));
}

#[test]
fn twice() {
    let mut story = Story::start();
    let issue = story.send(0, 1, 1).unwrap();
    story.deliver(issue, &[]).unwrap_err();
    story.bring(issue).unwrap();
    assert!(story.deliver(issue, &[]).unwrap_err().contains("twice"));
    assert!(story.bring(issue).unwrap_err().contains("again"));
    assert!(story.send(0, 1, 1).unwrap_err().contains("number 1"));
}

/// What a history of three nodes with these caps says of a frame from 0 to 1 with this cap and so many entries.
fn carried(caps: [usize; 3], cap: u8, entries: usize) -> Result<(), String> {
    let mut draft = Draft { cap, ..draft(USER, 0, 1) };
    for (row, column) in [(0, 1), (0, 2), (1, 2), (2, 1)].into_iter().take(entries) {
        draft.set(row, column, 1);
    }
    History::start(&caps).send(0, 1, 0, &[], &[draft.bytes()])
}

#[test]
fn more_entries_than_the_senders_cap() {
    for caps in [[3; 3], [3, 9, 9]] {
        carried(caps, 3, 3).unwrap();
        assert!(carried(caps, 3, 4).unwrap_err().contains("4 entries"));
    }
    carried([4, 3, 3], 4, 4).unwrap();
}

#[test]
fn another_cap_than_the_senders() {
    for cap in [2, 4, 9] {
        assert!(carried([3, cap, cap], cap as u8, 1).unwrap_err().contains(&format!("carries cap {cap}")));
    }
}

/// A user frame from 0 to 1 with this body behind two entries, which is the second to go there.
fn speech(body: &[u8]) -> Vec<u8> {
    let mut draft = Draft { body: body.to_vec(), ..draft(USER, 0, 1) };
    draft.set(0, 1, 1);
    draft.set(2, 1, 1);
    draft.bytes()
}

/// What a history says of the rights by this table when a send of this class and body issued the frame.
fn said(table: &Table, class: usize, body: &[u8], frame: Vec<u8>) -> Result<(), String> {
    let mut history = History::start(&[3; 3]);
    let log = [frame];
    history.send(0, 1, class, body, &log).unwrap();
    history.rights_kept(table, &log)
}

#[test]
fn a_class_without_the_right() {
    let kept = |class, body: &[u8]| said(&OURS, class, body, speech(body)).is_ok();
    let topics = [0, 31, 32, 95, 96, 127, 128, 255];
    let of_class = |class| topics.map(|topic| kept(class, &[topic, 0, 40, 100, 200]));
    assert_eq!(of_class(0), [true, true, false, false, false, false, true, true]);
    assert_eq!(of_class(1), [false, false, true, true, false, false, true, true]);
    assert_eq!(of_class(2), [false, false, false, false, true, true, true, true]);
    assert_eq!(of_class(3), [false, false, false, false, false, false, true, true]);
    assert_eq!([4, usize::MAX].map(of_class), [[false; 8]; 2]);
    assert_eq!([0, 1, 2, 3, 4, usize::MAX].map(|class| kept(class, &[])), [true, true, true, true, false, false]);
}

#[test]
fn the_topic_is_that_of_the_frame() {
    said(&OURS, 3, &[128], speech(&[128])).unwrap();
    said(&OURS, 3, &[128], speech(&[127])).unwrap_err();
    said(&OURS, 3, &[], speech(&[0])).unwrap_err();
    said(&OURS, 3, &[127], speech(&[128])).unwrap();
}

#[test]
fn motion_is_a_movers_by_any_table() {
    for class in 1..4 {
        assert!(said(&[1; 16], class, &[31], speech(&[31])).unwrap_err().contains("motion from class"));
        said(&[1; 16], class, &[32], speech(&[32])).unwrap();
    }
    said(&[1; 16], 0, &[31], speech(&[31])).unwrap();
    assert!(said(&[0; 16], 0, &[31], speech(&[31])).unwrap_err().contains("without the right"));
}

/// A story of a send from 2 to 0 and of its delivery, which issues this extra from 0 to 1.
fn with_extra(extra: Vec<u8>) -> Story {
    let mut story = Story::start();
    let hint = story.send(2, 0, 1).unwrap();
    story.history.offer(0, &story.issued[hint]).unwrap();
    story.deliver(hint, std::slice::from_ref(&extra)).unwrap();
    story.issued.push(extra);
    story
}

#[test]
fn an_extra_with_a_body() {
    let story = with_extra(frame(EXTRA, 0, 1, 1));
    story.history.rights_kept(&OURS, &story.issued).unwrap();
    let story = with_extra(Draft { body: vec![128], ..draft(EXTRA, 0, 1) }.bytes());
    assert!(story.history.rights_kept(&OURS, &story.issued).unwrap_err().contains("an extra with a body"));
}

#[test]
fn a_log_of_other_frames() {
    let story = with_extra(frame(EXTRA, 0, 1, 1));
    let wrong = |log: &[Vec<u8>]| story.history.rights_kept(&OURS, log).unwrap_err();
    let [user, extra] = &story.issued[..] else { panic!("{:?}", story.issued) };
    let unsent = frame(USER, 1, 2, 1);
    assert!(wrong(&[user.clone(), extra.clone(), unsent.clone()]).contains("3 frames"));
    assert!(wrong(std::slice::from_ref(user)).contains("1 frames"));
    // An order changed over, a frame that no step issued, and a kind changed.
    assert!(wrong(&[extra.clone(), user.clone()]).contains("issue 0 is another frame"));
    assert!(wrong(&[user.clone(), unsent]).contains("issue 1 is another frame"));
    assert!(wrong(&[user.clone(), frame(USER, 0, 1, 1)]).contains("issue 1 is another frame"));
    assert!(wrong(&[frame(EXTRA, 2, 0, 1), extra.clone()]).contains("issue 0 is another frame"));
    assert!(wrong(&[user.clone(), extra[..11].to_vec()]).contains("issue 1 is not whole"));
    assert!(wrong(&[user.clone(), [&extra[..], &[0]].concat()]).contains("issue 1 is not whole"));
}
