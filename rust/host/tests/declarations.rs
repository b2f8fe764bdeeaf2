//! The declarations of `host::lent` held against the archive: each call is made so that the effect of every parameter
//! is seen, with distinct numbers and with every length on both sides of its bound.

mod common;

use common::{sealed, spelled};
use host::lent;
use host::sizes::{ANSWER, BODY, IMAGE, OUTPUT, QUEUE};

/// What stands in lent bytes before a call.
const MARK: u8 = 0xA5;
/// The class that may send a body that begins with a small letter.
const ARCHIVE: usize = 2;

/// What the node's calls are lent, each longer than it need be.
struct Lent {
    image: Vec<u8>,
    queue: Vec<u8>,
    out: Vec<u8>,
    body: Vec<u8>,
    answer: Vec<u8>,
}

/// The lengths lent of these, in the same order.
type Lengths = [usize; 5];

/// As long as each must be.
const RIGHT: Lengths = [IMAGE, QUEUE, OUTPUT, BODY, ANSWER];
/// One of them shorter by one, or longer where the length is exact, and the number that it gives.
const WRONG: [(Lengths, u8); 7] = [
    ([IMAGE - 1, QUEUE, OUTPUT, BODY, ANSWER], 20),
    ([IMAGE + 1, QUEUE, OUTPUT, BODY, ANSWER], 20),
    ([IMAGE, QUEUE - 1, OUTPUT, BODY, ANSWER], 3),
    ([IMAGE, QUEUE + 1, OUTPUT, BODY, ANSWER], 3),
    ([IMAGE, QUEUE, OUTPUT - 1, BODY, ANSWER], 3),
    ([IMAGE, QUEUE, OUTPUT, BODY - 1, ANSWER], 3),
    ([IMAGE, QUEUE, OUTPUT, BODY, ANSWER - 1], 3),
];

impl Lent {
    /// A node that was set up, with an empty queue and marked outputs.
    fn new(me: usize, n: usize, cap: usize) -> Lent {
        let mut image = vec![MARK; IMAGE + 1];
        assert_eq!(lent::set_up(&mut image[..IMAGE], me, n, cap), 0);
        let marked = |length| vec![MARK; length + 1];
        Lent { image, queue: vec![0; QUEUE + 1], out: marked(OUTPUT), body: marked(BODY), answer: marked(ANSWER) }
    }

    /// A send with these lengths.
    fn send(&mut self, lengths: Lengths, to: usize, class: usize, body: &[u8]) -> u8 {
        let [image, _, out, _, answer] = lengths;
        lent::send(&mut self.image[..image], to, class, body, &mut self.out[..out], &mut self.answer[..answer])
    }

    /// An offer with these lengths.
    fn offer(&mut self, lengths: Lengths, frame: &[u8]) -> u8 {
        let [image, queue, _, _, answer] = lengths;
        lent::offer(&mut self.image[..image], frame, &mut self.queue[..queue], &mut self.answer[..answer])
    }

    /// A deliver with these lengths.
    fn deliver(&mut self, lengths: Lengths) -> u8 {
        let [image, queue, out, body, answer] = lengths.map(|length| 0..length);
        let (queue, out, body) = (&mut self.queue[queue], &mut self.out[out], &mut self.body[body]);
        lent::deliver(&mut self.image[image], queue, out, body, &mut self.answer[answer])
    }

    /// All lent bytes.
    fn bytes(&self) -> Vec<u8> {
        [&self.image, &self.queue, &self.out, &self.body, &self.answer].map(|bytes| &bytes[..]).concat()
    }
}

/// The wrong lengths of those that a call is lent, by their places.
fn wrong(places: &'static [usize]) -> impl Iterator<Item = (Lengths, u8)> {
    let concerns = |lengths: &Lengths| places.iter().any(|place| lengths[*place] != RIGHT[*place]);
    WRONG.into_iter().filter(move |(lengths, _)| concerns(lengths))
}

#[test]
fn set_up() {
    let mut image = vec![MARK; IMAGE + 1];
    for length in [0, IMAGE - 1, IMAGE + 1] {
        assert_eq!(lent::set_up(&mut image[..length], 2, 3, 4), 20);
    }
    for (me, n, cap) in [(3, 3, 4), (2, 13, 14), (2, 3, 10), ((1 << 32) + 2, 3, 4), (2, (1 << 32) + 3, 4)] {
        assert_eq!(lent::set_up(&mut image[..IMAGE], me, n, cap), 1);
    }
    assert_eq!(image, vec![MARK; IMAGE + 1]);
    assert_eq!(lent::set_up(&mut image[..IMAGE], 2, 3, 4), 0);
    let mut fields = vec![0; 628];
    fields[..3].copy_from_slice(&[2, 3, 4]);
    assert_eq!((&image[..IMAGE], image[IMAGE]), (&sealed(fields)[..], MARK));
}

#[test]
fn send() {
    let mut lent = Lent::new(2, 3, 4);
    let before = lent.bytes();
    for (lengths, number) in wrong(&[0, 2, 4]) {
        assert_eq!(lent.send(lengths, 1, ARCHIVE, b"abcde"), number, "{lengths:?}");
    }
    assert_eq!([2, 3, (1 << 32) + 1].map(|to| lent.send(RIGHT, to, ARCHIVE, b"abcde")), [6; 3]);
    assert_eq!(lent.send(RIGHT, 1, ARCHIVE, &[b'a'; BODY + 1]), 7);
    let other = [0, 1, 3, 4, (1 << 8) + ARCHIVE, (1 << 32) + ARCHIVE, (1 << 63) + ARCHIVE, usize::MAX];
    assert_eq!(other.map(|class| lent.send(RIGHT, 1, class, b"abcde")), [21; 8]);
    assert_eq!(lent.bytes(), before);
    assert_eq!(lent.send(RIGHT, 1, ARCHIVE, b"abcde"), 0);
    let frame = spelled(1, 2, 1, 3, 4, &[], b"abcde");
    assert!(lent.out.starts_with(&frame) && lent.out[frame.len()..].iter().all(|byte| *byte == MARK));
    assert_eq!(lent.answer, [0, 0, 0, 0, 0, 0, 0, 0, 0, frame.len() as u8, 0, MARK]);
    assert_eq!(lent.image[3 + 4 * (12 * 2 + 1)], 1);
}

#[test]
fn send_by_each_class() {
    let numbers = [[0, 21, 21, 0], [21, 0, 21, 0], [21, 21, 0, 0], [21, 21, 21, 0], [21; 4]];
    for (class, numbers) in numbers.into_iter().enumerate() {
        // A motion, an exposure, a filing and a note.
        let by = |class| [0, 32, 96, 128].map(|topic| Lent::new(2, 3, 4).send(RIGHT, 1, class, &[topic, 0]));
        assert_eq!((by(class), by((1 << 32) + class)), (numbers, [21; 4]), "{class}");
    }
}

#[test]
fn offer() {
    let mut lent = Lent::new(1, 3, 4);
    let (before, frame) = (lent.bytes(), spelled(1, 0, 1, 3, 4, &[(0, 2, 3)], b"abcde"));
    for (lengths, number) in wrong(&[0, 1, 4]) {
        assert_eq!(lent.offer(lengths, &frame), number, "{lengths:?}");
    }
    assert_eq!([0, 1, frame.len() - 1].map(|length| lent.offer(RIGHT, &frame[..length])), [8; 3]);
    assert_eq!(lent.bytes(), before);
    assert_eq!(lent.offer(RIGHT, &frame), 0);
    assert!(lent.queue.starts_with(&frame) && lent.queue[frame.len()..].iter().all(|byte| *byte == 0));
    assert_eq!((lent.image[627], &lent.answer[..]), (1, &[0, 0, 0, 0, 0, 0, 0, 0, 0, 0, 0, MARK][..]));
}

#[test]
fn deliver_of_none() {
    let mut lent = Lent::new(0, 3, 3);
    for (from, row, count) in [(2, 1, 1), (1, 2, 1), (1, 1, 5)] {
        assert_eq!(lent.offer(RIGHT, &spelled(1, from, 0, 3, 3, &[(row, 0, count)], b"waits")), 0);
    }
    lent.answer.fill(MARK);
    let before = lent.bytes();
    for (lengths, number) in wrong(&[0, 1, 2, 3, 4]) {
        assert_eq!(lent.deliver(lengths), number, "{lengths:?}");
    }
    assert_eq!(lent.bytes(), before);
    assert_eq!(lent.deliver(RIGHT), 0);
    assert_eq!(lent.answer, [0, 0, 0, 0, 0, 0, 3, 0, 0, 0, 0, MARK]);
    lent.answer.fill(MARK);
    assert_eq!(lent.bytes(), before);
}

#[test]
fn deliver_writes_body_and_extra_frames() {
    let mut lent = Lent::new(0, 3, 3);
    assert_eq!([1, 2].map(|to| lent.send(RIGHT, to, 3, &[])), [0; 2]);
    (lent.out, lent.answer) = (vec![MARK; OUTPUT + 1], vec![MARK; ANSWER + 1]);
    assert_eq!(lent.offer(RIGHT, &spelled(1, 2, 0, 3, 3, &[(2, 1, 4)], b"abcde")), 0);
    assert_eq!(lent.deliver(RIGHT), 0);
    assert_eq!(lent.answer, [1, 2, 1, 0, 0, 0, 1, 5, 0, 0, 0, MARK]);
    assert!(lent.body.starts_with(b"abcde\xA5") && lent.out.iter().all(|byte| *byte == MARK));
    assert_eq!(lent.offer(RIGHT, &spelled(1, 1, 0, 3, 3, &[(1, 2, 1)], b"xyz")), 0);
    assert_eq!(lent.deliver(RIGHT), 0);
    let extra = spelled(2, 0, 1, 3, 3, &[(0, 1, 1), (2, 1, 4)], &[]);
    assert_eq!(lent.answer, [1, 1, 1, 0, 0, 0, 1, 3, 1, extra.len() as u8, 0, MARK]);
    assert!(lent.body.starts_with(b"xyzde\xA5") && lent.out.starts_with(&extra) && lent.out[extra.len()] == MARK);
    assert!(lent.queue.iter().all(|byte| *byte == 0));
}

#[test]
fn the_trail() {
    let (extra, mut used) = (spelled(2, 0, 1, 3, 3, &[], &[]), 5);
    let mut file = [MARK; 5 + 12 + 12];
    assert_eq!(lent::write(&mut file[..16], &mut used, &extra), 3);
    assert_eq!(lent::write(&mut file, &mut used, &extra[1..]), 19);
    assert_eq!([17, 29].map(|length| (lent::write(&mut file[..length], &mut used, &extra), used)), [(0, 17), (0, 29)]);
    assert_eq!(file[..], [&[MARK; 5][..], &extra, &extra].concat()[..]);

    let (mut cursor, mut shown) = ([u64::MAX, 2, 0, 0, 0], [7, 7]);
    assert_eq!((lent::step(&file[..28], &mut cursor, &mut shown), shown), (19, [7, 7]));
    assert_eq!((lent::step(&file, &mut cursor, &mut shown), shown), (0, [17, 12]));
    assert_eq!(cursor, [17, 2, 1, 1, 1]);

    let mut most = usize::MAX;
    assert_eq!([0, 65, (1 << 32) + 1].map(|w| lent::walk(&file[5..], w, &mut most)), [19; 3]);
    assert_eq!((lent::walk(&file[6..], 2, &mut most), most), (19, usize::MAX));
    assert_eq!([1, 2].map(|w| (lent::walk(&file[5..], w, &mut most), most)), [(0, 1), (0, 2)]);
    assert_eq!(lent::walk_start(&file, 9), [29, 9, 0, 0, 0]);
}
