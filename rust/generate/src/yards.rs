//! Inputs of the yard: valid ones, and ones that are damaged.

use crate::records::any_caps;
use crate::texts::damage_byte;
use reference::list::List;
use reference::plant::CLASS;
use reference::random::Random;
use reference::yard::{INPUT, ISSUES};

/// Bytes that damage an input: those of its lines, other blanks and signs, and bytes that are no text.
const BYTES: &[u8] = b"0123456789SADNRTX \n\r\t-+.\0\xFF";

/// An input of any kind.
pub fn any_input(random: &mut Random) -> Vec<u8> {
    let mut input = valid(random);
    match random.below(11) {
        0 => damage_byte(random, &mut input, BYTES),
        1 => damage_line(random, &mut input),
        2 | 3 => damage_first(random, &mut input),
        4 => input.truncate(random.below(input.len() + 1)),
        5 => grow(random, &mut input),
        _ => (),
    }
    input
}

/// A valid input, whose lines may be refused but are of the right form.
pub fn valid(random: &mut Random) -> Vec<u8> {
    let n = random.within(2, 4);
    let caps = if random.once_in(3) { vec![n; n] } else { any_caps(random, n) };
    let mut writer = Writer::start(random, &caps);
    let lines = random.pick(&[0, 5, 40, 150, 150, 500]);
    let style = random.below(3);
    for _ in 0..random.within(0, lines) {
        match style {
            0 => writer.any_line(random),
            1 => writer.bring(random),
            _ => writer.fill(random),
        }
    }
    writer.input.into_bytes()
}

/// Writes lines while a list follows them, so that they can be about frames that are there.
struct Writer {
    input: String,
    list: List,
}

impl Writer {
    /// An input of its first line.
    fn start(random: &mut Random, caps: &[usize]) -> Writer {
        let numbers = [&[caps.len()], caps].concat();
        let fields: Vec<String> = numbers.iter().map(|number| padded(random, *number)).collect();
        let list = List::start(caps).expect("n and the caps are in range");
        Writer { input: fields.join(" ") + "\n", list }
    }

    /// Adds a line if there is room for it, and says whether there is room for more issues.
    fn add(&mut self, line: String) -> bool {
        if self.input.len() + line.len() < INPUT {
            self.input.push_str(&line);
            self.input.push('\n');
        }
        self.list.issued.len() + self.list.n() <= ISSUES
    }

    /// A send, with leading zeros at times.
    fn send(&mut self, i: usize, j: usize, random: &mut Random) {
        let line = format!("S {} {}", padded(random, i), padded(random, j));
        if self.add(line) && i < self.list.n() {
            self.list.send(i, j, CLASS, &[]);
        }
    }

    /// An offer of an issue counted from 1.
    fn offer(&mut self, m: usize) {
        self.add(format!("A {m}"));
        if (1..=self.list.issued.len()).contains(&m) {
            self.list.offer(self.list.frame(m - 1).to(), m - 1);
        }
    }

    /// A deliver.
    fn deliver(&mut self, node: usize) {
        if self.add(format!("D {node}")) && node < self.list.n() {
            self.list.deliver(node);
        }
    }

    /// A line about any node or issue.
    fn any_line(&mut self, random: &mut Random) {
        let (node, other) = (any_node(random, self.list.n()), any_node(random, self.list.n()));
        let issue = any_issue(random, self.list.issued.len());
        match random.below(10) {
            0..=3 => self.send(node, other, random),
            4..=6 => self.offer(issue),
            _ => self.deliver(node),
        }
    }

    /// Sends, or brings a frame to its destination and delivers there.
    fn bring(&mut self, random: &mut Random) {
        let count = self.list.issued.len();
        if count == 0 || random.once_in(8) {
            return self.any_line(random);
        }
        if random.once_in(2) {
            let (i, j) = (random.below(self.list.n()), random.below(self.list.n()));
            return self.send(i, j, random);
        }
        let issue = random.within(count.saturating_sub(10), count - 1);
        self.offer(issue + 1);
        self.deliver(self.list.frame(issue).to());
    }

    /// Sends and offers to one node with few deliveries, so that its shelf fills.
    fn fill(&mut self, random: &mut Random) {
        let newest = self.list.issued.len();
        match random.below(12) {
            0 => self.any_line(random),
            1..=5 => self.send(0, 1, random),
            _ => self.offer(random.within(newest.min(2), newest)),
        }
    }
}

/// A node that is mostly below n.
fn any_node(random: &mut Random, n: usize) -> usize {
    match random.below(40) {
        0 => random.pick(&[n, n + 1, 255, 256, 257, 258, 999]),
        _ => random.below(n),
    }
}

/// An issue that is mostly made.
fn any_issue(random: &mut Random, sends: usize) -> usize {
    match random.below(20) {
        0 => random.pick(&[0, sends + 1, 64, 65, 256, 257, 999]),
        1..=4 => sends,
        _ => random.within(1, sends.max(1)),
    }
}

/// A number, with leading zeros at times.
fn padded(random: &mut Random, number: usize) -> String {
    match random.below(12) {
        0 => format!("{number:02}"),
        1 => format!("{number:03}"),
        _ => format!("{number}"),
    }
}

/// Puts another line in the place of one.
fn damage_line(random: &mut Random, input: &mut Vec<u8>) {
    let lines: [&[u8]; 24] = [
        b"",
        b" ",
        b"S",
        b"S 0",
        b"S 0 1 2",
        b"S  0 1",
        b" S 0 1",
        b"S 0 1 ",
        b"S 0 1\r",
        b"S\t0 1",
        b"S 0 0001",
        b"s 0 1",
        b"A",
        b"A 1 1",
        b"A 0001",
        b"A  1",
        b"D",
        b"D 0 1",
        b"D 0000",
        b"D 0 ",
        b"D -1",
        b"T 1",
        b"3 3 3 3",
        b"D 1\0",
    ];
    let ends: Vec<usize> = (0..input.len()).filter(|index| input[*index] == b'\n').collect();
    let at = random.pick(&ends) + 1;
    let line = [random.pick(&lines), b"\n"].concat();
    input.splice(at..at, line);
}

/// Puts another first line in the place of the right one.
fn damage_first(random: &mut Random, input: &mut Vec<u8>) {
    let lines: [&[u8]; 18] = [
        b"1 1",
        b"0",
        b"5 5 5 5 5 5",
        b"258 3 3",
        b"3",
        b"3  3 3 3",
        b" 3 3 3 3",
        b"3 3 3 3 ",
        b"3 3 3 ",
        b"3 3  3",
        b"3 3 3 3\r",
        b"3\t3 3 3",
        b"003 009 003 03",
        b"3 x 3 3",
        b"3 3 3 -3",
        b"x",
        b"",
        b"S 0 1",
    ];
    let line = if random.once_in(4) { random.pick(&lines).to_vec() } else { other_caps(random).into_bytes() };
    let end = input.iter().position(|byte| *byte == b'\n').unwrap_or(0);
    input.splice(..end, line);
}

/// A first line with fewer or more caps than n, with a cap out of range, or with a field of four digits.
fn other_caps(random: &mut Random) -> String {
    let n = random.within(2, 4);
    let mut numbers = [vec![n], any_caps(random, n)].concat();
    let index = random.within(1, n);
    let way = random.below(8);
    match way {
        0 => numbers.truncate(random.within(1, n)),
        1 => numbers.extend(vec![n; random.pick(&[1, 1, 2, 9])]),
        2 => numbers.truncate(2),
        3 | 4 => numbers[index] = random.pick(&[n - 1, n - 1, 1, 0]),
        5 | 6 => numbers[index] = random.pick(&[n * n + 1, n * n + 1, 17, 255, 256 + n, 999]),
        _ => (),
    }
    let mut fields: Vec<String> = numbers.iter().map(usize::to_string).collect();
    if way == 7 {
        let position = if random.once_in(3) { n } else { random.below(n + 1) };
        let field = &mut fields[position];
        *field = format!("{field:0>4}");
    }
    fields.join(" ")
}

/// Grows the input to about its longest length.
fn grow(random: &mut Random, input: &mut Vec<u8>) {
    let length = random.pick(&[INPUT - 1, INPUT, INPUT + 1, INPUT + 100]);
    let filler: &[u8] = random.pick(&[b"\n".as_slice(), b"D 0\n", b"S 0 0\n"]);
    while input.len() + filler.len() <= length {
        input.extend(filler);
    }
    while input.len() < length {
        input.push(b'\n');
    }
}
