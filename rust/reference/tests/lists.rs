//! Whole lists over hostile links: loss, repetition, delay, reorder.

use reference::ceiling::{self, Counts, Step};
use reference::draft::repair;
use reference::frame::USER;
use reference::history::History;
use reference::list::List;
use reference::random::Random;
use reference::rights::OURS;
use reference::*;

/// A list with its history, and what the caller of each step sees.
struct Run {
    list: List,
    history: History,
    steps: Vec<Step>,
    /// For each issue, whether it is lost: it is then not brought for a long time.
    lost: Vec<bool>,
    /// The issue and the class of each accepted send.
    said: Vec<(usize, usize)>,
    /// How many sends were refused with 21.
    unsaid: usize,
    /// How many frames were held that carry more entries than their node's cap.
    beyond: usize,
    random: Random,
}

impl Run {
    fn start(seed: u64) -> Run {
        let mut random = Random::new(seed);
        let n = random.within(2, 12);
        let caps: Vec<usize> = (0..n).map(|_| any_cap(&mut random, n)).collect();
        let (list, history) = (List::start(&caps).unwrap(), History::start(&caps));
        let (steps, lost, said) = (Vec::new(), Vec::new(), Vec::new());
        Run { list, history, steps, lost, said, unsaid: 0, beyond: 0, random }
    }

    /// Loses some of the frames that were issued since.
    fn lose(&mut self) {
        while self.lost.len() < self.list.issued.len() {
            self.lost.push(self.random.once_in(5));
        }
    }

    fn send(&mut self) {
        let (i, j) = (self.random.below(self.list.n()), self.random.below(self.list.n() + 1));
        let length = self.random.below(67);
        let body = self.random.bytes(length);
        let class = self.class(&body);
        let issue = self.list.issued.len();
        let answer = self.list.send(i, j, class, &body);
        self.steps.push(Step::send(i, &answer, self.list.issued.len() - issue));
        match answer {
            SendAnswer::Refused(21) => {
                assert!(i != j && j < self.list.n() && length <= 64);
                self.unsaid += 1;
            }
            SendAnswer::Refused(number) => assert!(number == 6 || number == 7),
            SendAnswer::Sent { .. } => {
                self.history.send(i, j, class, &body, &self.list.issued[issue..]).unwrap();
                self.said.push((issue, class));
                self.lose();
            }
        }
    }

    /// Any class, mostly one that may send the body.
    fn class(&mut self, body: &[u8]) -> usize {
        if self.random.once_in(4) {
            return self.random.pick(&[0, 1, 2, 3, 4, 256, usize::MAX]);
        }
        match body.first() {
            Some(0..=31) => 0,
            Some(32..=95) => 1,
            Some(96..=127) => 2,
            _ => self.random.below(4),
        }
    }

    /// The rights are kept, and would not be if one of the sends had said something that its class may not.
    fn check_rights(&mut self) {
        let mut log = self.list.issued.clone();
        self.history.rights_kept(&OURS, &log).unwrap();
        let with_body = self.said.iter().copied().filter(|(issue, _)| log[*issue][4] > 0).collect::<Vec<_>>();
        let (issue, class) = self.random.pick(&with_body);
        let start = 8 + 6 * log[issue][3] as usize;
        log[issue][start] = if class == 0 { self.random.within(32, 127) } else { self.random.below(32) } as u8;
        repair(&mut log[issue]);
        let wrong = self.history.rights_kept(&OURS, &log).unwrap_err();
        assert!(wrong.starts_with(&format!("issue {issue} ")) && wrong.contains(&format!("class {class}")), "{wrong}");
    }

    /// What the answers come to, which is within the ceiling on extras.
    fn counts(&self) -> Counts {
        ceiling::check(&self.list.caps(), &self.steps, &self.list.issued).unwrap()
    }

    /// Brings one of the newest or of all frames, mostly to its destination.
    fn offer(&mut self) {
        let count = self.list.issued.len();
        let newest = if self.random.once_in(2) { count } else { count.min(20) };
        let Some(issue) = count.checked_sub(1 + self.random.below(newest)) else { return };
        if self.lost[issue] && !self.random.once_in(40) {
            return;
        }
        let stray = self.random.once_in(10);
        let node = if stray { self.random.below(self.list.n()) } else { self.list.frame(issue).to() };
        self.bring(node, issue);
    }

    /// An offer of an issue at a node.
    fn bring(&mut self, node: usize, issue: usize) {
        self.steps.push(Step::offer(node));
        if let OfferAnswer::Held { held, .. } = self.list.offer(node, issue) {
            assert_eq!(self.history.offer(node, &self.list.issued[issue]), Ok(issue));
            assert!(held <= 16 && held == self.history.held_at(node));
            let cap = self.list.seats[node].record.cap as usize;
            self.beyond += usize::from(self.list.frame(issue).entry_count() > cap);
        }
    }

    fn deliver(&mut self, node: usize) -> bool {
        let before = self.list.seats[node].record.held as usize;
        let (answer, body) = self.list.deliver(node);
        self.steps.push(Step::deliver(node, &answer, self.list.issued.len() - self.lost.len()));
        match answer {
            DeliverAnswer::Refused(number) => panic!("deliver gave {number}"),
            DeliverAnswer::None { looked } => {
                assert_eq!(looked, before);
                self.history.none(node);
                false
            }
            DeliverAnswer::Delivered(delivery) => {
                self.history.delivery(node, &delivery, &body, &self.list.issued[self.lost.len()..]).unwrap();
                self.lose();
                true
            }
        }
    }

    fn step(&mut self) {
        match self.random.below(10) {
            0..=2 => self.send(),
            3..=6 => self.offer(),
            _ => {
                let node = self.random.below(self.list.n());
                self.deliver(node);
            }
        }
    }

    /// Matrices are within the caps of their nodes, and every record keeps the rules.
    fn check_records(&self) {
        for seat in &self.list.seats {
            assert!(seat.record.keeps_rules() && seat.record.standing() <= seat.record.cap as usize);
            assert!(seat.record.held < 16 || self.has_ready(seat));
        }
    }

    fn has_ready(&self, seat: &list::Seat) -> bool {
        shelf::frames(&seat.shelf, 16).any(|frame| frame.is_deliverable(&seat.record.deliv))
    }

    /// Frames of one pair of nodes are delivered in the order of their numbers, which are 1, 2, 3 and so on.
    fn check_numbers(&self) {
        let mut counts = [[0; 12]; 12];
        for issue in 0..self.list.issued.len() {
            let frame = self.list.frame(issue);
            let count = &mut counts[frame.from()][frame.to()];
            *count += 1;
            assert_eq!(frame.number(), *count);
            let delivered = self.list.seats[frame.to()].record.deliv[frame.from()] >= *count;
            assert_eq!(self.history.is_delivered(issue), delivered);
        }
    }

    /// At each node the earliest undelivered frame, once offered, lets a deliver go on.
    fn check_progress(&self) {
        for node in 0..self.list.n() {
            let Some(issue) = self.history.earliest_to(node) else { continue };
            let mut list = self.list.clone();
            match list.offer(node, issue) {
                OfferAnswer::Held { deliverable, .. } => assert!(deliverable),
                OfferAnswer::Refused(15) => (),
                OfferAnswer::Refused(16) => assert_eq!(list.seats[node].record.held, 16),
                other => panic!("{other:?}"),
            }
            assert!(matches!(list.deliver(node).0, DeliverAnswer::Delivered(_)));
        }
    }

    /// Brings every undelivered frame, the earliest first, until none is left.
    fn drain(&mut self) {
        while let Some(issue) = self.history.earliest() {
            let node = self.list.frame(issue).to();
            self.bring(node, issue);
            assert!(self.deliver(node));
        }
    }
}

/// A cap for one of n nodes, often the least or the largest.
fn any_cap(random: &mut Random, n: usize) -> usize {
    let between = random.within(n, n * n);
    random.pick(&[n, n, n * n, between])
}

#[test]
fn lists_keep_their_promises() {
    let (mut delivered, mut extras, mut unsaid, mut beyond, mut counts) = (0, 0, 0, 0, Vec::new());
    for seed in 0..100 {
        let mut run = Run::start(seed);
        for step in 0..600 {
            run.step();
            if step % 100 == 99 {
                run.check_progress();
            }
            run.check_records();
        }
        run.history.check_causal_order().unwrap();
        run.check_numbers();
        run.drain();
        run.history.check_causal_order().unwrap();
        run.check_numbers();
        run.check_rights();
        counts.push(run.counts());
        unsaid += run.unsaid;
        beyond += run.beyond;
        delivered += run.list.issued.len();
        extras += (0..run.list.issued.len()).filter(|issue| run.list.frame(*issue).kind() != USER).count();
    }
    assert!(delivered > 10_000 && extras > 1_000 && unsaid > 1_000, "{delivered} {extras} {unsaid}");
    let counts: Counts = counts.into_iter().sum();
    assert_eq!((counts.sent + extras, counts.delivered + extras, counts.extras()), (delivered, delivered, extras));
    assert!(counts.extras_of_sends > 0 && counts.several > 100 && beyond > 100, "{counts:?}, {beyond}");
    println!("{delivered} frames delivered, {extras} of them extras, {unsaid} sends refused with 21");
    println!("{beyond} frames held that carry more entries than their node's cap");
}

#[test]
fn a_list_has_a_cap_in_range_for_each_node() {
    let refused: [&[usize]; 8] = [&[], &[1], &[13; 13], &[2, 3, 3], &[3, 2, 3], &[3, 3, 10], &[2, 5], &[0; 2]];
    for caps in refused {
        assert_eq!(List::start(caps).err(), Some(1), "{caps:?}");
    }
    let taken: [&[usize]; 4] = [&[2, 4], &[3, 9, 4], &[12; 12], &[144; 12]];
    for caps in taken {
        let list = List::start(caps).unwrap();
        let records: Vec<_> = list.seats.iter().map(|seat| (seat.record.me, seat.record.n)).collect();
        let expected: Vec<_> = (0..caps.len()).map(|me| (me as u8, caps.len() as u8)).collect();
        assert_eq!((list.caps(), records), (caps.to_vec(), expected));
    }
    assert_eq!([0, 1, 13].map(|n| List::alike(n, n).err()), [Some(1); 3]);
}
