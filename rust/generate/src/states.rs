//! States of a node: a sound record and shelf, with frames to offer, from running lists or of any values.

use crate::frames;
use crate::records::{any_caps, any_count, any_n, any_record, stay_below_limit, TOP};
use crate::shelves::{any_shelf, frame_at};
use crate::topics::allowed_class;
use reference::draft::Draft;
use reference::frame::USER;
use reference::list::List;
use reference::random::Random;
use reference::{shelf, Record};

/// A row and a column of M.
type Place = (usize, usize);

/// A record, its shelf, and a frame issued earlier in the list if there is a list.
#[derive(Clone, Debug)]
pub struct State {
    pub record: Record,
    pub shelf: Vec<u8>,
    pub frame: Option<Vec<u8>>,
}

/// A list that runs on between states.
#[derive(Clone, Debug)]
pub struct Runner {
    list: List,
    left: usize,
    /// Delivers come once in so many steps, so that some lists fill their shelves.
    rest: usize,
}

impl Runner {
    /// A list of any n, with any cap for each node, before its first step.
    pub fn start(random: &mut Random) -> Runner {
        let n = any_n(random);
        let list = List::start(&any_caps(random, n)).expect("n and the caps are in range");
        Runner { list, left: random.within(20, 400), rest: random.pick(&[2, 3, 10]) }
    }

    /// Runs a few steps, and gives one node's state.
    pub fn next(&mut self, random: &mut Random) -> State {
        if self.left == 0 {
            *self = Runner::start(random);
        }
        self.left -= 1;
        (0..random.within(1, 6)).for_each(|_| self.step(random));
        let frame = self.any_issue(random).map(|issue| self.list.issued[issue].clone());
        let to = frame.as_ref().map_or(0, |frame| frame[2] as usize);
        let node = if random.once_in(8) { random.below(self.list.n()) } else { to };
        let seat = &self.list.seats[node];
        State { record: seat.record, shelf: seat.shelf.clone(), frame }
    }

    /// One step of the list.
    fn step(&mut self, random: &mut Random) {
        let node = random.below(self.list.n());
        match random.below(3) {
            0 => {
                let to = random.below(self.list.n());
                let body = frames::any_body(random);
                let class = allowed_class(random, &body);
                self.list.send(node, to, class, &body);
            }
            1 => self.offer(random),
            _ if random.once_in(self.rest) => {
                self.list.deliver(node);
            }
            _ => self.offer(random),
        }
    }

    /// Offers an issued frame at its destination.
    fn offer(&mut self, random: &mut Random) {
        if let Some(issue) = self.any_issue(random) {
            self.list.offer(self.list.frame(issue).to(), issue);
        }
    }

    /// Any issued frame, one of the newest more often.
    fn any_issue(&self, random: &mut Random) -> Option<usize> {
        let count = self.list.issued.len();
        let newest = if random.once_in(2) { count } else { count.min(24) };
        count.checked_sub(1 + random.below(newest))
    }
}

/// A state of any values, with few or many frames held.
pub fn any_state(random: &mut Random) -> State {
    let mut record = any_record(random);
    let wanted = random.pick(&[0, 0, 1, 2, 3, 8, 14, 15, 15, 16]);
    let shelf = any_shelf(random, &mut record, wanted);
    State { record, shelf, frame: None }
}

/// A number of nodes, 12 more often, a node, and another one.
fn any_parties(random: &mut Random) -> (usize, usize, usize) {
    let n = if random.once_in(2) { 12 } else { random.within(3, 12) };
    let me = random.below(n);
    (n, me, (me + 1 + random.below(n - 1)) % n)
}

/// A state whose held frame carries as much as it can that the record does not know, under one cap for both, so that its
/// delivery trims most under one cap.
pub fn parted_state(random: &mut Random) -> State {
    let (n, me, from) = any_parties(random);
    let (mut known, mut carried) = parted_places(random, n, me, from);
    let most = known.len().max(carried.len()).max(n);
    let cap = if random.once_in(2) { most } else { random.within(n, most) };
    known.truncate(cap);
    carried.truncate(cap);
    let record = Record { me: me as u8, n: n as u8, cap: cap as u8, ..Record::ZERO };
    brought_state(random, record, &known, Draft { from: from as u8, cap: cap as u8, ..user_to(me, n) }, &carried)
}

/// A state whose held frame carries all that can stand at its sender, or some of it, in columns of others, while the record
/// knows the sender's column and some of its own row; the caps differ, and the delivery trims most of all where the
/// record's is 2 × n − 5 and much is carried.
pub fn told_state(random: &mut Random) -> State {
    let (n, me, from) = any_parties(random);
    let cap = if random.once_in(2) { 2 * n - 5 } else { random.within(n, 2 * n) };
    let cap = cap.clamp(n, n * n);
    let others = || (0..n).filter(|x| *x != me && *x != from);
    let column = (0..n).filter(|row| *row != from).map(|row| (row, from));
    let mut known: Vec<Place> = column.chain(others().map(|column| (me, column))).collect();
    known.truncate(cap);
    let rows = (0..n).filter(|row| *row != me).flat_map(|row| others().map(move |column| (row, column)));
    let mut carried: Vec<Place> = rows.filter(|(row, column)| row != column).collect();
    let senders = if random.once_in(2) { n * n } else { random.within(n, n * n) };
    carried.truncate(senders);
    let record = Record { me: me as u8, n: n as u8, cap: cap as u8, ..Record::ZERO };
    brought_state(random, record, &known, Draft { from: from as u8, cap: senders as u8, ..user_to(me, n) }, &carried)
}

/// The parts of a user frame without entries and body to a node of n.
fn user_to(me: usize, n: usize) -> Draft {
    Draft { kind: USER, from: 0, to: me as u8, n: n as u8, cap: 0, zero: 0, entries: Vec::new(), body: Vec::new() }
}

/// The state of a record with any counts at the known places, and with the frame held that has any at the carried ones.
fn brought_state(random: &mut Random, mut record: Record, known: &[Place], draft: Draft, carried: &[Place]) -> State {
    known.iter().for_each(|(row, column)| *record.entry_mut(*row, *column) = any_count(random));
    stay_below_limit(&mut record);
    let mut draft = Draft { body: frames::any_body(random), ..draft };
    carried.iter().for_each(|(row, column)| draft.set(*row, *column, any_count(random)));
    let frame = draft.bytes();
    let mut shelf = vec![0; shelf::LENGTH];
    shelf[..frame.len()].copy_from_slice(&frame);
    record.held = 1;
    State { record, shelf, frame: Some(frame) }
}

/// Places of half of the other nodes and of column from, and places of the other half and of row from.
fn parted_places(random: &mut Random, n: usize, me: usize, from: usize) -> (Vec<Place>, Vec<Place>) {
    let others: Vec<usize> = (0..n).filter(|x| *x != me && *x != from).collect();
    let start = random.below(others.len());
    let half = |x: usize| (x + start) % others.len() < others.len() / 2;
    let (mut known, mut carried) = (Vec::new(), Vec::new());
    for (index, row) in others.iter().enumerate() {
        let places = others.iter().filter(|column| *column != row).map(|column| (*row, *column));
        if half(index) { &mut known } else { &mut carried }.extend(places);
        known.push((*row, from));
        carried.push((from, *row));
    }
    (known, carried)
}

/// Raises a count of row me or of DELIV to the limit of check 5, in one that leaves record and shelf sound.
pub fn reach_limit(random: &mut Random, state: &mut State) {
    let (me, n) = (state.record.me as usize, state.record.n as usize);
    let x = (me + 1 + random.below(n - 1)) % n;
    let record = &mut state.record;
    let has_room = record.entry(me, x) > 0 || record.standing() < record.cap as usize;
    let held_from_x =
        (0..record.held as usize).filter_map(|place| frame_at(&state.shelf, place)).any(|frame| frame.from() == x);
    if has_room && (held_from_x || random.once_in(2)) {
        *record.entry_mut(me, x) = TOP;
    } else if !held_from_x {
        record.deliv[x] = TOP;
    }
}
