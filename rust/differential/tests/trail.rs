//! The trail on both implementations: generated writes, walks and steps, damage at every byte and bit, every window;
//! and what the proved side answers held against what a trail is to show.

use differential::trails::{class, compare_trail};
use generate::topics::allowed_class;
use generate::trails::Trails;
use generate::{Answer, Call, Case, Outcome, Walked};
use host::trail::{largest, write, Shown, Walk};
use host::Refusal;
use reference::boundary::CAPS_OF_846;
use reference::frame::EXTRA;
use reference::list::List;
use reference::random::Random;
use reference::{trail, DeliverAnswer};
use std::collections::BTreeMap;

/// Seeds of the generated calls.
const SEEDS: [u64; 4] = [701, 702, 703, 704];
/// Walks from each seed.
const WALKS: usize = 30_000;
/// Writes, and steps from any cursor, from each seed.
const OTHERS: usize = 10_000;

/// Why a walk or a step is refused.
const FAULTS: [&str; 11] = [
    "w is out of range",
    "too short for a trailer",
    "a trailer points before the start",
    "n is out of range",
    "the cap is below n",
    "the cap is above n x n",
    "e is above the frame's cap",
    "the frame meets 8",
    "the frame meets 9",
    "the frame meets 10",
    "the frame meets 11",
];

/// How often each class of calls from a seed was met, and each window.
#[derive(Default)]
struct Met {
    seed: u64,
    classes: BTreeMap<(&'static str, &'static str), usize>,
    windows: BTreeMap<usize, usize>,
}

impl Met {
    /// Before the first call.
    fn new(seed: u64) -> Met {
        Met { seed, ..Met::default() }
    }

    /// How many calls were compared.
    fn calls(&self) -> usize {
        self.classes.values().sum()
    }

    /// Compares a case on both sides and counts it; gives what both came to.
    fn add(&mut self, case: &Case) -> Outcome {
        let outcome = compare_trail(case)
            .unwrap_or_else(|difference| panic!("{difference}\ncall {} of seed {}", self.calls() + 1, self.seed));
        *self.classes.entry((case.call.name(), class(case, &outcome))).or_default() += 1;
        if let Call::Walk { w, .. } = case.call {
            *self.windows.entry(w).or_default() += 1;
        }
        outcome
    }

    /// A whole walk on both sides.
    fn walk(&mut self, file: &[u8], w: usize) -> Walked {
        match self.add(&Case::alone(Call::Walk { file: file.to_vec(), w })).answer {
            Answer::Walk(walked) => walked,
            other => panic!("{other:?}"),
        }
    }

    /// One line for each call and class.
    fn table(&self) -> String {
        let line = |((call, class), count): (&(_, _), &usize)| format!("{call:8} {class:36} {count:>8}\n");
        self.classes.iter().map(line).collect()
    }

    /// Adds what another has met.
    fn join(&mut self, other: Met) {
        other.classes.into_iter().for_each(|(class, count)| *self.classes.entry(class).or_default() += count);
        other.windows.into_iter().for_each(|(w, count)| *self.windows.entry(w).or_default() += count);
    }

    /// Each of the classes of a call was met at least so often, and no other.
    fn check(&self, call: &'static str, classes: &[&'static str], least: usize) {
        for class in classes {
            let count = self.classes.get(&(call, *class)).copied().unwrap_or(0);
            assert!(count >= least, "{call}, {class}: only {count} times");
        }
        let other = self.classes.keys().find(|(name, class)| *name == call && !classes.contains(class));
        assert_eq!(other, None);
    }
}

/// The generated calls of a seed.
fn run(seed: u64) -> Met {
    let (mut trails, mut met) = (Trails::new(seed), Met::new(seed));
    for _ in 0..OTHERS {
        met.add(&trails.write());
        met.add(&trails.step());
    }
    for _ in 0..WALKS {
        met.add(&trails.walk());
    }
    met
}

#[test]
fn generated_writes_walks_and_steps() {
    let mut met = Met::default();
    for thread in SEEDS.map(|seed| std::thread::spawn(move || run(seed))) {
        met.join(thread.join().unwrap_or_else(|panic| std::panic::resume_unwind(panic)));
    }
    println!("seeds {SEEDS:?}:\n{}", met.table());
    let count = |name| met.classes.iter().filter(|((call, _), _)| *call == name).map(|(_, count)| count).sum();
    let counts: [usize; 3] = ["write", "walk", "step"].map(count);
    assert_eq!(counts, [OTHERS, WALKS, OTHERS].map(|each| each * SEEDS.len()));
    met.check("write", &[&["written", "no room", "more in use than there is"], &FAULTS[3..]].concat(), 200);
    met.check("walk", &[&["the start"], &FAULTS[..]].concat(), 1_000);
    met.check("step", &[&["the start", "a user frame", "an extra frame"], &FAULTS[..]].concat(), 200);
    assert!((0..=66).all(|w| met.windows[&w] >= if (1..=64).contains(&w) { 1_000 } else { 50 }), "{:?}", met.windows);
    assert!(met.windows[&usize::MAX] >= 50);
}

/// Frames with their sum of lengths at most as many bytes.
fn frames_within(trails: &mut Trails, least: usize, most: usize) -> Vec<Vec<u8>> {
    loop {
        let frames = trails.frames();
        if (least..=most).contains(&frames.iter().map(Vec::len).sum()) {
            return frames;
        }
    }
}

#[test]
fn trails_cut_at_every_byte() {
    let (mut trails, mut met) = (Trails::new(711), Met::new(711));
    for _ in 0..6 {
        let file = frames_within(&mut trails, 1_000, 4_000).concat();
        for cut in 0..=file.len() {
            met.walk(&file[..cut], 1 + cut % 64);
            met.walk(&file[cut..], 64 - cut % 64);
        }
    }
    println!("cut:\n{}", met.table());
    met.check("walk", &["the start", FAULTS[1], FAULTS[2], "the frame meets 8"], 100);
}

#[test]
fn each_bit_of_small_trails_flipped() {
    let (mut trails, mut met) = (Trails::new(712), Met::new(712));
    for _ in 0..8 {
        let frames = frames_within(&mut trails, 60, 300);
        let file = frames.concat();
        for bit in 0..8 * file.len() {
            let mut damaged = file.clone();
            damaged[bit / 8] ^= 1 << (bit % 8);
            let walked = met.walk(&damaged, 1 + bit % 64);
            assert_eq!(walked.most, Err(19), "bit {bit}");
            assert!(walked.shown.len() < frames.len(), "bit {bit}");
        }
    }
    println!("bits flipped:\n{}", met.table());
}

#[test]
fn every_window_on_the_same_trails() {
    let (mut trails, mut met) = (Trails::new(713), Met::new(713));
    for _ in 0..40 {
        let frames = trails.frames();
        let (file, extras) = (frames.concat(), extras_of(&frames));
        for w in 1..=64 {
            assert_eq!(met.walk(&file, w).most, Ok(trail::largest(w, &extras)));
        }
        for w in [0, 65, 66, 1 << 32, usize::MAX] {
            assert_eq!(met.walk(&file, w), Walked { shown: vec![], most: Err(19) });
        }
    }
}

/// Which frames are extra frames, the last first.
fn extras_of(frames: &[Vec<u8>]) -> Vec<bool> {
    frames.iter().rev().map(|frame| frame[0] == EXTRA).collect()
}

/// A file to which the proved side writes the frames one on another from empty, with so much room more.
fn written(frames: &[Vec<u8>], more: usize) -> Vec<u8> {
    let length: usize = frames.iter().map(Vec::len).sum();
    let (mut file, mut used) = (vec![0xC3; length + more], 0);
    for frame in frames {
        let before = used;
        assert_eq!(write(&mut file, &mut used, frame), Ok(()));
        assert_eq!((used, &file[before..used]), (before + frame.len(), &frame[..]));
    }
    assert!(used == length && file[used..].iter().all(|byte| *byte == 0xC3));
    file.truncate(used);
    file
}

/// What the proved side says of a trail: it shows each frame and no other, the last first, refuses nothing, and gives
/// the largest count.
fn check_shown(file: &[u8], frames: &[Vec<u8>], w: usize) {
    let mut walk = Walk::new(file, w);
    let mut end = file.len();
    for frame in frames.iter().rev() {
        assert_eq!((walk.left(), walk.largest()), (end, None));
        let shown = walk.next().expect("a frame is left").expect("the trail is whole");
        assert_eq!(shown, Shown { start: end - frame.len(), length: frame.len() });
        assert_eq!(file[shown.range()], frame[..]);
        end = shown.start;
    }
    let most = trail::largest(w, &extras_of(frames));
    assert_eq!([walk.next(), walk.next()], [None; 2]);
    assert_eq!((walk.left(), walk.largest(), largest(file, w)), (0, Some(most), Ok(most)));
}

#[test]
fn a_written_trail_shows_its_frames_and_no_other() {
    let (mut trails, mut random) = (Trails::new(714), Random::new(714));
    let mut most = 0;
    for _ in 0..2_000 {
        let frames = trails.frames();
        let file = written(&frames, random.pick(&[0, 1, 11, 12, 802]));
        for w in [1, random.within(1, 64), frames.len().clamp(1, 64), 64] {
            check_shown(&file, &frames, w);
        }
        most = largest(&file, 64).expect("the trail is whole").max(most);
    }
    assert_eq!(most, 64);
}

#[test]
fn a_refused_write_and_a_refused_walk() {
    let frames = frames_within(&mut Trails::new(715), 60, 300);
    let file = written(&frames, 0);
    let (mut full, mut used) = (file.clone(), file.len());
    assert_eq!(write(&mut full, &mut used, &frames[0]), Err(Refusal::TooShort));
    assert_eq!(write(&mut full, &mut used, &frames[0][1..]), Err(Refusal::Trail));
    assert_eq!((&full, used), (&file, file.len()));
    let damaged = [b"bad", &file[..]].concat();
    let mut walk = Walk::new(&damaged, 5);
    let shown: Vec<_> = walk.by_ref().collect();
    assert_eq!((shown.len(), shown.last()), (frames.len() + 1, Some(&Err(Refusal::Trail))));
    assert_eq!((walk.next(), walk.left(), walk.largest()), (None, 3, None));
    assert_eq!([largest(&damaged, 5), largest(&file, 0), largest(&file, 65)], [Err(Refusal::Trail); 3]);
    let mut walk = Walk::new(&file, 65);
    assert_eq!([walk.next(), walk.next()], [Some(Err(Refusal::Trail)), None]);
    assert_eq!((walk.left(), walk.largest()), (file.len(), None));
}

/// The frames that the nodes of a list with these caps deliver, in that order, over links that lose and reorder a few.
fn delivered(random: &mut Random, caps: &[usize], steps: usize) -> Vec<Vec<u8>> {
    let mut list = List::start(caps).expect("n and the caps are in range");
    let n = list.n();
    let mut frames = Vec::new();
    for _ in 0..steps {
        let (from, to, length) = (random.below(n), random.below(n), random.below(65));
        let body = random.bytes(length);
        list.send(from, to, allowed_class(random, &body), &body);
        for issue in list.issued.len().saturating_sub(9)..list.issued.len() {
            let node = list.frame(issue).to();
            if random.once_in(3) {
                list.offer(node, issue);
            }
            if let (DeliverAnswer::Delivered(delivery), _) = list.deliver(node) {
                let issue = list.find(delivery.from, node, delivery.number).expect("it was issued");
                frames.push(list.issued[issue].clone());
            }
        }
    }
    frames
}

#[test]
fn the_frames_that_a_plant_delivers() {
    let mut random = Random::new(716);
    let (mut users, mut extras) = (0, 0);
    let plants: [&[usize]; 8] =
        [&[2; 2], &[3; 3], &[4; 4], &[4, 16, 4, 9], &[9; 7], &[12; 12], &[144; 12], &CAPS_OF_846];
    for caps in plants {
        let frames = delivered(&mut random, caps, 300);
        let file = written(&frames, 0);
        (1..=64).for_each(|w| check_shown(&file, &frames, w));
        let count = extras_of(&frames).into_iter().filter(|extra| *extra).count();
        (users, extras) = (users + frames.len() - count, extras + count);
    }
    println!("{users} user frames and {extras} extra frames in 8 trails");
    assert!(users > 500 && extras > 100, "{users} {extras}");
}
