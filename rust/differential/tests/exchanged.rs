//! Neighbouring bytes exchanged, as a repeater does it, at every place of offered and held frames, of images and of trails;
//! and the frames, images and trails of an old plant: on both implementations, and held to the numbers that are due.

use differential::compare;
use differential::taken::{calls, numbers, taken_state};
use differential::trails::compare_trail;
use generate::neighbours::{exchanged, places};
use generate::shelves::frame_at;
use generate::states::{Runner, State};
use generate::trails::Trails;
use generate::{Answer, Buffers, Call, Case, Made, Outcome, Walked};
use reference::boundary;
use reference::draft::{write_old_sum, Draft};
use reference::frame::{Frame, EXTRA, USER};
use reference::host::ANSWER;
use reference::image::IMAGE;
use reference::list::List;
use reference::node::OUTPUT;
use reference::random::Random;
use reference::{shelf, Record};
use std::collections::BTreeMap;

/// What stands in lent outputs before a call.
const FILL: u8 = 0xC3;

/// How often each class of a test was met.
#[derive(Default)]
struct Met(BTreeMap<(&'static str, &'static str), usize>);

impl Met {
    /// Counts one of a class.
    fn add(&mut self, of: &'static str, class: &'static str) {
        *self.0.entry((of, class)).or_default() += 1;
    }

    /// Prints the counts, of which each of these has to be there at least so often.
    fn check(&self, of: &[&'static str], classes: &[(&'static str, usize)]) {
        self.0.iter().for_each(|((of, class), count)| println!("{of}, {class}: {count}"));
        for of in of {
            for (class, least) in classes {
                let count = self.0.get(&(*of, *class)).copied().unwrap_or(0);
                assert!(count >= *least, "{of}, {class}: only {count} times");
            }
        }
    }
}

/// What both sides came to.
fn both(case: &Case) -> Outcome {
    compare(case).unwrap_or_else(|difference| panic!("{difference}"))
}

/// An offer of a frame in a state.
fn offer(state: &State, frame: &[u8]) -> Outcome {
    let buffers = Buffers { shelf: state.shelf.clone(), ..Buffers::default() };
    both(&Case::written(&state.record, Call::Offer { frame: frame.to_vec() }, buffers))
}

/// The state at the destination of an issued frame with nothing held there.
fn before_offer(list: &List, issue: usize) -> State {
    let frame = list.issued[issue].clone();
    let record = Record { held: 0, ..list.seats[frame[2] as usize].record };
    State { record, shelf: vec![0; shelf::LENGTH], frame: Some(frame) }
}

/// The states of the largest frame, 802 bytes, and of the user frame and the extra frame of the largest send.
fn boundary_states() -> [State; 3] {
    let [mut first, mut second] = [144, 110].map(|cap| List::alike(12, cap).expect("n and cap are in range"));
    let largest = boundary::frame_of_802(&mut first);
    let extra = boundary::send_of_814(&mut second);
    [before_offer(&first, largest), before_offer(&second, extra - 1), before_offer(&second, extra)]
}

/// So many states from running lists in which the offer of an issued frame is taken.
fn list_states(random: &mut Random, count: usize) -> Vec<State> {
    let mut runner = Runner::start(random);
    let states = std::iter::repeat_with(|| runner.next(random));
    let taken = |state: &State| state.frame.as_ref().is_some_and(|frame| offer(state, frame).answer.number() == 0);
    states.filter(taken).take(count).collect()
}

/// States in which the offer of a frame is taken: of lists, of any values, and with the largest frames.
fn states(seed: u64, count: usize) -> Vec<(State, Vec<u8>)> {
    let mut random = Random::new(seed);
    let mut states = list_states(&mut random, count);
    states.extend((0..count).map(|_| taken_state(&mut random)));
    states.extend(boundary_states());
    let with_frame = |state: State| {
        let frame = state.frame.clone().expect("there is a frame to offer");
        (state, frame)
    };
    states.into_iter().map(with_frame).collect()
}

/// A frame's kind in words.
fn kind_of(frame: &[u8]) -> &'static str {
    match (frame[0], frame.len()) {
        (EXTRA, _) => "an extra frame",
        (_, 802) => "the largest frame",
        _ => "a user frame",
    }
}

/// What the neighbours at a place of bytes that end with a sum are: unequal ones at the sum make the count another, or
/// the sum.
fn class_of(bytes: &[u8], place: usize) -> &'static str {
    match (places(bytes).contains(&place), bytes[place] == bytes[place + 1]) {
        (_, true) => "equal",
        (true, _) => "unequal",
        _ => "at the sum",
    }
}

/// The classes of places with the least count of each; "at the sum" are the last two places of a run of bytes.
fn classes(unequal: usize) -> [(&'static str, usize); 3] {
    [("unequal", unequal), ("equal", unequal / 4), ("at the sum", 2)]
}

/// Kinds of frames.
const KINDS: [&str; 3] = ["a user frame", "an extra frame", "the largest frame"];

#[test]
fn at_every_place_of_an_offered_frame() {
    let mut met = Met::default();
    for (state, frame) in states(81, 400) {
        let taken = offer(&state, &frame);
        assert_eq!(taken.answer.number(), 0);
        for place in 0..frame.len() - 1 {
            let outcome = offer(&state, &exchanged(&frame, place));
            let class = class_of(&frame, place);
            match class {
                "equal" => assert_eq!(outcome, taken),
                _ => assert_eq!(outcome.answer.number(), 8, "place {place} of {frame:?}"),
            }
            met.add(kind_of(&frame), class);
        }
    }
    met.check(&KINDS, &classes(400));
}

/// A deliver, and an offer of a frame, with this image and shelf.
fn calls_with_shelf(image: &[u8], shelf: &[u8], frame: &[u8]) -> [Outcome; 2] {
    let (out, body_out, answer) = (vec![FILL; OUTPUT], vec![FILL; Record::BODY], vec![FILL; ANSWER]);
    let buffers = Buffers { shelf: shelf.to_vec(), out, body_out, answer, ..Buffers::default() };
    [Call::Deliver, Call::Offer { frame: frame.to_vec() }]
        .map(|call| both(&Case { image: image.to_vec(), made: Made::Written, call, buffers: buffers.clone() }))
}

#[test]
fn at_every_place_of_a_held_frame() {
    let (mut met, mut random) = (Met::default(), Random::new(82));
    for (state, frame) in states(83, 300) {
        let Outcome { image, buffers: Buffers { shelf, .. }, .. } = offer(&state, &frame);
        let index =
            if random.once_in(2) { state.record.held as usize } else { random.below(state.record.held as usize) };
        let held = frame_at(&shelf, index).expect("a held frame").bytes().to_vec();
        let sound = calls_with_shelf(&image, &shelf, &frame);
        assert_eq!(sound.each_ref().map(|outcome| outcome.answer.number()), [0, 15]);
        for place in 0..held.len() - 1 {
            let other = exchanged(&shelf, Record::FRAME * index + place);
            let outcomes = calls_with_shelf(&image, &other, &frame);
            let class = class_of(&held, place);
            match class {
                "equal" => assert_eq!(outcomes, sound),
                _ => assert_eq!(outcomes.map(|outcome| outcome.answer.number()), [4; 2], "place {place}"),
            }
            met.add(kind_of(&held), class);
        }
    }
    met.check(&KINDS, &classes(400));
}

#[test]
fn at_every_place_of_an_image() {
    let mut met = Met::default();
    for (state, _) in states(84, 60) {
        let image = state.record.to_image();
        let taken = calls(&state, &image, ANSWER);
        assert_eq!(taken.each_ref().map(|outcome| outcome.answer.number()), [0; 3]);
        for place in 0..IMAGE - 1 {
            let outcomes = calls(&state, &exchanged(&image, place), ANSWER);
            let class = class_of(&image, place);
            match class {
                "equal" => assert_eq!(outcomes, taken),
                _ => assert_eq!(outcomes.map(|outcome| outcome.answer.number()), [20; 3], "place {place}"),
            }
            met.add("an image", class);
        }
    }
    met.check(&["an image"], &classes(1_000));
}

/// A whole walk on both sides.
fn walk(file: &[u8], w: usize) -> Walked {
    let outcome = compare_trail(&Case::alone(Call::Walk { file: file.to_vec(), w }));
    match outcome.unwrap_or_else(|difference| panic!("{difference}")).answer {
        Answer::Walk(walked) => walked,
        other => panic!("{other:?}"),
    }
}

/// Trails of two to eight frames, and one that ends with the largest frame.
fn trails(seed: u64, count: usize) -> Vec<Vec<Vec<u8>>> {
    let mut trails = Trails::new(seed);
    let some = std::iter::repeat_with(|| trails.frames()).filter(|frames| (2..=8).contains(&frames.len()));
    let mut all: Vec<_> = some.take(count).collect();
    let [largest, other, extra] = boundary_states().map(|state| state.frame.expect("there is a frame"));
    all.push(vec![extra, other, largest]);
    all
}

/// What the last byte of a trail's frame, at a place, and the next frame's first are.
fn class_between(file: &[u8], place: usize) -> &'static str {
    if file[place] == file[place + 1] {
        "equal"
    } else {
        "between two frames"
    }
}

/// Exchanges neighbours at every place of a trail's frame, and its last byte with the next frame's first: of unequal ones
/// the walk is refused with 19. In front of the sum it shows the frames behind it first (where a byte of the count is one
/// of them, a walk may also show what was never written, below; in none of these trails it does); between two frames the
/// next one is bad.
fn try_frame(met: &mut Met, frames: &[Vec<u8>], index: usize) {
    let (file, frame) = (frames.concat(), &frames[index]);
    let whole = walk(&file, 1);
    let behind = whole.shown[..frames.len() - 1 - index].to_vec();
    let start: usize = frames[..index].iter().map(Vec::len).sum();
    let of = if behind.is_empty() { "the last frame" } else { "an earlier frame" };
    for place in 0..frame.len() - usize::from(behind.is_empty()) {
        let walked = walk(&exchanged(&file, start + place), 1 + place % 64);
        let class = if place + 1 < frame.len() { class_of(frame, place) } else { class_between(&file, start + place) };
        let (shown, most) = match class {
            "unequal" => (behind.clone(), Err(19)),
            "equal" => (whole.shown.clone(), walked.most),
            "at the sum" => (walked.shown.clone(), Err(19)),
            _ => (behind[..behind.len() - 1].to_vec(), Err(19)),
        };
        assert_eq!((class == "equal", walked.clone()), (walked.most.is_ok(), Walked { shown, most }), "place {place}");
        met.add(of, class);
    }
}

#[test]
fn at_every_place_of_a_trail() {
    let mut met = Met::default();
    for frames in trails(85, 150) {
        (0..frames.len()).for_each(|index| try_frame(&mut met, &frames, index));
    }
    met.check(&["the last frame", "an earlier frame"], &classes(2_000));
    assert!(met.0[&("an earlier frame", "between two frames")] > 100);
}

#[test]
fn a_walk_led_astray_by_its_count_is_refused_all_the_same() {
    // From byte 26 on stand a header and 9; exchanged with the count's first byte, 35, they read as a frame of 13 bytes.
    let body = [&[0; 1][..], &[209; 17], &[1, 0, 1, 0, 1, 3, 3, 0, 9]].concat();
    let frame = Draft { kind: USER, from: 0, to: 1, n: 3, cap: 3, zero: 0, entries: vec![], body }.bytes();
    assert_eq!(walk(&frame, 1), Walked { shown: vec![(0, 39)], most: Ok(0) });
    assert_eq!(walk(&exchanged(&frame, 34), 1), Walked { shown: vec![(26, 13)], most: Err(19) });
}

/// The bytes with an old plant's sum.
fn old(bytes: &[u8]) -> Vec<u8> {
    let mut bytes = bytes.to_vec();
    write_old_sum(&mut bytes);
    bytes
}

/// The parts of a frame.
fn draft_of(frame: &[u8]) -> Draft {
    Draft::of(Frame::first_of(frame).expect("a whole frame"))
}

/// A user frame with another body, of which an old plant's sum is the right one by chance.
fn with_one_sum(random: &mut Random, frame: &[u8]) -> Vec<u8> {
    let draft = draft_of(frame);
    let other = || Draft { body: random.bytes(Record::BODY), ..draft.clone() }.bytes();
    std::iter::repeat_with(other).find(|bytes| old(bytes) == *bytes).expect("one of about 65,536 is such a frame")
}

#[test]
fn an_old_plants_frames() {
    let (mut met, mut random) = (Met::default(), Random::new(86));
    for (index, (state, frame)) in states(87, 300).into_iter().enumerate() {
        let by_chance = index % 20 == 0 && frame[0] == USER;
        let frame = if by_chance { with_one_sum(&mut random, &frame) } else { frame };
        let same = old(&frame) == frame;
        assert_eq!(offer(&state, &old(&frame)).answer.number(), if same { 0 } else { 8 });
        let Outcome { image, buffers: Buffers { mut shelf, .. }, .. } = offer(&state, &frame);
        let place = Record::FRAME * state.record.held as usize;
        write_old_sum(&mut shelf[place..place + frame.len()]);
        let given = calls_with_shelf(&image, &shelf, &frame).map(|outcome| outcome.answer.number());
        assert_eq!(given, if same { [0, 15] } else { [4; 2] });
        met.add("an old frame", if same { "taken" } else { "refused" });
    }
    met.check(&["an old frame"], &[("taken", 5), ("refused", 400)]);
}

/// A record with another count of frames delivered, of whose image an old plant's sum is the right one by chance.
fn record_with_one_sum(random: &mut Random, record: &Record) -> Record {
    let from = usize::from(record.me == 0);
    let other = || {
        let mut record = *record;
        record.deliv[from] = random.below(Record::COUNT as usize) as u32;
        record
    };
    let is_one = |record: &Record| old(&record.to_image()) == record.to_image();
    std::iter::repeat_with(other).find(is_one).expect("one of about 65,536 has such an image")
}

#[test]
fn an_old_plants_images() {
    let (mut met, mut random) = (Met::default(), Random::new(88));
    for (index, (state, _)) in states(92, 300).into_iter().enumerate() {
        let by_chance = index % 40 == 0;
        let record = if by_chance { record_with_one_sum(&mut random, &state.record) } else { state.record };
        let image = record.to_image();
        let same = old(&image) == image;
        let [send, offer, deliver] = numbers(&state, &old(&image), ANSWER);
        assert_eq!((send, offer == 20, deliver == 20), if same { (0, false, false) } else { (20, true, true) });
        met.add("an old image", if same { "taken" } else { "refused" });
    }
    met.check(&["an old image"], &[("taken", 5), ("refused", 400)]);
}

#[test]
fn an_old_plants_trails() {
    let (mut met, mut random) = (Met::default(), Random::new(89));
    for (index, mut frames) in trails(90, 300).into_iter().enumerate() {
        let user = frames.iter().rposition(|frame| frame[0] == USER).filter(|_| index % 20 == 0);
        if let Some(user) = user {
            frames.truncate(user + 1);
            frames[user] = with_one_sum(&mut random, &frames[user]);
        }
        let shown = walk(&frames.concat(), 5).shown;
        let aged: Vec<Vec<u8>> = frames.iter().map(|frame| old(frame)).collect();
        let same = (0..frames.len()).rev().take_while(|index| aged[*index] == frames[*index]).count();
        let most = if same == frames.len() { Ok(0) } else { Err(19) };
        assert_eq!(walk(&aged.concat(), 5), Walked { shown: shown[..same].to_vec(), most });
        met.add("an old trail", if same == 0 { "nothing shown" } else { "a frame shown" });
    }
    met.check(&["an old trail"], &[("nothing shown", 200), ("a frame shown", 5)]);
}

#[test]
fn what_is_written_on_behind_an_old_trail_is_shown() {
    for frames in trails(91, 100) {
        let aged: Vec<Vec<u8>> = frames.iter().map(|frame| old(frame)).collect();
        let (before, length) = (aged.concat(), frames.concat().len());
        let shown = walk(&frames.concat(), 7).shown.into_iter().map(|(start, bytes)| (start + length, bytes));
        let walked = walk(&[before, frames.concat()].concat(), 7);
        assert_eq!(walked, Walked { shown: shown.collect(), most: Err(19) });
    }
}

/// The bytes with the highest bit at offset 511 changed, where a byte counts 512 times.
fn with_the_bit(bytes: &[u8]) -> Vec<u8> {
    let mut bytes = bytes.to_vec();
    bytes[511] ^= 128;
    bytes
}

#[test]
fn the_one_bit_that_the_sum_does_not_see() {
    let [state, ..] = boundary_states();
    let largest = state.frame.clone().expect("the largest frame");
    for bit in 0..8 * largest.len() {
        let mut other = largest.clone();
        other[bit / 8] ^= 1 << (bit % 8);
        // It is in the highest byte of an entry's value, which is then too large.
        let expected = if other == with_the_bit(&largest) { 11 } else { 8 };
        assert_eq!(offer(&state, &other).answer.number(), expected, "bit {bit}");
    }
    // With fewer entries it is in the body, and another body is taken.
    let mut draft = draft_of(&largest);
    draft.entries.truncate(80);
    draft.body[23] ^= 128;
    let other = draft.bytes();
    draft.body[23] ^= 128;
    assert_eq!(with_the_bit(&draft.bytes()), other);
    assert_eq!(offer(&state, &other).answer.number(), 0);
    // In an image it is in M, and the record is another one.
    let record = Record::fresh(0, 12, 144).expect("n and cap are in range");
    let mut other = record;
    *other.entry_mut(10, 7) = 128;
    assert_eq!(with_the_bit(&record.to_image()), other.to_image());
    let state = State { record, shelf: vec![0; shelf::LENGTH], frame: None };
    assert_eq!(numbers(&state, &other.to_image(), ANSWER), [0, 8, 0]);
}
