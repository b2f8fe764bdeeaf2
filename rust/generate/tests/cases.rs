//! What holds of the generated cases, and how often each refusal is met.

use generate::bounds::{met, Bound};
use generate::counts::{Counts, Place};
use generate::first_line::FirstLine;
use generate::images::{self, Part};
use generate::neighbours::{exchange, exchange_anywhere, exchanged, places};
use generate::trails::{fault, Trails};
use generate::{frames, loads, records, shelves, states, Buffers, Call, Case, Generator, Made, Outcome};
use reference::frame::Frame;
use reference::random::Random;
use reference::recount::Fates;
use reference::trail::back;
use reference::{shelf, Record};
use std::collections::{BTreeMap, BTreeSet};

/// The checks of each call.
const CHECKS: [(&str, &[u8]); 9] = [
    ("set-up", &[1, 20]),
    ("send", &[3, 5, 6, 7, 20, 21]),
    ("offer", &[3, 4, 8, 9, 10, 11, 12, 13, 14, 15, 16, 20]),
    ("deliver", &[3, 4, 5, 20]),
    ("yard", &[6, 14, 15, 16, 17]),
    ("load", &[18]),
    ("write", &[3, 19]),
    ("walk", &[19]),
    ("step", &[19]),
];

/// A refusal leaves image and buffers, and another answer of the node gives a sound image and shelf.
fn check_outcome(case: &Case, outcome: &Outcome) {
    let refused = outcome.answer.number() > 0;
    match &case.call {
        _ if refused => assert_eq!((&outcome.image, &outcome.buffers), (&case.image, &case.buffers)),
        Call::SetUp { .. } | Call::Send { .. } => assert!(outcome.record().is_some()),
        Call::Offer { .. } | Call::Deliver => {
            let record = outcome.record().expect("a sound image");
            assert_eq!(shelf::check(&outcome.buffers.shelf, &record), Ok(()));
        }
        _ => assert_eq!(outcome.image, case.image),
    }
}

#[test]
fn every_refusal_of_every_call_is_met_often() {
    let mut generator = Generator::new(7);
    let mut counts = Counts::default();
    for _ in 0..40_000 {
        let case = generator.case();
        let outcome = case.run();
        check_outcome(&case, &outcome);
        counts.add(&case, &outcome);
    }
    println!("{}", counts.table());
    for (call, checks) in CHECKS {
        for number in 1..=255 {
            let count = counts.of(call, number);
            assert_eq!(checks.contains(&number), count > 0, "{call} {number}");
            assert!(count == 0 || count >= 200, "{call} {number}: {count}");
        }
    }
    assert_eq!(["send", "offer", "deliver"].map(|call| counts.largest(call)), [814, 802, 846]);
    for (call, place, least) in [("offer", Place::Offered, 20), ("offer", Place::Held, 5), ("deliver", Place::Held, 5)]
    {
        assert_eq!(counts.missed(call, place, least), [], "{call}, {place:?}");
    }
}

#[test]
fn the_same_seed_gives_the_same_cases() {
    let (mut first, mut second, mut other) = (Generator::new(3), Generator::new(3), Generator::new(4));
    let different = (0..500).filter(|_| {
        let case = first.case();
        assert_eq!(case, second.case());
        case != other.case()
    });
    assert!(different.count() > 400);
}

#[test]
fn states_are_sound() {
    let mut random = Random::new(11);
    let mut runner = states::Runner::start(&mut random);
    for _ in 0..2_000 {
        let [parted, told] = [states::parted_state, states::told_state].map(|state| state(&mut random));
        for mut state in [runner.next(&mut random), states::any_state(&mut random), parted, told] {
            assert!(state.record.keeps_rules() && !state.record.is_at_limit());
            assert_eq!(shelf::check(&state.shelf, &state.record), Ok(()));
            states::reach_limit(&mut random, &mut state);
            assert!(state.record.keeps_rules());
            assert_eq!(shelf::check(&state.shelf, &state.record), Ok(()));
        }
    }
}

#[test]
fn each_way_damages_a_record() {
    let mut random = Random::new(12);
    for way in 0..records::WAYS {
        let mut damaged = 0;
        for _ in 0..300 {
            let mut record = records::any_record(&mut random);
            if records::damage(&mut random, &mut record, way) {
                assert!(!record.keeps_rules(), "{way}");
            }
            damaged += usize::from(!record.keeps_rules());
        }
        assert!(damaged > 50, "{way}: {damaged}");
    }
}

#[test]
fn each_way_damages_an_image() {
    let mut random = Random::new(19);
    let sound = |image: &[u8]| Record::of_sound_image(image).is_some();
    for (part, sealed) in images::damages() {
        let (mut damaged, mut changed) = (0, 0);
        for _ in 0..300 {
            let record = records::any_record(&mut random);
            let mut image = record.to_image();
            images::damage(&mut random, &mut image, part, sealed);
            assert!(sealed || !sound(&image), "{part:?}");
            assert_eq!(Record::from_fields(&image) == record, matches!(part, Part::Count | Part::Sum), "{part:?}");
            damaged += usize::from(!sound(&image));
            changed += usize::from(sound(&image));
        }
        assert!(damaged > 50, "{part:?} {sealed}: {damaged}");
        // A field with its trailer made right may leave a sound image of another record.
        assert_eq!(changed > 0, sealed && part != Part::Count, "{part:?} {sealed}: {changed}");
    }
}

#[test]
fn exchanged_neighbours_and_an_old_sum_damage_an_image() {
    let mut random = Random::new(21);
    for _ in 0..2_000 {
        let record = records::any_record(&mut random);
        let (mut image, mut aged) = (record.to_image(), record.to_image());
        assert_eq!(images::exchange(&mut random, &mut image), Made::Exchanged);
        let made = images::age(&mut aged);
        let [sealed, same] = [image, aged].map(|image| Record::from_image(&image).is_some());
        assert_eq!((sealed, made), (false, if same { Made::Written } else { Made::Old }));
    }
}

#[test]
fn exchanged_neighbours_damage_a_frame_and_a_trail() {
    let (mut random, mut trails) = (Random::new(22), Trails::new(22));
    let mut whole = 0;
    for _ in 0..500 {
        let frames = trails.frames();
        for mut frame in frames.clone() {
            assert!(exchange(&mut random, &mut frame));
            assert_eq!(Frame::check_alone(&frame).err(), Some(8));
        }
        let mut file = frames.concat();
        let changed = exchange_anywhere(&mut random, &mut file);
        assert_eq!(changed, file != frames.concat());
        whole += usize::from(changed && back(&file).all(|shown| shown.is_ok()));
    }
    assert_eq!(whole, 0);
}

#[test]
fn neighbours_stand_in_front_of_the_sum() {
    assert_eq!([0, 2, 3, 4, 13].map(|length| places(&vec![0; length])), [0..0, 0..0, 0..0, 0..1, 0..10]);
    assert_eq!(exchanged(b"abcd", 2), b"abdc");
    let mut random = Random::new(23);
    assert!(!exchange(&mut random, &mut [1, 1, 1, 2, 3]) && !exchange_anywhere(&mut random, &mut [1, 1]));
    let (mut bytes, mut met) = ([1, 1, 2, 9, 9], BTreeSet::new());
    for _ in 0..50 {
        assert!(exchange(&mut random, &mut bytes));
        met.insert(bytes);
    }
    assert_eq!(met, BTreeSet::from([[1, 1, 2, 9, 9], [1, 2, 1, 9, 9], [2, 1, 1, 9, 9]]));
}

#[test]
fn images_of_other_lengths_are_not_sound() {
    let mut random = Random::new(20);
    let mut lengths = BTreeSet::new();
    for _ in 0..3_000 {
        let (length, sealed) = (images::any_length(&mut random), random.once_in(2));
        let image = records::any_record(&mut random).to_image();
        let bytes = images::resized(&mut random, &image, length, sealed);
        assert_eq!((bytes.len(), Record::of_sound_image(&bytes)), (length, None));
        lengths.insert(length);
    }
    assert!([0, 1, 1000].into_iter().chain(627..=640).all(|length| (length == 632) != lengths.contains(&length)));
}

#[test]
fn each_way_damages_a_shelf() {
    let mut random = Random::new(13);
    for way in 0..shelves::WAYS {
        let mut damaged = 0;
        for _ in 0..300 {
            let mut state = states::any_state(&mut random);
            let sure = shelves::damage(&mut random, &mut state.record, &mut state.shelf, way);
            let met = shelf::check(&state.shelf, &state.record) == Err(4);
            assert!(met || !sure, "{way}");
            damaged += usize::from(met);
        }
        assert!(damaged > 50, "{way}: {damaged}");
    }
}

#[test]
fn frames_are_sound_or_meet_their_check() {
    let mut random = Random::new(14);
    let mut met = [0; 15];
    for _ in 0..2_000 {
        let record = records::any_record(&mut random);
        let ready = random.once_in(2);
        let bytes = frames::sound(&mut random, &record, ready).bytes();
        let frame = Frame::check(&bytes, &record).expect("a sound frame");
        assert!(!ready || frame.is_deliverable(&record.deliv));
        for check in 8..=14 {
            let bytes = frames::damaged(&mut random, &record, check);
            met[check as usize] += usize::from(Frame::check(&bytes, &record).err() == Some(check));
        }
    }
    assert!(met[8..].iter().all(|count| *count > 1_000), "{met:?}");
    println!("{met:?}");
}

#[test]
fn load_lines_are_valid_or_damaged() {
    let mut random = Random::new(15);
    for _ in 0..500 {
        assert_ne!(reference::load(&loads::valid(&mut random)), b"R 18\n");
    }
    let damaged = (0..3_000).filter(|_| reference::load(&loads::any_input(&mut random)) == b"R 18\n").count();
    assert!((850..1_150).contains(&damaged), "{damaged} of 3,000 are damaged");
}

#[test]
fn yards_and_loads_meet_every_case_of_a_delay() {
    let yards: Fates = Generator::cases(17, 3_000, Generator::yard).map(|case| case.call.fates()).sum();
    let loads: Fates = Generator::cases(18, 1_000, Generator::load).map(|case| case.call.fates()).sum();
    println!("yards {yards:?}\nloads {loads:?}");
    assert_eq!((yards.seldom(30), loads.seldom(30)), (vec![], vec![]));
}

#[test]
fn trails_are_whole_or_damaged_in_every_way() {
    let mut trails = Trails::new(16);
    let mut met = BTreeMap::<_, usize>::new();
    for _ in 0..5_000 {
        let frames = trails.frames();
        assert!(frames.iter().all(|frame| Frame::check_alone(frame).is_ok()));
        let file = trails.file();
        let last = back(&file).map_while(Result::ok).last().map_or(file.len(), |shown| shown.start);
        let ends = if last == 0 { "the start" } else { fault(&file[..last]).expect("the walk stopped here") };
        *met.entry(ends).or_default() += 1;
    }
    println!("{met:#?}");
    assert_eq!(met.len(), 11);
    assert!(met.iter().all(|(_, count)| *count > 50) && met["the start"] > 2_500, "{met:?}");
}

#[test]
fn where_a_cap_and_its_entries_stand() {
    let frame = |cap, e| [1, 0, 1, e, 0, 4, cap, 0];
    let at = |own: Option<usize>, cap, e| met(4, own, &frame(cap, e));
    assert_eq!(
        [0, 3, 17, 255].map(|cap| at(Some(9), cap, 4)),
        [vec![Bound::Zero], vec![Bound::BelowN], vec![Bound::AboveSquare], vec![Bound::Byte]]
    );
    assert_eq!(
        [3, 4, 5, 6].map(|e| at(None, 4, e)),
        [vec![Bound::AtN], vec![Bound::AtN, Bound::Full], vec![Bound::AtN, Bound::Overfull], vec![Bound::AtN]]
    );
    assert_eq!(at(Some(9), 8, 8), [Bound::Full, Bound::Smaller]);
    assert_eq!(
        [9, 10].map(|e| at(Some(9), 16, e)),
        [vec![Bound::AtSquare, Bound::Larger], vec![Bound::AtSquare, Bound::Larger, Bound::Beyond]]
    );
    assert_eq!([at(Some(4), 5, 6), at(Some(9), 9, 5)], [vec![Bound::Overfull, Bound::Larger], vec![]]);
    assert_eq!(met(4, None, &frame(0, 0)[..6]), []);
}

#[test]
fn caps_of_running_lists_and_of_held_frames_differ() {
    let mut random = Random::new(24);
    let mut runner = states::Runner::start(&mut random);
    let (mut smaller, mut larger) = (0, 0);
    for _ in 0..2_000 {
        let state = runner.next(&mut random);
        let Some(frame) = state.frame else { continue };
        smaller += usize::from(frame[6] < state.record.cap);
        larger += usize::from(frame[6] > state.record.cap);
    }
    assert!(smaller > 300 && larger > 300, "{smaller} {larger}");
}

#[test]
fn written_frames_meet_every_bound_of_their_caps() {
    let (mut trails, mut counts) = (Trails::new(27), Counts::default());
    for _ in 0..5_000 {
        let case = trails.write();
        counts.add(&case, &case.run());
    }
    assert_eq!(counts.missed("write", Place::Written, 20), []);
}

#[test]
fn told_states_issue_the_most() {
    let mut random = Random::new(25);
    let mut counts = Counts::default();
    for _ in 0..300 {
        let states::State { record, shelf, .. } = states::told_state(&mut random);
        let buffers = Buffers { shelf, out: vec![0; 2048], body_out: vec![0; 64], ..Buffers::default() };
        let case = Case::written(&record, Call::Deliver, buffers);
        counts.add(&case, &case.run());
    }
    assert_eq!(counts.largest("deliver"), 846);
}

#[test]
fn every_kind_of_first_line_is_met() {
    let mut met = BTreeMap::<_, usize>::new();
    for case in Generator::cases(26, 12_000, Generator::yard) {
        let Call::Yard { input } = &case.call else { panic!("{:?}", case.call) };
        let line = FirstLine::of(input);
        let taken = reference::yard(input) != b"R 17\n";
        assert_eq!(taken, line.is_taken() && input.len() <= 4096, "{line:?}");
        *met.entry(line).or_default() += 1;
    }
    println!("{met:?}");
    let seldom: Vec<_> =
        FirstLine::all().into_iter().filter(|line| met.get(line).is_none_or(|count| *count < 10)).collect();
    assert_eq!(seldom, []);
}

#[test]
fn first_lines_by_hand() {
    let lines = ["3 3 3 3", "3 9 3 4", "3 4 3 5", "3 3", "3 3 3", "3 3 3 3 3", "3 3 2 3", "3 3 3 10", "0003 3 3 3"];
    let expected = [
        FirstLine::Alike,
        FirstLine::Apart,
        FirstLine::Differ,
        FirstLine::Old,
        FirstLine::Missing,
        FirstLine::TooMany,
        FirstLine::Below(1),
        FirstLine::Above(2),
        FirstLine::Long(0),
    ];
    assert_eq!(lines.map(|line| FirstLine::of(format!("{line}\nS 0 1\n").as_bytes())), expected);
    let others = ["", "3 3 3 3", "\n", "3 3 3 x\n", "3  3 3 3\n", "5 5 5 5 5 5\n", "1 1\n"];
    assert!(others.iter().all(|input| FirstLine::of(input.as_bytes()) == FirstLine::Other));
}
