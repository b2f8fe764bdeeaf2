//! What a call hands back, the next call takes; and which refusals the calls of a list give.

use differential::compare;
use differential::lists::{Pairs, Step, Totals};
use generate::counts::Counts;
use generate::records::any_caps;
use generate::states::{any_state, reach_limit, State};
use generate::{frames, Buffers, Call, Case};
use reference::node::OUTPUT;
use reference::random::Random;
use reference::{shelf, Record};

/// The body lengths of sends, on both sides of the bound.
const BODIES: [usize; 4] = [0, 1, 64, 65];

/// A body of motion, which movers alone may send.
fn any_body(random: &mut Random) -> Vec<u8> {
    vec![7; random.pick(&BODIES)]
}

/// A mover mostly, or another number.
fn any_class(random: &mut Random) -> usize {
    random.pick(&[0, 0, 0, 0, 0, 0, 0, 0, 0, 1, 4])
}

/// Record and shelf meet neither 2 (for the host 20) nor 4.
fn is_sound(state: &State) -> bool {
    state.record.keeps_rules() && shelf::check(&state.shelf, &state.record) == Ok(())
}

/// A call with any input: destinations, bodies and frames that are taken, and ones that are refused.
fn any_call(random: &mut Random, record: &Record) -> Call {
    match random.below(3) {
        0 => Call::Send { to: random.below(13), class: any_class(random), body: any_body(random) },
        1 => Call::Offer { frame: any_frame(random, record) },
        _ => Call::Deliver,
    }
}

/// A frame that meets none of 8 to 14, or one that meets a check.
fn any_frame(random: &mut Random, record: &Record) -> Vec<u8> {
    match random.within(7, 14) {
        7 => {
            let ready = random.once_in(2);
            frames::sound(random, record, ready).bytes()
        }
        check => frames::damaged(random, record, check as u8),
    }
}

/// The state after the call on both implementations, with outputs that are at times too short.
fn after(random: &mut Random, state: State, counts: &mut Counts) -> State {
    let call = any_call(random, &state.record);
    let out = vec![0; OUTPUT - usize::from(random.once_in(20))];
    let buffers = Buffers { shelf: state.shelf, out, body_out: vec![0; Record::BODY], ..Buffers::default() };
    let case = Case::written(&state.record, call, buffers);
    let outcome = compare(&case).unwrap_or_else(|difference| panic!("{difference}"));
    counts.add(&case, &outcome);
    let record = outcome.record().expect("a call hands back a sound image");
    State { record, shelf: outcome.buffers.shelf, frame: None }
}

#[test]
fn sound_states_stay_sound() {
    let mut random = Random::new(31);
    let mut counts = Counts::default();
    for round in 0..3_000 {
        let mut state = any_state(&mut random);
        if round % 3 == 0 {
            reach_limit(&mut random, &mut state);
        }
        for _ in 0..20 {
            assert!(is_sound(&state), "{:?}", state.record);
            state = after(&mut random, state, &mut counts);
        }
        assert!(is_sound(&state), "{:?}", state.record);
    }
    println!("{}", counts.table());
    let given = [("send", 5), ("send", 21), ("offer", 8), ("offer", 13), ("offer", 16), ("deliver", 3), ("deliver", 5)];
    assert!(given.iter().all(|(call, number)| counts.of(call, *number) > 100));
    assert!(["send", "offer", "deliver"].iter().all(|call| counts.of(call, 20) + counts.of(call, 4) == 0));
}

/// A list on both sides with any destinations and bodies, and offers mostly where the frame belongs; delivers come once
/// in so many steps, so that some shelves fill up.
fn run_list(random: &mut Random, totals: Totals) -> Step<Totals> {
    let n = random.within(2, 12);
    let (caps, rest) = (any_caps(random, n), random.pick(&[1, 2, 20]));
    let mut pairs = Pairs::start_with(&caps, totals)?;
    for _ in 0..600 {
        let node = random.below(n);
        let issues = pairs.issued.len();
        if issues == 0 || random.once_in(4) {
            let body = any_body(random);
            pairs.send(node, random.below(n + 1), any_class(random), &body)?;
        } else if random.once_in(3 * rest) {
            pairs.deliver(node)?;
        } else {
            let issue = random.below(issues);
            let to = pairs.issued[issue][2] as usize;
            pairs.offer_issue(if random.once_in(8) { node } else { to }, issue)?;
        }
    }
    pairs.end()
}

#[test]
fn a_list_gives_these_refusals_and_no_other() {
    let mut random = Random::new(32);
    let mut totals = Totals::default();
    for _ in 0..150 {
        totals = run_list(&mut random, totals).unwrap_or_else(|failure| panic!("{failure}"));
    }
    println!("{}", totals.counts.table());
    // Lent outputs have their lengths here, so that 3 is not given.
    let possible: [(&str, &[u8]); 3] = [("send", &[6, 7, 21]), ("offer", &[12, 14, 15, 16]), ("deliver", &[])];
    for (call, numbers) in possible {
        for number in 1..=255 {
            assert_eq!(numbers.contains(&number), totals.counts.of(call, number) > 20, "{call} {number}");
            assert!(numbers.contains(&number) || totals.counts.of(call, number) == 0, "{call} {number}");
        }
    }
}
