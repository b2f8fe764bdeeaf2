//! What counts as a delay: yards by hand, and a recount of generated yards and loads.

use reference::load::Load;
use reference::random::Random;
use reference::recount::{self, Fates};
use reference::yard::{run, ISSUES};
use reference::{load, yard};

/// Holds what the yard prints for these lines against what it has to.
fn check(lines: &[&str], printed: &[&str]) {
    let output = String::from_utf8(yard((lines.join("\n") + "\n").as_bytes())).unwrap();
    assert_eq!(output.lines().collect::<Vec<_>>(), printed, "{lines:?}");
}

#[test]
fn a_frame_that_two_nones_pass_over_is_one_delay() {
    // Issue 2 carries (0,1) = 1, and nothing from 0 is delivered at 1.
    let sent = ["S 1 0 1 0", "S 2 0 1 1", "A 2 1"];
    check(&["2 2 2", "S 0 1", "S 0 1", "A 2"], &[&sent[..], &["T 2 0 0 1 0"]].concat());
    let passed = ["N 1 1", "N 1 1", "T 2 0 0 1 0"];
    check(&["2 2 2", "S 0 1", "S 0 1", "A 2", "D 1", "D 1"], &[&sent[..], &passed].concat());
}

#[test]
fn a_none_on_an_empty_shelf_counts_nothing() {
    check(&["2 2 2", "D 0", "D 1", "D 1"], &["N 0 0", "N 1 0", "N 1 0", "T 0 0 0 0 0"]);
    // The frame is held at 1, and the shelf at 0 is empty.
    check(&["2 2 2", "S 0 1", "A 1", "D 0"], &["S 1 0 1 0", "A 1 1", "N 0 0", "T 1 0 0 0 0"]);
}

#[test]
fn a_frame_accepted_while_deliverable_counts_nothing() {
    // Issue 2 carries (0,2) = 1, which is no entry of column 1.
    check(&["3 3 3 3", "S 0 2", "S 0 1", "A 2", "D 1"], &["S 1 0 2 0", "S 2 0 1 1", "A 2 1", "D 1 2 1", "T 2 0 1 0 0"]);
    // Issue 2 carries (0,1) = 1, which is as much as DELIV has by then.
    check(
        &["2 2 2", "S 0 1", "S 0 1", "A 1", "D 1", "A 2", "D 1"],
        &["S 1 0 1 0", "S 2 0 1 1", "A 1 1", "D 1 1 1", "A 2 1", "D 1 2 1", "T 2 0 2 0 0"],
    );
}

#[test]
fn a_frame_that_waits_for_a_held_one_is_delayed_without_any_none() {
    // Issue 1 is held and not yet delivered when issue 2 is offered.
    check(
        &["2 2 2", "S 0 1", "S 0 1", "A 1", "A 2", "D 1", "D 1"],
        &["S 1 0 1 0", "S 2 0 1 1", "A 1 1", "A 2 2", "D 1 1 1", "D 1 2 1", "T 2 0 2 1 0"],
    );
}

#[test]
fn a_delayed_frame_that_is_offered_again_counts_nothing_more() {
    let lines = ["2 2 2", "S 0 1", "S 0 1", "A 2", "A 2", "A 2", "A 1", "A 2", "D 1", "A 2", "D 1", "A 2"];
    // Refused three times while it waits, once when it is held and deliverable, and once after its delivery.
    let held = ["S 1 0 1 0", "S 2 0 1 1", "A 2 1", "R 15", "R 15", "A 1 2", "R 15", "D 1 1 2", "R 15"];
    check(&lines, &[&held[..], &["D 1 2 1", "R 14", "T 2 0 2 1 0"]].concat());
}

#[test]
fn a_delay_stays_after_the_delivery() {
    let sent = ["S 1 0 1 0", "S 2 0 1 1", "A 2 1", "N 1 1", "A 1 2"];
    let (lines, delivers) = (["2 2 2", "S 0 1", "S 0 1", "A 2", "D 1", "A 1"], ["D 1", "D 1"]);
    check(&lines, &[&sent[..], &["T 2 0 0 1 0"]].concat());
    let delivered = ["D 1 1 2", "D 1 2 1", "T 2 0 2 1 0"];
    check(&[&lines[..], &delivers].concat(), &[&sent[..], &delivered].concat());
}

#[test]
fn two_waiting_frames_are_two_delays() {
    check(
        &["2 2 2", "S 0 1", "S 0 1", "S 0 1", "A 3", "A 2", "D 1", "A 1", "D 1", "D 1", "D 1"],
        &[
            "S 1 0 1 0",
            "S 2 0 1 1",
            "S 3 0 1 1",
            "A 3 1",
            "A 2 2",
            "N 1 2",
            "A 1 3",
            "D 1 1 3",
            "D 1 2 2",
            "D 1 3 1",
            "T 3 0 3 2 0",
        ],
    );
    // One at 1 and one at 2: issues 2 and 4 carry (0,1) = 1 and (0,2) = 1.
    check(
        &["3 3 3 3", "S 0 1", "S 0 1", "S 0 2", "S 0 2", "A 2", "A 4"],
        &["S 1 0 1 0", "S 2 0 1 1", "S 3 0 2 1", "S 4 0 2 2", "A 2 1", "A 4 1", "T 4 0 0 2 0"],
    );
}

#[test]
fn a_full_shelf_counts_nothing_more() {
    // Issues 2 to 16 wait for 1 and are delays. Issue 17 would wait too, but is refused with 15 and with 16 held. It is
    // delayed when issues 1 and 2 have left the shelf, as issue 16 is not delivered yet.
    let sends = "S 0 1\n".repeat(17);
    let waiting: String = (2..=16).map(|m| format!("A {m}\n")).collect();
    let lines = [&*waiting, "A 17\n", "A 1\n", "A 17\n", "D 1\nD 1\n", "A 17\n"];
    let ends = [
        "A 16 15\nT 17 0 0 15 0\n",
        "R 16\nT 17 0 0 15 0\n",
        "A 1 16\nT 17 0 0 15 0\n",
        "R 16\nT 17 0 0 15 0\n",
        "D 1 1 16\nD 1 2 1\nT 17 0 2 15 0\n",
        "A 17 15\nT 17 0 2 16 0\n",
    ];
    for (count, end) in ends.into_iter().enumerate() {
        let output = String::from_utf8(yard(format!("2 2 2\n{sends}{}", lines[..=count].concat()).as_bytes())).unwrap();
        assert!(output.ends_with(end), "{output}");
    }
}

#[test]
fn an_extra_frame_is_delayed_like_a_user_frame() {
    let sends = ["3 3 3 3", "S 0 1", "S 0 2", "S 1 2", "S 1 0", "S 2 1", "S 2 0", "A 4", "D 0", "A 6", "D 0"];
    let sent = ["S 1 0 1 0", "S 2 0 2 1", "S 3 1 2 0", "S 4 1 0 1", "S 5 2 1 0", "S 6 2 0 1"];
    let trimmed = ["A 4 1", "D 0 4 1", "A 6 1", "D 0 6 1", "X 7 0 1 2"];
    let front = [&sent[..], &trimmed].concat();
    // The extra carries (0,1) = 1 and (2,1) = 1. It waits for issues 1 and 5, and the others carry no entry of the
    // column of their destination.
    let first = ["A 7", "D 1", "D 1", "A 1", "A 5", "D 1", "D 1", "D 1"];
    let late = ["A 7 1", "N 1 1", "N 1 1", "A 1 2", "A 5 3", "D 1 1 2", "D 1 5 2", "D 1 7 1", "T 6 1 5 1 17"];
    check(&[&sends[..], &first].concat(), &[&front[..], &late].concat());
    // It is deliverable once both are delivered.
    let last = ["A 1", "A 5", "D 1", "D 1", "A 7", "D 1"];
    let ready = ["A 1 1", "A 5 2", "D 1 1 1", "D 1 5 1", "A 7 1", "D 1 7 1", "T 6 1 5 0 17"];
    check(&[&sends[..], &last].concat(), &[&front[..], &ready].concat());
}

/// The fourth of the five T numbers that end a line.
fn fourth(line: &str) -> usize {
    line.rsplit(' ').nth(1).and_then(|number| number.parse().ok()).expect("a line ends with the T numbers")
}

/// How the lines of a generated yard are drawn.
#[derive(Clone, Copy, PartialEq, Eq)]
enum Style {
    Any,
    /// All frames go from 0 to 1, so that many wait there and the shelf may fill.
    Crowd,
    /// Every node delivers after each offer, so that extra frames are issued and delivered.
    Bring,
}

/// A yard whose offers are mostly of frames that were issued.
fn any_yard(random: &mut Random) -> String {
    let n = random.within(2, 4);
    let caps: String = (0..n).map(|_| format!(" {}", random.pick(&[n, n, n + 1, n * n]))).collect();
    let style = random.pick(&[Style::Any, Style::Crowd, Style::Bring]);
    let delivers: String = (0..n).filter(|_| style == Style::Bring).map(|node| format!("D {node}\n")).collect();
    let mut input = format!("{n}{caps}\n");
    for _ in 0..random.within(1, 160) {
        let (i, j) = if style == Style::Crowd { (0, 1) } else { (random.below(n), random.below(n)) };
        let sends = input.matches('S').count().min(ISSUES);
        input += &match random.below(10) {
            0..=2 => format!("S {i} {j}\n"),
            3..=7 => format!("A {}\n{delivers}", random.within(1, sends + 2)),
            _ => format!("D {j}\n"),
        };
    }
    input
}

#[test]
fn a_recount_of_generated_yards() {
    let mut random = Random::new(41);
    let mut met = Fates::default();
    for _ in 0..3_000 {
        let input = any_yard(&mut random);
        let fates = recount::yard(&run(input.as_bytes()).expect("a first line in range"));
        let output = String::from_utf8(yard(input.as_bytes())).unwrap();
        assert_eq!(fourth(output.lines().last().unwrap()), fates.delays(), "{input}{output}");
        assert_eq!(output.lines().filter(|line| line.starts_with('N')).count(), fates.nones(), "{input}{output}");
        met.add(&fates);
    }
    println!("{met:?}");
    assert_eq!(met.seldom(30), [], "{met:?}");
}

/// A load of any numbers, at times with few draws.
fn any_load(random: &mut Random) -> Load {
    let most = random.pick(&[20, 100, 400]);
    Load { n: random.within(2, 4), seed: (random.bits() as u32).max(1), draws: random.within(1, most) }
}

#[test]
fn a_recount_of_generated_loads() {
    let mut random = Random::new(42);
    let mut met = Fates::default();
    for _ in 0..600 {
        let Load { n, seed, draws } = any_load(&mut random);
        let line = format!("{n} {seed} {draws}\n");
        let output = String::from_utf8(load(line.as_bytes())).unwrap();
        assert_eq!(output.lines().count(), n * n - n + 1, "{line}{output}");
        for (row, cap) in output.lines().zip(n..) {
            let fates = recount::load(&Load { n, seed, draws }, cap);
            assert_eq!(fourth(row), fates.delays(), "{line}{row}");
            met.add(&fates);
        }
    }
    println!("{met:?}");
    assert_eq!(met.seldom(30), [], "{met:?}");
}
