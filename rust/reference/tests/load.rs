//! The load's numbers, its input's edges, and runs held against hand-made steps and against the yard.

mod common;

use common::is_share;
use reference::boundary::{CROWDED_LOADS, HALF_LOADS};
use reference::load::{read, Load, ISSUES};
use reference::plant::Plant;
use reference::recount::{self, drawn};
use reference::xorshift::Xorshift;
use reference::yard::Step;
use reference::{load, yard, DeliverAnswer};

/// What the load prints, as text.
fn printed(input: impl AsRef<[u8]>) -> String {
    String::from_utf8(load(input.as_ref())).unwrap()
}

/// The table of a load of n nodes in which every cap has the same T numbers.
fn same_for_each_cap(n: usize, numbers: &str) -> String {
    (n..=n * n).map(|cap| format!("{cap} {numbers}\n")).collect()
}

/// Holds loads of two nodes from a seed against the T numbers that there are after each draw, under every cap.
fn check_each_draw(seed: u32, numbers: &[&str]) {
    for (index, numbers) in numbers.iter().enumerate() {
        let draws = index + 1;
        assert_eq!(printed(format!("2 {seed} {draws}\n")), same_for_each_cap(2, numbers), "{draws} draws");
    }
}

#[test]
fn the_generators_first_numbers() {
    let first: Vec<u32> = Xorshift::new(1).take(6).collect();
    assert_eq!(first, [270369, 67634689, 2647435461, 307599695, 2398689233, 745495504]);
    assert_eq!(Xorshift::new(0x8000_0000).next(), Some(0x8000_4000 ^ 0x0008_0000));
    assert_eq!(Xorshift::new(u32::MAX).next(), Some(253983));
}

#[test]
fn fourteen_draws_by_hand() {
    // n 2, seed 1: v, its remainder by 4 and the step that it makes; c counts the issues before it.
    //
    //  1     270369  1  offers nothing, c is 0
    //  2   67634689  1  offers nothing
    //  3 2647435461  1  offers nothing
    //  4  307599695  3  v/4 =  76899923, odd: deliver at 1, none: nothing is held
    //  5 2398689233  1  offers nothing
    //  6  745495504  0  v/4 = 186373876, even: send from 0 to 1, issue 1
    //  7  632435482  2  c is 1: offer of 1 at node 1, held; deliverable, as it carries nothing
    //  8  435756210  2  offer of 1, refused (15)
    //  9 2005365029  1  offer of 1, refused (15)
    // 10 2916098932  0  v/4 = 729024733, odd: send from 1 to 0, issue 2
    // 11 2657092299  3  v/4 = 664273074, even: deliver at 0, none: nothing is held
    // 12 1495045943  3  v/4 = 373761485, odd: deliver at 1, issue 1 is delivered
    // 13 3031976842  2  v/4 = 757994210, even: offer of 1, refused (14)
    // 14   82049198  2  v/4 =  20512299, odd: offer of 2 at node 0, held; deliverable, as it carries nothing
    let numbers = [
        "0 0 0 0 0",
        "0 0 0 0 0",
        "0 0 0 0 0",
        "0 0 0 0 0",
        "0 0 0 0 0",
        "1 0 0 0 0",
        "1 0 0 0 0",
        "1 0 0 0 0",
        "1 0 0 0 0",
        "2 0 0 0 0",
        "2 0 0 0 0",
        "2 0 1 0 0",
        "2 0 1 0 0",
        "2 0 1 0 0",
    ];
    check_each_draw(1, &numbers);
}

#[test]
fn fifteen_draws_with_a_delay_by_hand() {
    // n 2, seed 78840, as above.
    //
    //  1 3921295399  3  v/4 = 980323849, odd: deliver at 1, none: nothing is held
    //  2 2037342328  0  v/4 = 509335582, even: send from 0 to 1, issue 1
    //  3  962950088  0  v/4 = 240737522, even: send from 0 to 1, issue 2, which carries (0,1) = 1
    //  4 1956327558  2  v/4 = 489081889, odd: offer of 2 at node 1, held; DELIV[0] is 0, so it is a delay
    //  5 1140113827  3  v/4 = 285028456, even: deliver at 0, none: nothing is held
    //  6 2748924963  3  v/4 = 687231240, even: deliver at 0, none
    //  7 3773911085  1  v/4 = 943477771, odd: offer of 2, refused (15)
    //  8 2489728951  3  v/4 = 622432237, odd: deliver at 1, none: issue 2 is passed over
    //  9  562968991  3  v/4 = 140742247, odd: deliver at 1, none: issue 2 is passed over again
    // 10  822670049  1  v/4 = 205667512, even: offer of 1 at node 1, held; deliverable, as it carries nothing
    // 11 3318508587  3  v/4 = 829627146, even: deliver at 0, none
    // 12 1097607663  3  v/4 = 274401915, odd: deliver at 1, issue 1 is delivered
    // 13 1315230503  3  v/4 = 328807625, odd: deliver at 1, issue 2 is delivered
    // 14 1410039239  3  v/4 = 352509809, odd: deliver at 1, none: nothing is held
    // 15 1304658910  2  v/4 = 326164727, odd: offer of 2, refused (14)
    let numbers = [
        "0 0 0 0 0",
        "1 0 0 0 0",
        "2 0 0 0 0",
        "2 0 0 1 0",
        "2 0 0 1 0",
        "2 0 0 1 0",
        "2 0 0 1 0",
        "2 0 0 1 0",
        "2 0 0 1 0",
        "2 0 0 1 0",
        "2 0 0 1 0",
        "2 0 1 1 0",
        "2 0 2 1 0",
        "2 0 2 1 0",
        "2 0 2 1 0",
    ];
    check_each_draw(78840, &numbers);
}

#[test]
fn each_number_on_both_sides_of_its_bounds() {
    let nothing = same_for_each_cap(2, "0 0 0 0 0");
    assert_eq!(printed("2 1 1\n"), nothing);
    assert_eq!(printed("3 1 1\n"), same_for_each_cap(3, "0 0 0 0 0"));
    assert_eq!(printed("4 1 1\n"), same_for_each_cap(4, "0 0 0 0 0"));
    assert_eq!(printed("2 4294967295 1\n"), nothing);
    assert_eq!(printed("2 1 400\n").lines().count(), 3);
    for input in [
        "1 1 1\n",
        "5 1 1\n",
        "0 1 1\n",
        "12 1 1\n",
        "4294967298 1 1\n",
        "2 0 1\n",
        "2 0000000000 1\n",
        "2 4294967296 1\n",
        "2 4294967297 1\n",
        "2 9999999999 1\n",
        "2 1 0\n",
        "2 1 401\n",
        "2 1 4294967297\n",
        "2 1 9999999999\n",
    ] {
        assert_eq!(printed(input), "R 18\n", "{input:?}");
    }
}

#[test]
fn leading_zeros_are_digits() {
    let output = printed("4 7 40\n");
    assert_eq!(printed("0000000004 0000000007 0000000040\n"), output);
    assert_eq!(printed("04 007 0040\n"), output);
    assert_eq!(output.lines().count(), 13);
    for input in ["00000000004 7 40\n", "4 00000000007 40\n", "4 7 00000000040\n"] {
        assert_eq!(printed(input), "R 18\n", "{input:?}");
    }
}

#[test]
fn other_forms() {
    let inputs: [&[u8]; 31] = [
        b"",
        b"\n",
        b" \n",
        b"2 1 1",
        b"2 1 1\n\n",
        b"\n2 1 1\n",
        b"2 1 1\n ",
        b"2 1 1\n2 1 1\n",
        b"2 1 1\r\n",
        b"2 1 1\r",
        b"2\t1 1\n",
        b"2 1\t1\n",
        b"2  1 1\n",
        b"2 1  1\n",
        b" 2 1 1\n",
        b"2 1 1 \n",
        b"2 1\n",
        b"2\n",
        b"2 1 1 1\n",
        b"2 1 \n",
        b"2\n1 1\n",
        b"2 1\n1\n",
        b"x 1 1\n",
        b"2 x 1\n",
        b"2 1 x\n",
        b"+2 1 1\n",
        b"2 -1 1\n",
        b"2 1 1.\n",
        b"2 1 0x1\n",
        b"2 1 1\0\n",
        b"2 \xB9 1\n",
    ];
    for input in inputs {
        assert_eq!(printed(input), "R 18\n", "{:?}", String::from_utf8_lossy(input));
    }
    assert_eq!(printed("2 1 1\n".repeat(1_000)), "R 18\n");
    assert_eq!(printed(vec![b' '; 5_000]), "R 18\n");
}

/// The yard's line for a step.
fn yard_line(step: Step) -> String {
    match step {
        Step::Send(i, j) => format!("S {i} {j}\n"),
        Step::Offer(m) => format!("A {m}\n"),
        Step::Deliver(j) => format!("D {j}\n"),
    }
}

/// How many frames the yard printed as issued.
fn issues(output: &str) -> usize {
    output.lines().filter(|line| line.starts_with(['S', 'X'])).count()
}

/// What the yard prints for the same steps under one cap for all nodes.
fn yard_output(n: usize, cap: usize, seed: u32, draws: usize) -> String {
    let run = |input: &str| String::from_utf8(yard(input.as_bytes())).unwrap();
    let mut input = format!("{n}{}\n", format!(" {cap}").repeat(n));
    for draw in Xorshift::new(seed).take(draws) {
        input.extend(drawn(draw as usize, n, issues(&run(&input))).map(yard_line));
    }
    run(&input)
}

#[test]
fn the_yard_counts_the_same_for_the_same_steps() {
    let (mut rows, mut extras) = (0, 0);
    for (n, seed) in (2..=4).flat_map(|n| [1, 7, 86_028_157, u32::MAX].map(|seed| (n, seed))) {
        for draws in [1, 30, 160] {
            for row in printed(format!("{n} {seed} {draws}\n")).lines() {
                let (cap, numbers) = row.split_once(' ').unwrap();
                let output = yard_output(n, cap.parse().unwrap(), seed, draws);
                assert!(issues(&output) + n <= 64, "the yard has room to the end: n {n}, cap {cap}, seed {seed}");
                assert!(
                    output.ends_with(&format!("T {numbers}\n")),
                    "n {n}, seed {seed}, {draws} draws: {row}\n{output}"
                );
                rows += 1;
                extras += output.matches("X ").count();
            }
        }
    }
    assert_eq!(rows, 4 * 3 * (3 + 7 + 13));
    assert!(extras > 20, "{extras} extras");
}

/// Holds the delays of a table's rows, the fifth numbers, against a recount.
fn check_delays(input: &str, rows: &[&str]) {
    let load = read(input.as_bytes()).expect("a line in range");
    for (row, cap) in rows.iter().zip(load.caps()) {
        let delays = recount::load(&load, cap).delays().to_string();
        assert_eq!(row.split(' ').nth(4), Some(delays.as_str()), "{input}{row}");
    }
}

#[test]
fn halves_of_the_share_go_to_the_even_neighbour() {
    let tables: [&[&str]; 4] = [
        // 37.5 and 12.5
        &["4 8 3 9 0 38", "5 8 1 7 0 12", "6 8 0 7 0 0"],
        // 37.5, 12.5 and 4.2
        &["4 24 9 18 6 38", "5 24 3 17 5 12", "6 24 1 17 4 4"],
        // 7.5 and 2.5
        &["4 40 3 11 11 8", "5 40 1 11 6 2", "6 40 0 12 7 0"],
        // 12.5
        &["3 8 1 4 0 12", "4 8 0 4 0 0"],
    ];
    for (input, rows) in HALF_LOADS.into_iter().zip(tables) {
        let output = printed(input);
        assert!(output.starts_with(&(rows.join("\n") + "\n")), "{input}{output}");
        check_delays(input, rows);
    }
}

/// How many of a load's 400 draws send or deliver.
fn sends_and_delivers(seed: u32) -> usize {
    Xorshift::new(seed).take(400).filter(|draw| matches!(draw % 4, 0 | 3)).count()
}

/// How many delivers answer none in a load of 400 draws with 4 nodes and cap 4: a plant makes its steps.
fn nones(seed: u32) -> usize {
    let mut plant = Plant::start(&[4; 4], ISSUES).unwrap();
    let mut count = 0;
    for draw in Xorshift::new(seed).take(400) {
        match drawn(draw as usize, 4, plant.list.issued.len()) {
            Some(Step::Send(i, j)) => {
                plant.send(i, j);
            }
            Some(Step::Offer(m)) => {
                plant.offer(m - 1);
            }
            Some(Step::Deliver(node)) => {
                count += usize::from(matches!(plant.deliver(node), Some(DeliverAnswer::None { .. })));
            }
            None => (),
        }
    }
    count
}

#[test]
fn the_end_of_the_issues() {
    // With 176 issues four are left, and one step more goes; with 177 sends and delivers are idle.
    for (seed, end) in CROWDED_LOADS.into_iter().zip([(177, 21), (177, 19), (178, 13), (178, 12)]) {
        let output = printed(format!("4 {seed} 400\n"));
        let row: Vec<usize> = output.lines().next().unwrap().split(' ').map(|number| number.parse().unwrap()).collect();
        let [cap, users, extras, delivered, delays, share] = row[..] else {
            panic!("{output}");
        };
        let idle = sends_and_delivers(seed) - users - delivered - nones(seed);
        assert_eq!((cap, users + extras, idle), (4, end.0, end.1), "{seed}: {output}");
        assert_eq!(delays, recount::load(&Load { n: 4, seed, draws: 400 }, 4).delays(), "{seed}: {output}");
        assert!(is_share(extras, users, share), "{seed}: {output}");
    }
}
