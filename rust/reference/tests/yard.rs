//! The yard's example and the edges of its input.

use reference::yard;

/// What the yard prints, as text.
fn printed(input: impl AsRef<[u8]>) -> String {
    String::from_utf8(yard(input.as_ref())).unwrap()
}

/// What the yard of three prints for one more line, without the tally.
fn line(text: &str) -> String {
    let all = printed(format!("3 3 3 3\n{text}\n"));
    all.rsplit_once("T ").unwrap().0.to_string()
}

#[test]
fn the_example() {
    // Issue 3 carries (0,2) = 1 and is offered before issue 1 is delivered at 2: 1 delay.
    let input = "3 3 3 3\nS 0 2\nS 0 1\nA 2\nD 1\nS 1 2\nA 3\nD 2\nA 1\nD 2\nD 2\n";
    let output =
        "S 1 0 2 0\nS 2 0 1 1\nA 2 1\nD 1 2 1\nS 3 1 2 1\nA 3 1\nN 2 1\nA 1 2\nD 2 1 2\nD 2 3 1\nT 3 0 3 1 0\n";
    assert_eq!(printed(input), output);
}

/// Each of these lines, parted by bars, is a first line for which the yard prints `R 17` alone.
fn refused_alone(lines: &str) {
    for line in lines.split('|') {
        assert_eq!(printed(format!("{line}\nS 0 1\n")), "R 17\n", "{line:?}");
    }
}

#[test]
fn a_first_line_of_another_form() {
    refused_alone(
        "|3|3  3 3 3| 3 3 3 3|3 3 3 3 |3 3 3 3\r|3\t3 3 3|x 3 3 3|3 x 3 3|3 3 3 x|3 3 3 |3 3  3|3 3 -3 3|3\n3\n3\n3",
    );
    refused_alone("3 0003 3 3|3 3 0003 3|3 3 3 0003|0003 3 3 3|\n3 3 3 3");
    for input in ["", "3 3 3 3", "\n"] {
        assert_eq!(printed(input), "R 17\n", "{input:?}");
    }
}

#[test]
fn a_first_line_of_another_number_of_caps() {
    refused_alone("3 3|3 3 3|3 3 3 3 3|2 2|2 2 2 2|4 4|4 4 4 4|4 4 4 4 4 4|3 3 3 3 3 3 3");
}

#[test]
fn a_first_line_of_numbers_out_of_range() {
    refused_alone("1 1|5 5 5 5 5 5|258 3 3|0|0 0|12 12 12 12 12 12 12 12 12 12 12 12 12");
    refused_alone("3 2 3 3|3 3 2 3|3 3 3 2|3 10 9 9|3 9 10 9|3 9 9 10|3 0 3 3|3 259 3 3|3 3 3 259");
    refused_alone("2 5 4|2 4 5|2 1 2|2 2 1|4 3 4 4 4|4 4 4 4 3|4 17 16 16 16|4 16 16 16 17");
}

#[test]
fn first_lines_that_are_taken() {
    let lines = "3 3 3 3|003 09 3 003|2 2 2|2 4 2|2 2 4|4 4 4 4 4|4 16 4 16 4|4 4 16 9 16|3 9 9 9|3 3 9 4|3 9 3 3";
    for line in lines.split('|') {
        assert_eq!(printed(format!("{line}\n")), "T 0 0 0 0 0\n", "{line:?}");
    }
}

#[test]
fn the_longest_input() {
    let mut input = b"3 3 3 3\n".to_vec();
    input.resize(4096, b'\n');
    let output = format!("{}T 0 0 0 0 0\n", "R 17\n".repeat(4088));
    assert_eq!(printed(&input), output);
    input.push(b'\n');
    assert_eq!(printed(&input), "R 17\n");
}

#[test]
fn bytes_after_the_last_line_feed() {
    assert_eq!(printed("3 3 3 3\nS 0 1"), "R 17\nT 0 0 0 0 0\n");
    assert_eq!(printed("3 3 3 3\nS 0 1\n "), "S 1 0 1 0\nR 17\nT 1 0 0 0 0\n");
    assert_eq!(printed("3 3 3 3\nS 0 1\n"), "S 1 0 1 0\nT 1 0 0 0 0\n");
}

#[test]
fn other_lines() {
    let lines = [
        "", " ", "S", "S 0", "S 0 1 2", "S  0 1", " S 0 1", "S 0 1 ", "S 0 1\r", "S\t0 1", "S 0 0001", "s 0 1",
        "S -1 1", "S 0 +1", "SS 0 1", "S0 1", "D", "D 0 1", "D 0000", "A", "A 1 1", "B 1", "A 1.", "D x", "\u{e9} 1",
        "S 0 ", "3 3 3 3",
    ];
    for text in lines {
        assert_eq!(line(text), "R 17\n", "{text:?}");
    }
    assert_eq!(printed(b"3 3 3 3\n\xFF\0\nD 1\n"), "R 17\nN 1 0\nT 0 0 0 0 0\n");
}

#[test]
fn nodes_and_issues() {
    assert_eq!(line("S 00 001"), "S 1 0 1 0\n");
    assert_eq!(line("S 3 0"), "R 17\n");
    assert_eq!(line("S 256 1"), "R 17\n");
    assert_eq!(line("S 3 999"), "R 17\n");
    assert_eq!([line("S 0 0"), line("S 0 3"), line("S 0 257"), line("S 0 999")], ["R 6\n"; 4]);
    assert_eq!([line("D 3"), line("D 256"), line("A 0"), line("A 1"), line("A 999")], ["R 17\n"; 5]);
    assert_eq!(line("S 0 1\nA 001"), "S 1 0 1 0\nA 1 1\n");
    assert_eq!(line("S 0 1\nA 2\nA 257"), "S 1 0 1 0\nR 17\nR 17\n");
    assert_eq!(line("D 2"), "N 2 0\n");
}

#[test]
fn refusals_of_an_offer() {
    assert_eq!(line("S 0 1\nA 1\nA 1\nD 1\nA 1"), "S 1 0 1 0\nA 1 1\nR 15\nD 1 1 1\nR 14\n");
    let mut input = "3 3 3 3\n".to_string();
    (0..18).for_each(|_| input.push_str("S 0 1\n"));
    (2..=17).for_each(|m| input.push_str(&format!("A {m}\n")));
    input.push_str("A 18\nA 1\nA 18\nD 1\n");
    let output = printed(input);
    assert!(output.contains("A 16 15\nR 16\nR 16\nA 1 16\nR 16\nD 1 1 16\n"), "{output}");
}

/// So many sends from 0 to 1.
fn sends(count: usize) -> String {
    "S 0 1\n".repeat(count)
}

#[test]
fn sixty_four_issues() {
    for (n, last) in [(2, 63), (3, 62), (4, 61)] {
        let first = format!("{n}{}", format!(" {n}").repeat(n));
        // The last frame waits for those before it, so it is a delay.
        let output = printed(format!("{first}\n{}S 0 999\nD 1\nD 9\nA {last}\n", sends(last)));
        let end = format!("R 17\nR 17\nR 17\nA {last} 1\nT {last} 0 0 1 0\n");
        assert!(output.ends_with(&end), "{output}");
        // Nothing is offered, so nothing is delayed.
        let output = printed(format!("{first}\n{}S 0 999\nD 1\nS 0 1\nS 0 1\nD 0\n", sends(last - 1)));
        let end = format!("R 6\nN 1 0\nS {last} 0 1 1\nR 17\nR 17\nT {last} 0 0 0 0\n");
        assert!(output.ends_with(&end), "{output}");
    }
}

#[test]
fn an_extra_is_printed_counted_and_delivered() {
    let lines = "3 3 3 3\nS 0 1\nS 0 2\nS 1 2\nS 1 0\nS 2 1\nS 2 0\nA 4\nD 0\nA 6\nD 0\nA 1\nA 5\nA 7\nD 1\nD 1\nD 1\n";
    let issued = "S 1 0 1 0\nS 2 0 2 1\nS 3 1 2 0\nS 4 1 0 1\nS 5 2 1 0\nS 6 2 0 1\n";
    let brought = "A 4 1\nD 0 4 1\nA 6 1\nD 0 6 1\nX 7 0 1 2\nA 1 1\nA 5 2\nA 7 3\nD 1 1 1\nD 1 5 1\nD 1 7 1\n";
    // The extra waits for issues 1 and 5, which are held and not yet delivered when it is offered: 1 delay.
    assert_eq!(printed(lines), format!("{issued}{brought}T 6 1 5 1 17\n"));
}

#[test]
fn halves_of_the_share_go_to_the_even_neighbour() {
    // Node 0 keeps (0,1), (0,2) and (0,3). Each frame from 1 brings (1,2) and (1,3) to it: five entries stand, so column
    // 2 goes as an extra.
    let sends = "4 4 4 4 4\nS 1 2\nS 1 3\nS 1 0\nS 1 0\nS 1 0\nS 0 1\nS 0 2\nS 0 3\n";
    let sent = "S 1 1 2 0\nS 2 1 3 1\nS 3 1 0 2\nS 4 1 0 3\nS 5 1 0 3\nS 6 0 1 0\nS 7 0 2 1\nS 8 0 3 2\n";
    let lines = ["A 3\nD 0\n", "A 4\nD 0\n", "A 5\nD 0\n"];
    let brought = ["A 3 1\nD 0 3 1\nX 9 0 2 2\n", "A 4 1\nD 0 4 1\nX 10 0 2 2\n", "A 5 1\nD 0 5 1\nX 11 0 2 2\n"];
    // 0, 12.5, 25 and 37.5
    for (count, tally) in ["8 0 0 0 0", "8 1 1 0 12", "8 2 2 0 25", "8 3 3 0 38"].into_iter().enumerate() {
        let output = printed(format!("{sends}{}", lines[..count].concat()));
        assert_eq!(output, format!("{sent}{}T {tally}\n", brought[..count].concat()));
    }
}

#[test]
fn a_cap_for_each_node() {
    // In the end 0 knows (0,1), (0,2), (1,2) and (2,1), and 1 knows (1,0), (1,2) and (2,0).
    let sends = "S 1 2\nS 1 0\nS 2 0\nS 2 1\nA 4\nD 1\nS 0 1\nS 0 2\nS 2 0\nA 2\nD 0\nA 3\nD 0\nA 7\nD 0\n";
    let start = "S 1 1 2 0\nS 2 1 0 1\nS 3 2 0 0\nS 4 2 1 1\nA 4 1\nD 1 4 1\nS 5 0 1 0\nS 6 0 2 1\nS 7 2 0 2\n";
    let known = "A 2 1\nD 0 2 1\nA 3 1\nD 0 3 1\nA 7 1\nD 0 7 1\n";
    let told = |caps: &str, lines: &str| printed(format!("3 {caps}\n{sends}{lines}"));
    // Four entries go to 1, which keeps them if it may, and issues an extra to 0 if its own cap is 3.
    let (lines, brought) = ("S 0 1\nA 5\nD 1\nA 8\nD 1\n", "S 8 0 1 4\nA 5 1\nD 1 5 1\nA 8 1\nD 1 8 1\n");
    for caps in ["9 3 3", "4 3 9"] {
        let extra = "X 9 1 0 2\nT 8 1 6 0 12\n";
        assert_eq!(told(caps, lines), format!("{start}{known}{brought}{extra}"), "{caps}");
    }
    for caps in ["9 9 9", "4 4 3"] {
        assert_eq!(told(caps, lines), format!("{start}{known}{brought}T 8 0 6 0 0\n"), "{caps}");
    }
    // With cap 3 at 0, the four are too many there: an extra to 1 takes (0,1) and (2,1).
    for caps in ["3 3 3", "3 9 9"] {
        assert_eq!(told(caps, ""), format!("{start}{known}X 8 0 1 2\nT 7 1 4 0 14\n"), "{caps}");
    }
}
