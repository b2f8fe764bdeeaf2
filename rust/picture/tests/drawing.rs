//! What is drawn for hand-made inputs: the frames, the marks, the names, and that nothing covers anything.

mod common;

use common::{columns, diagram, draw, elements, extent, heights, names, told, words, Element};
use picture::Fault;
use reference::random::Random;

/// Document 01's example.
const EXAMPLE: &str = "3 3 3 3\nS 0 2\nS 0 1\nA 2\nD 1\nS 1 2\nA 3\nD 2\nA 1\nD 2\nD 2\n";
/// Document 01's run with an extra frame, which is then brought to node 1.
const EXTRA: &str = "3 3 3 3\nS 0 1\nS 0 2\nS 1 2\nS 1 0\nS 2 1\nS 2 0\nA 4\nD 0\nA 6\nD 0\nA 7\n";

/// The one element of a class in a group.
fn only<'a>(group: &'a [Element], class: &str) -> &'a Element {
    let mut found = group.iter().filter(|element| element.is(class));
    match (found.next(), found.next()) {
        (Some(element), None) => element,
        other => panic!("not one {class}: {other:?}"),
    }
}

/// The labels of a class that stand above the nodes' lines.
fn labels(svg: &str, class: &str) -> Vec<String> {
    let all = diagram(svg).into_iter().filter(|element| element.is("halo") && element.is(class));
    all.map(|element| element.content).collect()
}

#[test]
fn each_frame_of_the_example() {
    let svg = draw(EXAMPLE);
    assert_eq!(
        words(&svg, "user"),
        [
            "issue 1, user frame, node 0 to node 2, 0 entries: issued at step 1, held from step 8, delivered at step 9",
            "issue 2, user frame, node 0 to node 1, 1 entry: issued at step 2, held from step 3, delivered at step 4",
            "issue 3, user frame, node 1 to node 2, 1 entry: issued at step 5, held from step 6, delivered at step 10",
        ]
    );
    assert_eq!(words(&svg, "extra"), [""; 0]);
    assert_eq!(labels(&svg, "user"), ["1 (0)", "2 (1)", "3 (1)"]);
    let summary = "3 nodes, cap 3, 10 steps: 3 user frames, 0 extra frames, 3 delivered, 1 delayed";
    assert!(svg.contains(&format!("<title>{summary}</title>")) && svg.contains(&format!(">{summary}</text>")));
}

#[test]
fn an_arrow_goes_from_issue_to_offer_and_from_the_bar_to_the_delivery() {
    let svg = draw(EXAMPLE);
    let (x, y) = (columns(&svg), heights(&svg));
    assert_eq!((x.len(), y.len()), (10, 3));
    // Issue, from, to, and the steps of issue, offer and delivery, counted from 1.
    for (issue, from, to, sent, held, delivered) in [(1, 0, 2, 1, 8, 9), (2, 0, 1, 2, 3, 4), (3, 1, 2, 5, 6, 10)] {
        let (_, group) = &told(&svg, "user")[issue - 1];
        let flight = only(group, "flight");
        assert_eq!((flight.number("x1"), flight.number("y1")), (x[sent - 1], y[from]), "issue {issue}");
        assert_eq!((flight.number("x2"), flight.number("y2")), (x[held - 1], y[to]), "issue {issue}");
        let head = group.iter().find(|element| element.name == "path").expect("an arrow head");
        assert!(head.get("d").starts_with(&format!("M{} {} ", x[delivered - 1], y[to] + 1)), "issue {issue}");
    }
}

#[test]
fn a_bar_lasts_from_the_offer_to_the_delivery() {
    let svg = draw(EXAMPLE);
    let (x, y) = (columns(&svg), heights(&svg));
    let bars: Vec<Element> = diagram(&svg).into_iter().filter(|element| element.is("bar")).collect();
    let path = |from: usize, until: usize, top: i32| {
        format!("M{} {top} H{} v14 H{} z", x[until - 1], x[from - 1], x[until - 1])
    };
    let expected = [path(8, 9, y[2] + 33), path(3, 4, y[1] + 15), path(6, 10, y[2] + 15)];
    assert_eq!(bars.iter().map(|bar| bar.get("d")).collect::<Vec<_>>(), expected);
}

#[test]
fn a_frame_that_is_held_at_the_end_has_an_open_bar_to_the_right_end() {
    let svg = draw("2 2 2\nS 0 1\nA 1\n");
    let (x, y) = (columns(&svg), heights(&svg));
    let right = diagram(&svg).iter().find(|element| element.is("node")).unwrap().number("x2");
    let expected = format!("M{right} {} H{} v14 H{right} ", y[1] + 15, x[1]);
    let all = diagram(&svg);
    assert_eq!(only(&all, "bar").get("d"), expected);
    assert!(words(&svg, "user")[0].ends_with("issued at step 1, held from step 2 to the end"));
}

#[test]
fn a_frame_that_is_never_held_ends_on_its_way() {
    let svg = draw("3 3 3 3\nS 0 2\nS 2 0\n");
    let y = heights(&svg);
    assert!(diagram(&svg).iter().all(|element| !element.is("bar")));
    for (index, from, to) in [(0, 0, 2), (1, 2, 0)] {
        let (words, group) = &told(&svg, "user")[index];
        assert!(words.ends_with("never held"), "{words}");
        let flight = only(group, "lost");
        let (start, end, middle) = (flight.number("y1"), flight.number("y2"), (y[from] + y[to]) / 2);
        assert_eq!(start, y[from]);
        assert!((start.min(middle)..=start.max(middle)).contains(&end) && end != start, "{flight:?}");
    }
}

#[test]
fn an_extra_frame_is_told_from_user_frames() {
    let svg = draw(EXTRA);
    let extra = "issue 7, extra frame, node 0 to node 1, 2 entries: issued at step 10, held from step 11 to the end";
    assert_eq!(words(&svg, "extra"), [extra]);
    assert_eq!(words(&svg, "user").len(), 6);
    assert_eq!((labels(&svg, "extra"), labels(&svg, "user").len()), (vec!["7 (2)".to_string()], 6));
    let (_, group) = &told(&svg, "extra")[0];
    assert_eq!(only(group, "flight").number("x1"), columns(&svg)[9] + 9, "beside the delivery of its step");
    for rule in [".user { color: #0969da; }", ".extra { color: #bc4c00; }", ".extra .flight { stroke-dasharray: 7 4; }"]
    {
        assert!(svg.contains(rule), "{rule}");
    }
}

#[test]
fn frames_of_one_step_stand_side_by_side_and_their_labels_above_one_another() {
    let sends = "4 4 4 4 4\nS 1 2\nS 1 3\nS 1 0\nS 3 2\nS 3 0\nS 2 3\nS 2 0\n";
    let svg = draw(&format!("{sends}A 3\nD 0\nA 5\nD 0\nA 7\nD 0\nS 0 1\n"));
    assert_eq!(
        words(&svg, "extra"),
        ["issue 9, extra frame, node 0 to node 2, 2 entries: issued at step 14, never held"]
    );
    let start = |class, index: usize| only(&told(&svg, class)[index].1, "flight").number("x1");
    assert_eq!([start("user", 7), start("extra", 0)], [columns(&svg)[13], columns(&svg)[13] + 9]);
    let label = |text: &str| diagram(&svg).into_iter().find(|element| element.content == text).expect("a label");
    let (user, extra) = (label("8 (4)"), label("9 (2)"));
    assert_eq!(user.get("x"), extra.get("x"));
    assert!(user.number("y") - extra.number("y") >= 13 && user.number("y") < heights(&svg)[0]);
}

#[test]
fn a_wait_is_marked_at_its_node_and_step() {
    let svg = draw(EXAMPLE);
    assert_eq!(words(&svg, "wait"), ["step 7 at node 2: wait, no held frame is deliverable"]);
    let (_, group) = &told(&svg, "wait")[0];
    let (x, y) = (columns(&svg)[6], heights(&svg)[2]);
    assert_eq!(only(group, "hollow").get("d"), format!("M{} {} h10 l-10 14 h10 z", x - 5, y - 7));
    assert_eq!(only(group, "halo").content, "wait");
}

#[test]
fn a_delayed_frame_is_counted_once_and_each_wait_is_marked() {
    // Issue 2 waits for issue 1: two waits pass over it, and the third is on an empty shelf.
    let svg = draw("2 2 2\nS 0 1\nS 0 1\nA 2\nD 1\nD 1\nD 0\n");
    assert_eq!(words(&svg, "wait").len(), 3);
    assert!(svg.contains("2 nodes, cap 2, 6 steps: 2 user frames, 0 extra frames, 0 delivered, 1 delayed</title>"));
}

/// That the one refusal of an input is marked with this number at this step, counted from 1, and node.
fn assert_refusal(input: &str, number: u8, step: usize, node: Option<usize>) {
    let svg = draw(input);
    let at = node.map_or(String::new(), |node| format!(" at node {node}"));
    assert_eq!(words(&svg, "refused"), [format!("step {step}{at}: refused, {number}")], "{input:?}");
    let (_, group) = &told(&svg, "refused")[0];
    assert_eq!(only(group, "halo").content, number.to_string(), "{input:?}");
    let (x, heights, cross) = (columns(&svg)[step - 1], heights(&svg), only(group, "cross").get("d"));
    let y: i32 = cross.split(' ').nth(1).and_then(|y| y.parse().ok()).expect("a height");
    assert!(cross.starts_with(&format!("M{} ", x - 5)), "{input:?}: {cross}");
    match node {
        Some(node) => assert_eq!(y, heights[node] - 5, "{input:?}"),
        None => assert!(heights.iter().all(|height| y > height + 20), "{input:?}: {cross}"),
    }
}

#[test]
fn a_refusal_is_marked_with_its_number_at_its_node_and_step() {
    assert_refusal("3 3 3 3\nS 1 1\n", 6, 1, Some(1));
    assert_refusal("3 3 3 3\nS 2 9\n", 6, 1, Some(2));
    assert_refusal("3 3 3 3\nS 0 2\nA 1\nD 2\nA 1\n", 14, 4, Some(2));
    assert_refusal("3 3 3 3\nS 0 2\nA 1\nA 1\n", 15, 3, Some(2));
    let offers: String = (2..=16).map(|m| format!("A {m}\n")).collect();
    assert_refusal(&format!("3 3 3 3\n{}{offers}A 18\n", "S 0 1\n".repeat(18)), 16, 34, Some(1));
    assert_refusal(&format!("2 2 2\n{}D 1\n", "S 0 1\n".repeat(63)), 17, 64, Some(1));
}

#[test]
fn a_refused_line_that_belongs_to_no_node_is_marked_below_all() {
    for line in ["S 3 0\n", "D 3\n", "A 0\n", "A 2\n", "hello\n", "\n", "D 1"] {
        assert_refusal(&format!("3 3 3 3\nS 0 1\n{line}"), 17, 2, None);
    }
}

#[test]
fn steps_and_input_lines_stand_below() {
    let svg = draw("2 2 2\nS 0 1\n<&>\nS 000 001\nA very long line\n\u{e9}\u{7}\n");
    let all = diagram(&svg);
    let middle = |element: &&Element| element.get("text-anchor") == "middle" && !element.is("halo");
    let texts: Vec<&str> = all.iter().filter(middle).map(|element| element.content.as_str()).collect();
    let lines = ["S 0 1", "&lt;&amp;&gt;", "S 000 001", "A very l…", "···"];
    let expected: Vec<&str> =
        ["1", "2", "3", "4", "5"].into_iter().zip(lines).flat_map(|(step, line)| [step, line]).collect();
    assert_eq!(texts, expected);
}

#[test]
fn names_are_escaped_and_cut() {
    let list = names(&["a<b>&\"c", "x\u{1}\u{FFFF}y\nz", "</text><script>"]);
    let svg = picture::picture(b"3 3 3 3\nS 0 2\n", &list).unwrap();
    let shown: Vec<String> =
        elements(&svg).into_iter().filter(|element| element.is("name")).map(|e| e.content).collect();
    assert_eq!(shown, ["a&lt;b&gt;&amp;&quot;c", "x\u{FFFD}\u{FFFD}y\u{FFFD}z", "&lt;/text&gt;&lt;scrip…"]);
    assert!(words(&svg, "user")[0].starts_with("issue 1, user frame, a&lt;b&gt;&amp;&quot;c to &lt;/text&gt;"));
    assert!(svg.contains(">node 2</text>"), "a named node keeps its number");
}

#[test]
fn names_are_none_or_one_for_each_node() {
    for given in [1, 2, 4, 5] {
        let list = vec!["name".to_string(); given];
        assert_eq!(picture::picture(b"3 3 3 3\n", &list), Err(Fault::Names { given, nodes: 3 }));
    }
    assert!(picture::picture(b"3 3 3 3\n", &names(&["a", "b", "c"])).is_ok());
}

#[test]
fn what_is_no_yard_input_has_no_picture() {
    for input in ["", "3 3 3 3", "3\n", "3 3\n", "1 1\n", "5 5 5 5 5 5\n", "3 9 9 10\n", "3 3 3 3 3\n", "3 3 3 3\r\n"] {
        assert_eq!(picture::picture(input.as_bytes(), &[]), Err(Fault::Input), "{input:?}");
    }
}

#[test]
fn an_empty_run_has_its_nodes_and_a_legend() {
    let svg = draw("4 9 9 9 9\n");
    assert_eq!(heights(&svg).len(), 4);
    assert!(svg.contains(">4 nodes, cap 9, 0 steps: 0 user frames, 0 extra frames, 0 delivered, 0 delayed</text>"));
    assert!(draw("4 4 9 16 5\n").contains(">4 nodes, caps 4 9 16 5, 0 steps: 0 user frames, "));
    let drawn = |element: &Element| ["flight", "bar", "cross", "halo", "grid"].iter().any(|class| element.is(class));
    assert!(!diagram(&svg).iter().any(drawn));
    for meaning in [
        "user frame",
        "extra frame",
        "never held",
        "held, here",
        "delivered",
        "still held",
        "wait",
        "refused",
        "issue 3, carries 1 entry",
    ] {
        assert!(
            elements(&svg).iter().any(|element| element.name == "text" && element.content.starts_with(meaning)),
            "{meaning}"
        );
    }
}

#[test]
fn a_run_with_all_issues() {
    // Fewer than n of 64 issues left refuses a send, so that 63 is the most.
    let svg = draw(&format!("2 2 2\n{}", "S 0 1\nA 1\n".repeat(64)));
    assert_eq!(words(&svg, "user").len(), 63);
    assert!(words(&svg, "user")[62].starts_with("issue 63, user frame, node 0 to node 1, 1 entry: issued at step 125"));
    assert_eq!(words(&svg, "refused").last().unwrap(), "step 128 at node 1: refused, 15");
    assert!(words(&svg, "refused").contains(&"step 127 at node 0: refused, 17".to_string()));
    assert_eq!(columns(&svg).len(), 128);
}

#[test]
fn bars_of_sixteen_held_frames_do_not_cover_one_another() {
    let offers: String = (2..=16).map(|m| format!("A {m}\n")).collect();
    let svg = draw(&format!("2 2 2\n{}{offers}A 1\n", "S 0 1\n".repeat(16)));
    let tops = |element: &Element| element.get("d").split(' ').nth(1).and_then(|top| top.parse::<i32>().ok()).unwrap();
    let mut found: Vec<i32> = diagram(&svg).iter().filter(|element| element.is("bar")).map(tops).collect();
    found.sort();
    assert_eq!(found.len(), 16);
    assert!(found.windows(2).all(|pair| pair[1] - pair[0] >= 14), "{found:?}");
}

/// The first issue to a node that no line offers, counted from 1.
fn not_offered(input: &str, node: usize) -> Option<String> {
    let printed = String::from_utf8(reference::yard(input.as_bytes())).expect("what is printed is text");
    let issued =
        printed.lines().filter(|line| line.starts_with(['S', 'X'])).map(|line| line.split(' ').collect::<Vec<_>>());
    let here = issued.filter(|fields| fields[3] == node.to_string()).map(|fields| fields[1].to_string());
    here.into_iter().find(|issue| !input.contains(&format!("A {issue}\n")))
}

/// A run of about forty lines, in one run of four with another cap at node 0: sends, then most often an offer with a delivery
/// after it, and in one run of four a line that is as wide as can be.
fn forty(random: &mut Random) -> String {
    let n = random.within(3, 4);
    let first = if random.once_in(4) { n * n } else { n };
    let mut input = format!("{n} {first}{}\n", format!(" {n}").repeat(n - 1));
    if random.once_in(4) {
        input += "S 000 WWWWW\n";
    }
    while input.lines().count() < 41 {
        let (node, other) = (random.below(n), random.below(n));
        let early = input.lines().count() < 14;
        input += &match not_offered(&input, node) {
            Some(issue) if !early && !random.once_in(4) => format!("A {issue}\nD {node}\n"),
            None if random.once_in(4) => format!("D {node}\n"),
            _ => format!("S {node} {other}\n"),
        };
    }
    input
}

#[test]
fn no_text_covers_another_in_runs_of_forty_steps() {
    let mut random = Random::new(7);
    let mut extras = 0;
    for _ in 0..250 {
        let input = forty(&mut random);
        let svg = draw(&input);
        extras += words(&svg, "extra").len();
        let width = elements(&svg)[0].number("width");
        let texts: Vec<Element> = elements(&svg).into_iter().filter(|element| element.name == "text").collect();
        for (index, one) in texts.iter().enumerate() {
            let (left, right, top, bottom) = extent(one);
            assert!(left >= 0 && right <= width, "{one:?} leaves the picture of\n{input}");
            for other in &texts[..index] {
                let (other_left, other_right, other_top, other_bottom) = extent(other);
                let apart = right <= other_left || other_right <= left || bottom <= other_top || other_bottom <= top;
                assert!(apart, "{one:?} covers {other:?} in\n{input}");
            }
        }
    }
    assert!(extras > 100, "only {extras} extra frames");
}

#[test]
fn every_class_has_a_style_and_every_colour_a_dark_one() {
    let svg = draw(EXTRA);
    let (light, dark) = svg.split_once("@media (prefers-color-scheme: dark) {").expect("dark colours");
    let dark = dark.split_once("</style>").unwrap().0;
    let coloured = |style: &str| -> Vec<String> {
        let rules = style.lines().filter(|line| line.contains(": #"));
        rules.map(|rule| rule.split_once(" {").unwrap().0.to_string()).collect()
    };
    assert_eq!(coloured(light), coloured(dark));
    assert!(coloured(light).len() > 8);
    for element in elements(&svg) {
        for class in element.get("class").split(' ').filter(|class| !class.is_empty()) {
            assert!(
                light.contains(&format!(".{class} ")) || light.contains(&format!(".{class},")),
                "{class} has no style"
            );
        }
    }
}
