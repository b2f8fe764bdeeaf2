//! The diagram: the nodes' lines, the steps, the frames and the marks.

use crate::layout::{label, Layout, EDGE};
use crate::legend;
use crate::story::{Frame, Held, Mark, Sign, Story};
use crate::svg::{document, group, line, rectangle, text, told, Anchor};
use crate::symbols;
use crate::texts::{name, shown};
use crate::words;
use reference::yard::Run;

/// Draws a run as an SVG document.
pub fn draw(run: &Run, story: &Story, layout: &Layout, names: &[String]) -> String {
    let summary = words::summary(run);
    let (below, height) = legend::draw(layout.axis.1 + 20, layout.width);
    let parts = [
        rectangle("card", (1, 1), layout.width - 2, height - 2),
        text("ink", Anchor::Start, (EDGE, 26), &summary),
        draw_steps(run, layout),
        draw_nodes(layout, names),
        story.frames.iter().map(|frame| draw_bar(layout, frame)).collect(),
        story.frames.iter().map(|frame| draw_frame(layout, frame, names)).collect(),
        story.marks.iter().map(|mark| draw_mark(layout, mark, names)).collect(),
        story.frames.iter().map(|frame| draw_label(layout, story, frame)).collect(),
        below,
    ];
    document(layout.width, height, &summary, &parts.concat())
}

/// A column for each step, with its number and its input line below.
fn draw_steps(run: &Run, layout: &Layout) -> String {
    let (number, input) = layout.axis;
    let head = |y, name| text("quiet", Anchor::Start, (EDGE, y), name);
    let steps = run.lines.iter().enumerate().map(|(step, read)| {
        let x = layout.x(step);
        line("grid", (x, layout.lines[0] - 8), (x, number - 14))
            + &text("quiet", Anchor::Middle, (x, number), &(step + 1).to_string())
            + &text("ink", Anchor::Middle, (x, input), &shown(read.text))
    });
    head(number, "step") + &head(input, "input") + &steps.collect::<String>()
}

/// A line for each node, with its name, and its number below a name that was given.
fn draw_nodes(layout: &Layout, names: &[String]) -> String {
    let nodes = layout.lines.iter().enumerate().map(|(node, y)| {
        let number = text("quiet", Anchor::Start, (EDGE, y + 18), &format!("node {node}"));
        line("node", (layout.left, *y), (layout.right(), *y))
            + &text("name", Anchor::Start, (EDGE, y + 4), &name(names, node))
            + if names.is_empty() { "" } else { &number }
    });
    nodes.collect()
}

/// The bar of a frame that is held, up to its delivery or to the right end.
fn draw_bar(layout: &Layout, frame: &Frame) -> String {
    let Some(held) = frame.held else {
        return String::new();
    };
    let start = (layout.x(held.from), layout.lane(frame.to, held.lane));
    let end = held.until.map_or(layout.right(), |step| layout.x(step));
    let bar = symbols::bar(start, end, held.until.is_some(), frame.issue);
    group(symbols::kind(frame.extra), &bar)
}

/// A frame from its issue to its delivery, as far as it comes.
fn draw_frame(layout: &Layout, frame: &Frame, names: &[String]) -> String {
    let start = layout.issue(frame);
    let way = match frame.held {
        None => draw_lost(layout, frame),
        Some(held) => draw_held(layout, frame, held),
    };
    told(symbols::kind(frame.extra), &words::frame(frame, names), &(way + &symbols::issue(frame.extra, start)))
}

/// The way of a frame that is never held: a part of the way to its node.
fn draw_lost(layout: &Layout, frame: &Frame) -> String {
    let (x, y) = layout.issue(frame);
    let end = (x + 5 * layout.column / 4).min(layout.right());
    symbols::lost((x, y), (end, y + (layout.lines[frame.to] - y) * 3 / 10))
}

/// The way of a frame that is held: flight, into the queue and, if it is delivered, out of it.
fn draw_held(layout: &Layout, frame: &Frame, held: Held) -> String {
    let lane = layout.lane(frame.to, held.lane);
    let offer = layout.point(held.from, frame.to);
    let delivery = held.until.map(|step| symbols::delivery(layout.point(step, frame.to), lane));
    symbols::entering(offer, lane) + &symbols::flight(layout.issue(frame), offer) + &delivery.unwrap_or_default()
}

/// Issue and entries of a frame, above the point of its issue; those of one step stand above one another.
fn draw_label(layout: &Layout, story: &Story, frame: &Frame) -> String {
    let earlier = story.frames.iter().filter(|other| other.step == frame.step && other.issue < frame.issue);
    let (x, y) = label(layout.point(frame.step, frame.from), earlier.count());
    let label = format!("{} ({})", frame.issue, frame.entries);
    text(&format!("halo {}", symbols::kind(frame.extra)), Anchor::End, (x + 4, y), &label)
}

/// A wait or a refusal at its step.
fn draw_mark(layout: &Layout, mark: &Mark, names: &[String]) -> String {
    let point = layout.mark(mark);
    let (x, y) = label(point, 0);
    let (class, drawn) = match mark.sign {
        Sign::Wait => ("wait", symbols::wait(point) + &text("halo", Anchor::End, (x + 7, y), "wait")),
        Sign::Refused(number) => {
            let label = text("halo", Anchor::Middle, (x, y), &number.to_string());
            ("refused", symbols::refusal(point) + &label)
        }
    };
    told(class, &words::mark(mark, names), &drawn)
}
