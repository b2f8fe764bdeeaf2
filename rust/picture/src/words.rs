//! The run, its frames and its marks in words, for titles and for readers that do not see the picture.

use crate::story::{Frame, Held, Mark, Sign};
use crate::texts::name;
use reference::plant::Tally;
use reference::yard::Run;

/// The run in one line; a frame that had to wait when it was accepted is delayed, however many waits it saw.
pub fn summary(run: &Run) -> String {
    let Tally { users, extras, delivered, delays, .. } = run.tally;
    let frames = format!("{}, {}", count(users, "user frame"), count(extras, "extra frame"));
    let end = format!("{delivered} delivered, {delays} delayed");
    format!("{} nodes, {}, {}: {frames}, {end}", run.n(), caps(&run.caps), count(run.lines.len(), "step"))
}

/// The one cap of all nodes, or the cap of each.
fn caps(caps: &[usize]) -> String {
    if caps.iter().all(|cap| *cap == caps[0]) {
        return format!("cap {}", caps[0]);
    }
    let each: Vec<String> = caps.iter().map(usize::to_string).collect();
    format!("caps {}", each.join(" "))
}

/// A frame and what became of it.
pub fn frame(frame: &Frame, names: &[String]) -> String {
    let Frame { issue, from, to, step, .. } = frame;
    let kind = if frame.extra { "extra frame" } else { "user frame" };
    let entries = if frame.entries == 1 { "1 entry".to_string() } else { format!("{} entries", frame.entries) };
    let parties = format!("{} to {}", name(names, *from), name(names, *to));
    format!("issue {issue}, {kind}, {parties}, {entries}: issued at step {}, {}", step + 1, fate(frame.held))
}

/// What became of a frame after its issue.
fn fate(held: Option<Held>) -> String {
    match held {
        None => "never held".to_string(),
        Some(Held { from, until: None, .. }) => format!("held from step {} to the end", from + 1),
        Some(Held { from, until: Some(until), .. }) => {
            format!("held from step {}, delivered at step {}", from + 1, until + 1)
        }
    }
}

/// A wait or a refusal; a refused line may belong to no node.
pub fn mark(mark: &Mark, names: &[String]) -> String {
    let step = mark.step + 1;
    let at = mark.node.map_or(String::new(), |node| format!(" at {}", name(names, node)));
    match mark.sign {
        Sign::Wait => format!("step {step}{at}: wait, no held frame is deliverable"),
        Sign::Refused(number) => format!("step {step}{at}: refused, {number}"),
    }
}

/// A number of things.
fn count(number: usize, thing: &str) -> String {
    format!("{number} {thing}{}", if number == 1 { "" } else { "s" })
}
