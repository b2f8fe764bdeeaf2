//! The symbols that stand in the diagram and in its legend.

use crate::svg::{circle, line, path, text, Anchor, Point};

/// Half the height of a bar.
const HALF: i32 = 7;

/// The class of a frame's kind.
pub fn kind(extra: bool) -> &'static str {
    if extra {
        "extra"
    } else {
        "user"
    }
}

/// A frame is issued: a dot, or a diamond for an extra frame.
pub fn issue(extra: bool, (x, y): Point) -> String {
    if extra {
        path("solid", (x, y - 6), "l6 6 l-6 6 l-6 -6 z")
    } else {
        circle("solid", (x, y), 4)
    }
}

/// The flight from issue to accepted offer, with a ring where the frame is accepted.
pub fn flight(from: Point, to: Point) -> String {
    line("flight", from, to) + &circle("hollow", to, 4)
}

/// The flight of a frame that is never held: it ends on the way.
pub fn lost(from: Point, to: Point) -> String {
    line("flight lost", from, to)
}

/// The bar of a held frame; without a delivery its end is open.
pub fn bar((x, y): Point, end: i32, delivered: bool, issue: usize) -> String {
    let close = if delivered { "z" } else { "" };
    let outline = format!("H{x} v{} H{end} {close}", 2 * HALF);
    // The issue stands at the start, where no other frame's stem crosses it.
    let number = text("ink", Anchor::Start, (x + 6, y + 4), &issue.to_string());
    path("bar", (end, y - HALF), &outline) + &number
}

/// The stem from a node's line down to the start of a bar.
pub fn entering((x, y): Point, lane: i32) -> String {
    line("casing", (x, y + 5), (x, lane - HALF - 1)) + &line("stem", (x, y + 4), (x, lane + HALF))
}

/// The arrow from the end of a bar up to the node's line: the delivery.
pub fn delivery((x, y): Point, lane: i32) -> String {
    let casing = line("casing", (x, y + 9), (x, lane - HALF - 1));
    let stem = line("stem", (x, y + 9), (x, lane + HALF));
    casing + &stem + &path("solid", (x, y + 1), "l6 10 h-12 z")
}

/// A wait: an hourglass.
pub fn wait((x, y): Point) -> String {
    path("hollow", (x - 5, y - 7), "h10 l-10 14 h10 z")
}

/// A refusal: a cross.
pub fn refusal((x, y): Point) -> String {
    path("cross", (x - 5, y - 5), "l10 10 m0 -10 l-10 10")
}
