//! The legend below the diagram.

use crate::layout::{EDGE, WIDTH};
use crate::svg::{group, line, text, Anchor, Point};
use crate::symbols;

/// Entries in a row.
const COLUMNS: usize = 3;
/// From one row to the next.
const ROW: i32 = 34;
/// The width of an entry's symbol.
const SYMBOL: i32 = 50;

/// A symbol's drawing from its left end, its class, and what it means.
type Entry = (fn(Point) -> String, &'static str, &'static str);

/// What the picture's parts mean.
const ENTRIES: [Entry; 9] = [
    (user, "user", "user frame: issued, offered"),
    (held, "user", "held, here issue 3"),
    (wait, "wait", "wait: none is deliverable"),
    (extra, "extra", "extra frame: issued, offered"),
    (delivered, "user", "delivered"),
    (refused, "refused", "refused, with its number"),
    (lost, "user", "never held: lost or on its way"),
    (held_at_end, "user", "still held at the end"),
    (label, "user", "issue 3, carries 1 entry"),
];

/// The legend from this height down, and the picture's height.
pub fn draw(top: i32, width: i32) -> (String, i32) {
    let column = (WIDTH - 2 * EDGE) / COLUMNS as i32;
    let mut drawn = line("grid", (EDGE, top), (width - EDGE, top));
    for (index, (symbol, class, meaning)) in ENTRIES.iter().enumerate() {
        let x = EDGE + column * (index % COLUMNS) as i32;
        let y = top + ROW * (index / COLUMNS) as i32 + 26;
        drawn += &group(class, &symbol((x, y)));
        drawn += &text("ink", Anchor::Start, (x + SYMBOL, y + 4), meaning);
    }
    (drawn, top + ROW * ENTRIES.len().div_ceil(COLUMNS) as i32 + 12)
}

/// A user frame's flight.
fn user((x, y): Point) -> String {
    symbols::flight((x + 4, y), (x + 38, y)) + &symbols::issue(false, (x + 4, y))
}

/// An extra frame's flight.
fn extra((x, y): Point) -> String {
    symbols::flight((x + 4, y), (x + 38, y)) + &symbols::issue(true, (x + 4, y))
}

/// A held frame's bar.
fn held((x, y): Point) -> String {
    symbols::bar((x, y), x + 42, true, 3)
}

/// The bar of a frame that is held at the end.
fn held_at_end((x, y): Point) -> String {
    symbols::bar((x, y), x + 42, false, 3)
}

/// A delivery.
fn delivered((x, y): Point) -> String {
    line("node", (x, y - 9), (x + 42, y - 9)) + &symbols::delivery((x + 21, y - 9), y + 2)
}

/// A wait.
fn wait((x, y): Point) -> String {
    symbols::wait((x + 21, y))
}

/// A refusal.
fn refused((x, y): Point) -> String {
    symbols::refusal((x + 10, y)) + &text("halo", Anchor::Start, (x + 20, y + 4), "15")
}

/// A frame that is never held.
fn lost((x, y): Point) -> String {
    symbols::lost((x + 4, y), (x + 40, y)) + &symbols::issue(false, (x + 4, y))
}

/// A frame's label.
fn label((x, y): Point) -> String {
    text("halo", Anchor::Start, (x + 6, y + 4), "3 (1)")
}
