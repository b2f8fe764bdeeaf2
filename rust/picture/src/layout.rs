//! Where everything stands: a column for each step, a line for each node with its labels above and its queue below.

use crate::story::{Frame, Mark, Story};
use crate::svg::Point;
use crate::texts::{name, shown, width};
use reference::yard::Run;

/// The width at which a README shows a picture; a longer run is wider and is scaled down there.
pub const WIDTH: i32 = 850;
/// The space at the card's left and right edge.
pub const EDGE: i32 = 16;
/// A column is at least and at most this wide; a longer text of an input line makes it wider.
const COLUMN: (i32, i32) = (40, 76);
/// The top of the first node's space, below the summary.
const TOP: i32 = 40;
/// From one label of a node's line to the next above it.
const LABEL: i32 = 15;
/// Free space above the labels and below the queue of a node.
const GAP: i32 = 18;
/// From a node's line to the middle of its first lane, and from one lane to the next.
const LANES: (i32, i32) = (22, 18);
/// From one row of text below the nodes to the next.
const ROW: i32 = 17;

/// The places of a picture's parts.
#[derive(Clone, Debug, PartialEq, Eq)]
pub struct Layout {
    /// The whole width.
    pub width: i32,
    /// Where the nodes' lines start.
    pub left: i32,
    /// The width of a column.
    pub column: i32,
    /// The height of each node's line.
    pub lines: Vec<i32>,
    /// The height at which lines that belong to no node are marked.
    pub floor: i32,
    /// The heights of the steps' numbers and of their input lines.
    pub axis: (i32, i32),
}

impl Layout {
    /// The layout of a run.
    pub fn of(run: &Run, story: &Story, names: &[String]) -> Layout {
        let left = EDGE + names_width(names) + GAP;
        let column = column_width(run, WIDTH - left - EDGE);
        let width = WIDTH.max(left + column * run.lines.len() as i32 + EDGE);
        let (lines, bottom) = node_lines(run.n(), story);
        let nodeless = story.marks.iter().any(|mark| mark.node.is_none());
        let floor = bottom + ROW + if nodeless { ROW / 2 } else { 0 };
        let number = if nodeless { floor + GAP + ROW / 2 } else { floor };
        Layout { width, left, column, lines, floor, axis: (number, number + ROW) }
    }

    /// The middle of a step's column.
    pub fn x(&self, step: usize) -> i32 {
        self.left + self.column * step as i32 + self.column / 2
    }

    /// The right end of the nodes' lines.
    pub fn right(&self) -> i32 {
        self.width - EDGE
    }

    /// A step's point on a node's line.
    pub fn point(&self, step: usize, node: usize) -> Point {
        (self.x(step), self.lines[node])
    }

    /// The point at which a frame is issued; frames of one step stand side by side.
    pub fn issue(&self, frame: &Frame) -> Point {
        let (x, y) = self.point(frame.step, frame.from);
        (x + 9 * frame.place as i32, y)
    }

    /// The middle of a lane of a node's queue.
    pub fn lane(&self, node: usize, lane: usize) -> i32 {
        self.lines[node] + LANES.0 + LANES.1 * lane as i32
    }

    /// The point of a mark: on its node's line, or else below all nodes.
    pub fn mark(&self, mark: &Mark) -> Point {
        (self.x(mark.step), mark.node.map_or(self.floor, |node| self.lines[node]))
    }
}

/// The point of a label above a point of a node's line, counted from 0 upwards.
pub fn label((x, y): Point, index: usize) -> Point {
    (x, y - 12 - LABEL * index as i32)
}

/// The width of the widest name.
fn names_width(names: &[String]) -> i32 {
    let widths = (0..names.len()).map(|node| width(&name(names, node)));
    widths.max().unwrap_or(0).max(width("node 0"))
}

/// The columns fill the width if they can, and are wide enough for the input lines.
fn column_width(run: &Run, room: i32) -> i32 {
    let texts = run.lines.iter().map(|line| width(&shown(line.text)));
    let widest = texts.max().unwrap_or(0) + 2;
    (room / run.lines.len().max(1) as i32).clamp(COLUMN.0, COLUMN.1).max(widest)
}

/// The height of each node's line, and of the end of the last node's queue.
fn node_lines(n: usize, story: &Story) -> (Vec<i32>, i32) {
    let mut y = TOP;
    let lines = (0..n).map(|node| {
        let line = y + GAP + LABEL * labels(story, node);
        y = line + GAP + LANES.1 * lanes(story, node);
        line
    });
    (lines.collect(), y)
}

/// The most labels that stand above a node's line at one step.
fn labels(story: &Story, node: usize) -> i32 {
    let issued =
        |frame: &Frame| story.frames.iter().filter(|other| other.from == node && other.step == frame.step).count();
    let counts = story.frames.iter().filter(|frame| frame.from == node).map(issued);
    counts.max().unwrap_or(0).max(1) as i32
}

/// The lanes of a node's queue.
fn lanes(story: &Story, node: usize) -> i32 {
    let held = story.frames.iter().filter(|frame| frame.to == node).filter_map(|frame| frame.held);
    held.map(|held| held.lane + 1).max().unwrap_or(0).max(1) as i32
}
