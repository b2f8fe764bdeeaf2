//! The trail on both implementations: writes, whole walks, walks step by step, and steps from any cursor.

use crate::pair::differ;
use crate::Difference;
use generate::trails::{fault, frame_fault};
use generate::{Answer, Call, Case, Outcome, Walked};
use host::lent::{self, Cursor as Numbers, Place};
use reference::cursor::Cursor;
use reference::trail::WINDOWS;

/// What stands in a lent number before a call that a refusal leaves.
const MARK: u64 = 0xA5A5_A5A5_A5A5_A5A5;

/// The class of a refusal for which no reason is seen.
const UNSEEN: &str = "refused for no reason";

/// What a step leaves: its status, the cursor, and the place that it shows.
#[derive(Clone, Copy, Debug, PartialEq, Eq)]
pub struct Step {
    pub status: u8,
    pub cursor: Numbers,
    pub shown: Place,
}

/// Runs a call of the trail on both; their outcome, or in what they differ.
pub fn compare_trail(case: &Case) -> Result<Outcome, Box<Difference>> {
    let expected = case.run();
    let parts = match (&case.call, &expected.answer) {
        (Call::Write { used, frame }, Answer::Write(_)) => write_differs(case, &expected, *used, frame),
        (Call::Walk { file, w }, Answer::Walk(walked)) => walk_differs(file, *w, walked),
        (Call::Step { file, cursor }, _) => {
            let steps = [reference_step(file, cursor.numbers()), proved_step(file, cursor.numbers())];
            steps_differ(&steps[..1], &steps[1..]).into_iter().collect()
        }
        (call, _) => panic!("{} is no call of the trail", call.name()),
    };
    Difference::unless_none(case, expected, parts)
}

/// In what a write differs: its answer, the number in use after it, and every byte of the file.
fn write_differs(case: &Case, expected: &Outcome, used: usize, frame: &[u8]) -> Vec<String> {
    let mut parts = Vec::new();
    let (mut file, mut used_after) = (case.buffers.file.clone(), used);
    let status = lent::write(&mut file, &mut used_after, frame);
    let left = match &expected.answer {
        Answer::Write(Ok(after)) => (0, *after),
        answer => (answer.number(), used),
    };
    if left != (status, used_after) {
        parts.push(format!("status and number in use: reference {left:?}, proved {:?}", (status, used_after)));
    }
    differ(&mut parts, "file", &expected.buffers.file, &file);
    parts
}

/// In what a walk differs: the whole one in its status and largest count, and the one made step by step in every place
/// shown and every cursor.
fn walk_differs(file: &[u8], w: usize, walked: &Walked) -> Vec<String> {
    let mut most = MARK as usize;
    let status = lent::walk(file, w, &mut most);
    let left = walked.most.map_or_else(|number| (number, MARK as usize), |most| (0, most));
    let whole = (left != (status, most))
        .then(|| format!("status and largest count: reference {left:?}, proved {:?}", (status, most)));
    let proved = steps(file, w, proved_step);
    let shown: Vec<_> = proved.iter().filter_map(Step::place).collect();
    let places = (shown != walked.shown).then(|| format!("places: reference {:?}, proved {shown:?}", walked.shown));
    let each = steps_differ(&steps(file, w, reference_step), &proved);
    [whole, places, each].into_iter().flatten().collect()
}

impl Step {
    /// The start and length that a step shows, if it does.
    fn place(&self) -> Option<(usize, usize)> {
        let [start, length] = self.shown.map(|number| number as usize);
        (self.status == 0 && length > 0).then_some((start, length))
    }
}

/// A step of the proved walk.
pub fn proved_step(file: &[u8], numbers: Numbers) -> Step {
    let (mut cursor, mut shown) = (numbers, [MARK; 2]);
    let status = lent::step(file, &mut cursor, &mut shown);
    Step { status, cursor, shown }
}

/// What a step of the reference says that is to be left.
pub fn reference_step(file: &[u8], cursor: Numbers) -> Step {
    match Cursor::of(cursor).step(file) {
        Err(status) => Step { status, cursor, shown: [MARK; 2] },
        Ok(None) => Step { status: 0, cursor, shown: [0; 2] },
        Ok(Some((frame, after))) => {
            Step { status: 0, cursor: after.numbers(), shown: [frame.start as u64, frame.length() as u64] }
        }
    }
}

/// The steps of a walk from its start to the first that shows nothing, and no more than a file of this length can have.
pub fn steps(file: &[u8], w: usize, step: fn(&[u8], Numbers) -> Step) -> Vec<Step> {
    let mut cursor = lent::walk_start(file, w);
    let mut steps = Vec::new();
    while steps.last().is_none_or(|step: &Step| step.place().is_some()) && steps.len() < file.len() + 2 {
        steps.push(step(file, cursor));
        cursor = steps[steps.len() - 1].cursor;
    }
    steps
}

/// The first step in which two walks differ.
fn steps_differ(expected: &[Step], proved: &[Step]) -> Option<String> {
    let index = (0..expected.len().max(proved.len())).find(|index| expected.get(*index) != proved.get(*index))?;
    Some(format!("step {}: reference {:?}, proved {:?}", index + 1, expected.get(index), proved.get(index)))
}

/// What became of a call of the trail, in words: what a write was refused for, why a walk or a step ended, or what it
/// showed.
pub fn class(case: &Case, outcome: &Outcome) -> &'static str {
    match (&case.call, &outcome.answer) {
        (Call::Write { .. }, Answer::Write(Ok(_))) => "written",
        (Call::Write { frame, .. }, Answer::Write(Err(19))) => frame_fault(frame).unwrap_or(UNSEEN),
        (Call::Write { used, .. }, _) if *used > case.buffers.file.len() => "more in use than there is",
        (Call::Write { .. }, _) => "no room",
        (Call::Walk { .. }, Answer::Walk(Walked { most: Ok(_), .. })) => "the start",
        (Call::Walk { file, w }, Answer::Walk(walked)) => {
            let left = walked.shown.last().map_or(file.len(), |(start, _)| *start);
            walk_fault(*w as u64, &file[..left])
        }
        (Call::Step { .. }, Answer::Step(Ok(None))) => "the start",
        (Call::Step { .. }, Answer::Step(Ok(Some(frame)))) if frame.is_extra => "an extra frame",
        (Call::Step { .. }, Answer::Step(Ok(_))) => "a user frame",
        (Call::Step { file, cursor }, _) => {
            let left = file.len().min(cursor.end.try_into().unwrap_or(usize::MAX));
            walk_fault(cursor.w, &file[..left])
        }
        (call, _) => panic!("{} is no call of the trail", call.name()),
    }
}

/// Why a walk with this window goes no further where this is left.
fn walk_fault(w: u64, left: &[u8]) -> &'static str {
    if w < *WINDOWS.start() as u64 || w > *WINDOWS.end() as u64 {
        return "w is out of range";
    }
    fault(left).unwrap_or(UNSEEN)
}
