//! Topics at the bounds of their groups, and classes that may send a body or may not.

use reference::random::Random;
use reference::rights::{may_send, CLASSES, OURS};

/// Topics on both sides of every bound between groups.
pub const TOPICS: [u8; 8] = [0, 31, 32, 95, 96, 127, 128, 255];
/// Numbers that are no class; some would be one if they were cut to fewer bits, or if four times them wrapped.
pub const NO_CLASSES: [usize; 7] = [4, 5, 255, 256, 1 << 32, usize::MAX / 4 + 1, usize::MAX];

/// A class to send a body with: mostly one that may, at times any class, or a number that is none.
pub fn any_class(random: &mut Random, body: &[u8]) -> usize {
    match random.below(16) {
        0 => random.pick(&NO_CLASSES),
        1..=3 => random.below(CLASSES),
        _ => allowed_class(random, body),
    }
}

/// A class that may send the body; there is one for every topic.
pub fn allowed_class(random: &mut Random, body: &[u8]) -> usize {
    let first = random.below(CLASSES);
    let mut classes = (0..CLASSES).map(|place| (first + place) % CLASSES);
    classes.find(|class| may_send(&OURS, *class, body)).expect("some class may send the body")
}
