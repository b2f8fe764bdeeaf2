//! Who may say what: the topic of a body, the group of a topic, and the groups that each class may send.

/// Node classes: 0 mover, 1 camera, 2 archive, 3 panel.
pub const CLASSES: usize = 4;
/// Topic groups.
pub const GROUPS: usize = 4;
/// The topic of an empty body.
pub const EMPTY: u8 = 128;

/// Rights class by class, four groups each in the order of [`Group`]: 1 may, 0 may not.
pub type Table = [u8; CLASSES * GROUPS];

/// Movers send motion and notes, cameras exposure and notes, archives filing and notes, panels notes.
pub const OURS: Table = [
    1, 0, 0, 1, // mover
    0, 1, 0, 1, // camera
    0, 0, 1, 1, // archive
    0, 0, 0, 1, // panel
];

/// A group of topics.
#[derive(Clone, Copy, Debug, PartialEq, Eq)]
pub enum Group {
    Motion,
    Exposure,
    Filing,
    Notes,
}

/// The first body byte; 128 for an empty body.
pub fn topic(body: &[u8]) -> u8 {
    body.first().copied().unwrap_or(EMPTY)
}

/// Topics 0–31 are motion, 32–95 exposure, 96–127 filing, 128–255 notes.
pub fn group(topic: u8) -> Group {
    match topic {
        0..=31 => Group::Motion,
        32..=95 => Group::Exposure,
        96..=127 => Group::Filing,
        128..=255 => Group::Notes,
    }
}

/// Whether a class, which is any number, has the right to send the body's topic; none above 3 has.
pub fn may_send(table: &Table, class: usize, body: &[u8]) -> bool {
    class < CLASSES && table[GROUPS * class + group(topic(body)) as usize] == 1
}
