//! The classes of nodes.

/// What a node is, by document 02's number. It decides on which topics the node may send: `docs/host.md` has the table,
/// and [`topics`](crate::topics) the groups of topics.
///
/// It is handed to each send and is neither in the node's image nor in a frame.
///
/// ```
/// use host::Class;
///
/// assert_eq!((Class::Panel.number(), Class::of(3), Class::of(4)), (3, Some(Class::Panel), None));
/// ```
#[derive(Clone, Copy, Debug, PartialEq, Eq, Hash)]
pub enum Class {
    /// A node that moves something, as cover and dome do.
    Mover = 0,
    /// A camera.
    Camera = 1,
    /// An archive.
    Archive = 2,
    /// A panel.
    Panel = 3,
}

impl Class {
    /// Every class, by rising number.
    pub const ALL: [Class; 4] = [Class::Mover, Class::Camera, Class::Archive, Class::Panel];

    /// The class's number.
    pub fn number(self) -> usize {
        self as usize
    }

    /// The class with this number.
    pub fn of(number: usize) -> Option<Class> {
        Class::ALL.into_iter().find(|class| class.number() == number)
    }
}
