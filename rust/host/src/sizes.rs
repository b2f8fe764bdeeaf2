//! Sizes of what a host lends and stores, in bytes, and the limits of a node.

/// A plant has at most this many nodes, numbered from 0.
pub const NODES: usize = 12;
/// At most this many frames are held back at a node.
pub const HELD: usize = 16;
/// The largest body of a message, and the least body output.
pub const BODY: usize = 64;
/// The shortest frame.
pub const SHORTEST: usize = 12;
/// The longest frame, and the bytes of a place in the queue.
pub const FRAME: usize = 802;
/// A node's image.
pub const IMAGE: usize = 632;
/// A node's hold-back queue.
pub const QUEUE: usize = HELD * FRAME;
/// The least frame output.
pub const OUTPUT: usize = 2048;
/// An answer.
pub const ANSWER: usize = 11;
/// A node as it is stored: its image and then its queue.
pub const STORED: usize = IMAGE + QUEUE;
