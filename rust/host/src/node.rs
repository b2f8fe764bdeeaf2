//! A node of a plant.

use crate::answers::{Delivered, Output, Sent};
use crate::class::Class;
use crate::lent;
use crate::refusal::Refusal;
use crate::sizes::{ANSWER, IMAGE, STORED};
use std::fmt::{self, Debug, Formatter};

/// Where the number of held frames stands in an image.
const HELD_AT: usize = 627;

/// One node: its image and its hold-back queue (document 01: the shelf), which belong together.
///
/// It can be neither cloned nor copied. The order of messages is proved for nodes of which each call works on what the
/// call before it left; of two copies one would be stale, number its frames anew and count deliveries that the other
/// made, and no check finds that for certain. For the same reason [`load`](Node::load) takes the stored bytes for good.
///
/// Nothing is shared between nodes, so different nodes may be used on different threads.
///
/// ```
/// use host::{Class, Delivered, Kind, Node, Output};
///
/// let (mut cover, mut camera) = (Node::set_up(0, 4, 4)?, Node::set_up(2, 4, 4)?);
/// let mut output = Output::new();
/// let sent = cover.send(2, Class::Mover, b"\x02closed", &mut output)?;
/// let frames: Vec<Vec<u8>> = sent.frames().map(|frame| frame.bytes().to_vec()).collect();
/// // Here the host stores the node with these frames, and transmits them.
/// for frame in &frames {
///     camera.offer(frame)?;
/// }
/// while let Delivered::Frame(delivery) = camera.deliver(&mut output)? {
///     assert_eq!((delivery.kind, delivery.from, delivery.body), (Kind::User, 0, &b"\x02closed"[..]));
/// }
/// # Ok::<(), host::Refusal>(())
/// ```
///
/// ```compile_fail
/// let node = host::Node::set_up(0, 4, 4).unwrap();
/// let stale = node.clone();
/// ```
pub struct Node {
    /// The image and then the queue.
    bytes: Box<[u8; STORED]>,
}

impl Node {
    /// Sets a node up, once in a plant's time: me of n nodes, with this cap. One n is for all nodes; caps may differ, and
    /// each node's frames carry its own.
    pub fn set_up(me: usize, n: usize, cap: usize) -> Result<Node, Refusal> {
        let mut bytes = vec![0; STORED];
        Refusal::unless_zero(lent::set_up(&mut bytes[..IMAGE], me, n, cap))?;
        Ok(Node { bytes: boxed(bytes) })
    }

    /// Sends a body to a node, as a node of the class that this one has. The body begins with its
    /// [topic](crate::topics), which the class must have the right to send. The frames that were issued have to be kept
    /// until they are delivered, stored together with the node, and then transmitted.
    ///
    /// ```
    /// use host::{Class, Node, Output, Refusal};
    ///
    /// let (mut panel, mut output) = (Node::set_up(1, 4, 4)?, Output::new());
    /// assert_eq!(panel.send(0, Class::Panel, b"\x01open", &mut output).unwrap_err(), Refusal::NoRight);
    /// assert!(panel.send(0, Class::Panel, b"\x80please open", &mut output).is_ok());
    /// # Ok::<(), Refusal>(())
    /// ```
    pub fn send<'o>(
        &mut self,
        to: usize,
        class: Class,
        body: &[u8],
        output: &'o mut Output,
    ) -> Result<Sent<'o>, Refusal> {
        let mut answer = [0; ANSWER];
        let (image, _) = self.parts();
        Refusal::unless_zero(lent::send(image, to, class.number(), body, &mut output.frames, &mut answer))?;
        Ok(Sent::read(&answer, output))
    }

    /// Offers a frame that a link brought: it is checked and held back, to be delivered in its turn.
    pub fn offer(&mut self, frame: &[u8]) -> Result<(), Refusal> {
        let (image, queue) = self.parts();
        Refusal::unless_zero(lent::offer(image, frame, queue, &mut [0; ANSWER]))
    }

    /// Delivers the first held frame that can be, if there is one. To be called until there is none, after each offer
    /// that was taken.
    pub fn deliver<'o>(&mut self, output: &'o mut Output) -> Result<Delivered<'o>, Refusal> {
        let mut answer = [0; ANSWER];
        let (image, queue) = self.parts();
        let number = lent::deliver(image, queue, &mut output.frames, &mut output.body, &mut answer);
        Refusal::unless_zero(number)?;
        Ok(Delivered::read(&answer, output))
    }

    /// The node's bytes, image and queue together, to be stored with the frames that are kept, before anything of the
    /// last call is transmitted or handed to the user.
    pub fn bytes(&self) -> &[u8; STORED] {
        &self.bytes
    }

    /// The node of stored bytes, which must be the latest: after a power cut, and never beside the node itself.
    ///
    /// That image and queue are sound and belong together is checked here: 20 for an image that is not sound, 3 for
    /// another length of the whole, 4 for a queue that is not the image's. That they are the latest cannot be checked.
    ///
    /// ```
    /// use host::{Node, Refusal};
    ///
    /// let node = Node::set_up(1, 4, 4)?;
    /// let mut stored = node.bytes().to_vec();
    /// drop(node);
    /// let node = Node::load(stored.clone())?;
    /// assert_eq!((node.me(), node.n(), node.cap(), node.held()), (1, 4, 4, 0));
    /// stored[3] ^= 1;
    /// assert_eq!(Node::load(stored).unwrap_err(), Refusal::Image);
    /// # Ok::<(), Refusal>(())
    /// ```
    pub fn load(mut stored: Vec<u8>) -> Result<Node, Refusal> {
        let length = stored.len().min(IMAGE);
        let (image, queue) = stored.split_at_mut(length);
        // An offer of no bytes leaves all as it is. It is refused with 8, and only where 20, 3 and 4 are not met.
        match Refusal::unless_zero(lent::offer(image, &[], queue, &mut [0; ANSWER])) {
            Err(Refusal::DamagedFrame) => Ok(Node { bytes: boxed(stored) }),
            Err(refusal) => Err(refusal),
            Ok(()) => unreachable!("no bytes are no frame"),
        }
    }

    /// This node's number.
    pub fn me(&self) -> usize {
        usize::from(self.bytes[0])
    }

    /// How many nodes the plant has.
    pub fn n(&self) -> usize {
        usize::from(self.bytes[1])
    }

    /// How many counts may stand in the node's matrix.
    pub fn cap(&self) -> usize {
        usize::from(self.bytes[2])
    }

    /// How many frames are held back.
    pub fn held(&self) -> usize {
        usize::from(self.bytes[HELD_AT])
    }

    /// The image and the queue.
    fn parts(&mut self) -> (&mut [u8], &mut [u8]) {
        self.bytes.split_at_mut(IMAGE)
    }
}

impl Debug for Node {
    fn fmt(&self, f: &mut Formatter<'_>) -> fmt::Result {
        let (me, n, cap, held) = (self.me(), self.n(), self.cap(), self.held());
        write!(f, "Node {{ me: {me}, n: {n}, cap: {cap}, held: {held}, .. }}")
    }
}

/// A node's bytes, of their length.
fn boxed(bytes: Vec<u8>) -> Box<[u8; STORED]> {
    bytes.into_boxed_slice().try_into().expect("image and queue have their lengths")
}
