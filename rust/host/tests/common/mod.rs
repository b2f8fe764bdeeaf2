//! What the tests share: frames spelled out, and nodes of a plant.
#![allow(dead_code)]

pub mod c;

use host::{topics, Class, Delivered, Frames, Node, Output};

/// A frame's bytes with a right trailer; entries are row, column and value.
pub fn spelled(kind: u8, from: u8, to: u8, n: u8, cap: u8, entries: &[(u8, u8, u32)], body: &[u8]) -> Vec<u8> {
    let mut bytes = vec![kind, from, to, entries.len() as u8, body.len() as u8, n, cap, 0];
    for (row, column, value) in entries {
        bytes.extend([*row, *column]);
        bytes.extend(value.to_le_bytes());
    }
    bytes.extend(body);
    sealed(bytes)
}

/// Bytes with a right trailer behind them, in whose sum each byte counts one time more than its offset.
pub fn sealed(bytes: Vec<u8>) -> Vec<u8> {
    sealed_by(bytes, |offset| offset + 1)
}

/// Bytes with the trailer of an old plant behind them, in whose sum each byte counts once.
pub fn sealed_as_before(bytes: Vec<u8>) -> Vec<u8> {
    sealed_by(bytes, |_| 1)
}

/// Bytes with their count behind them, and the sum in which a byte counts as often as its offset says.
fn sealed_by(mut bytes: Vec<u8>, times: fn(usize) -> usize) -> Vec<u8> {
    bytes.extend((bytes.len() as u16).to_le_bytes());
    let sum: usize = bytes.iter().enumerate().map(|(offset, byte)| usize::from(*byte) * times(offset)).sum();
    bytes.extend((sum as u16).to_le_bytes());
    bytes
}

/// The nodes of a plant, each set up once, with one cap for all.
pub fn plant(n: usize, cap: usize) -> Vec<Node> {
    plant_with(&vec![cap; n])
}

/// The nodes of a plant, each set up once, with a cap for each.
pub fn plant_with(caps: &[usize]) -> Vec<Node> {
    let node = |(me, cap): (usize, &usize)| Node::set_up(me, caps.len(), *cap).expect("n and the caps are in range");
    caps.iter().enumerate().map(node).collect()
}

/// A class that may send the body, by its topic.
pub fn class_for(body: &[u8]) -> Class {
    match body.first().unwrap_or(&topics::EMPTY) {
        0..=31 => Class::Mover,
        32..=95 => Class::Camera,
        96..=127 => Class::Archive,
        128..=255 => Class::Panel,
    }
}

/// The frames that a send issues, as a class that may send the body.
pub fn send(node: &mut Node, to: usize, body: &[u8]) -> Vec<Vec<u8>> {
    let mut output = Output::new();
    let sent = node.send(to, class_for(body), body, &mut output).expect("a send");
    cut(sent.issued)
}

/// The frames of an output.
pub fn cut(output: &[u8]) -> Vec<Vec<u8>> {
    let mut frames = Frames::new(output);
    let cut = frames.by_ref().map(|frame| frame.bytes().to_vec()).collect();
    assert!(frames.rest().is_empty(), "an output ends with a frame");
    cut
}

/// The bodies that a node delivers until there is none.
pub fn delivered(node: &mut Node) -> Vec<Vec<u8>> {
    let mut output = Output::new();
    let mut bodies = Vec::new();
    while let Delivered::Frame(delivery) = node.deliver(&mut output).expect("a deliver") {
        bodies.push(delivery.body.to_vec());
    }
    bodies
}

/// Document 01's example of a delivery that issues an extra frame: three nodes with cap 3, the frames from 0 to 1, 0 to
/// 2, 1 to 2, 1 to 0, 2 to 1 and 2 to 0, of which node 0 has delivered the one from 1 and holds the one from 2.
pub fn before_an_extra() -> (Vec<Node>, Vec<Vec<u8>>) {
    let mut nodes = plant(3, 3);
    let pairs = [(0, 1), (0, 2), (1, 2), (1, 0), (2, 1), (2, 0)];
    let frames = pairs.map(|(from, to)| send(&mut nodes[from], to, &[]).remove(0)).to_vec();
    nodes[0].offer(&frames[3]).expect("a sound frame");
    assert_eq!(delivered(&mut nodes[0]).len(), 1);
    nodes[0].offer(&frames[5]).expect("a sound frame");
    (nodes, frames)
}

/// A file at the top of the repository.
pub fn path(name: &str) -> std::path::PathBuf {
    std::path::Path::new(env!("CARGO_MANIFEST_DIR")).join("../..").join(name)
}
