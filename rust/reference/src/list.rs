//! A list: n nodes that start with fresh records and all-zero shelves, and the frames issued so far.

use crate::frame::{refuse, Frame};
use crate::node::OUTPUT;
use crate::{deliver, offer, send, shelf, DeliverAnswer, OfferAnswer, Record, Refusal, SendAnswer};

/// A node of a list: its latest record, and the shelf as its last call left it.
#[derive(Clone, Debug, PartialEq, Eq)]
pub struct Seat {
    pub record: Record,
    pub shelf: Vec<u8>,
}

/// One for each me below n, with one n and a cap for each, and the frames in issue order.
#[derive(Clone, Debug)]
pub struct List {
    pub seats: Vec<Seat>,
    pub issued: Vec<Vec<u8>>,
}

impl List {
    /// A list of nodes with these caps before its first step; 1 when their number or a cap is out of range.
    pub fn start(caps: &[usize]) -> Result<List, Refusal> {
        refuse(caps.is_empty(), 1)?;
        let record = |(me, cap): (usize, &usize)| Record::fresh(me, caps.len(), *cap);
        let seat = |node| Ok(Seat { record: record(node)?, shelf: vec![0; shelf::LENGTH] });
        let seats = caps.iter().enumerate().map(seat).collect::<Result<_, Refusal>>()?;
        Ok(List { seats, issued: Vec::new() })
    }

    /// A list of n nodes with one cap for all.
    pub fn alike(n: usize, cap: usize) -> Result<List, Refusal> {
        List::start(&vec![cap; n])
    }

    /// The caps of the nodes.
    pub fn caps(&self) -> Vec<usize> {
        self.seats.iter().map(|seat| seat.record.cap as usize).collect()
    }

    /// The number of nodes.
    pub fn n(&self) -> usize {
        self.seats.len()
    }

    /// An issued frame, counted from 0.
    pub fn frame(&self, issue: usize) -> Frame<'_> {
        Frame::first_of(&self.issued[issue]).expect("an issued frame is whole")
    }

    /// A send at node i with any class.
    pub fn send(&mut self, i: usize, j: usize, class: usize, body: &[u8]) -> SendAnswer {
        let mut out = [0; OUTPUT];
        let seat = &mut self.seats[i];
        let (answer, record) = send(seat.record, j, class, body, &mut out);
        seat.record = record;
        if let SendAnswer::Sent { bytes, .. } = answer {
            self.note_issued(&out[..bytes]);
        }
        answer
    }

    /// An offer of an issued frame, counted from 0, at a node.
    pub fn offer(&mut self, node: usize, issue: usize) -> OfferAnswer {
        let seat = &mut self.seats[node];
        let (answer, record) = offer(seat.record, &self.issued[issue], &mut seat.shelf);
        seat.record = record;
        answer
    }

    /// A deliver at a node, with the body that it writes.
    pub fn deliver(&mut self, node: usize) -> (DeliverAnswer, Vec<u8>) {
        let (mut out, mut body) = ([0; OUTPUT], [0; Record::BODY]);
        let seat = &mut self.seats[node];
        let (answer, record) = deliver(seat.record, &mut seat.shelf, &mut out, &mut body);
        seat.record = record;
        let DeliverAnswer::Delivered(delivery) = answer else {
            return (answer, Vec::new());
        };
        self.note_issued(&out[..delivery.bytes]);
        (answer, body[..delivery.body].to_vec())
    }

    /// The issue with this from, to and number, counted from 0.
    pub fn find(&self, from: usize, to: usize, number: u32) -> Option<usize> {
        let label = |frame: Frame| (frame.from(), frame.to(), frame.number());
        (0..self.issued.len()).find(|issue| label(self.frame(*issue)) == (from, to, number))
    }

    /// Takes up the frames that a step issued, end to end in issue order.
    fn note_issued(&mut self, bytes: &[u8]) {
        self.issued.extend(Frame::all_of(bytes).map(|frame| frame.bytes().to_vec()));
    }
}
