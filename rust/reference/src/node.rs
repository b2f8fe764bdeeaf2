//! The calls of a node: set-up, send, offer and deliver.

use crate::frame::{refuse, Frame, Output, USER};
use crate::rights::{may_send, OURS};
use crate::{shelf, Record, Refusal};

/// Frame output (send, deliver) has at least this many bytes.
pub const OUTPUT: usize = 2048;

/// What a send answers.
#[derive(Clone, Copy, Debug, PartialEq, Eq)]
pub enum SendAnswer {
    /// Frame bytes written, and how many extra frames are among them.
    Sent { bytes: usize, extras: usize },
    /// A refusal is its number.
    Refused(Refusal),
}

/// What an offer answers.
#[derive(Clone, Copy, Debug, PartialEq, Eq)]
pub enum OfferAnswer {
    /// Frames now held, and whether this one was deliverable at that moment.
    Held { held: usize, deliverable: bool },
    /// A refusal is its number.
    Refused(Refusal),
}

/// What a deliver answers.
#[derive(Clone, Copy, Debug, PartialEq, Eq)]
pub enum DeliverAnswer {
    /// No held frame is deliverable; looked is all that are held.
    None { looked: usize },
    /// The first deliverable frame is delivered.
    Delivered(Delivery),
    /// A refusal is its number.
    Refused(Refusal),
}

/// What the answer says of a delivered frame.
#[derive(Clone, Copy, Debug, PartialEq, Eq)]
pub struct Delivery {
    /// The frame's kind: 1 user, 2 extra.
    pub kind: u8,
    /// The node that issued it.
    pub from: usize,
    /// The frame's number.
    pub number: u32,
    /// The delivered one's place counted from 1.
    pub looked: usize,
    /// Body bytes written.
    pub body: usize,
    /// Frame bytes written.
    pub bytes: usize,
    /// Extra frames issued.
    pub extras: usize,
}

/// Set-up returns a fresh record, or its refusal with an all-zero record.
pub fn set_up(me: usize, n: usize, cap: usize) -> (Result<(), Refusal>, Record) {
    match Record::fresh(me, n, cap) {
        Ok(record) => (Ok(()), record),
        Err(number) => (Err(number), Record::ZERO),
    }
}

/// Send from me, a node of this class, to a destination.
pub fn send(mut record: Record, to: usize, class: usize, body: &[u8], out: &mut [u8]) -> (SendAnswer, Record) {
    (send_on(&mut record, to, class, body, out), record)
}

/// Send on a record where it stands, which a refusal leaves: the frame carries every non-zero entry of M, column to is
/// treated, then trim, and the class is no part of any frame.
pub fn send_on(record: &mut Record, to: usize, class: usize, body: &[u8], out: &mut [u8]) -> SendAnswer {
    if let Err(number) = check_send(record, to, class, body, out) {
        return SendAnswer::Refused(number);
    }
    let mut output = Output::new(out);
    output.issue_user(record, to, body);
    record.count_issue(to);
    let extras = trim(record, &mut output);
    SendAnswer::Sent { bytes: output.written(), extras }
}

/// Send checks 2, 3, 5–7, 21.
fn check_send(record: &Record, to: usize, class: usize, body: &[u8], out: &[u8]) -> Result<(), Refusal> {
    refuse(!record.keeps_rules(), 2)?;
    refuse(out.len() < OUTPUT, 3)?;
    refuse(record.is_at_limit(), 5)?;
    refuse(to == record.me as usize || to >= record.n as usize, 6)?;
    refuse(body.len() > Record::BODY, 7)?;
    refuse(!may_send(&OURS, class, body), 21)
}

/// While more than cap entries are non-zero, issues an extra frame for the fullest column and treats it as in a send.
fn trim(record: &mut Record, output: &mut Output) -> usize {
    let mut extras = 0;
    while record.standing() > record.cap as usize {
        let column = record.fullest_column();
        output.issue_extra(record, column);
        record.count_issue(column);
        extras += 1;
    }
    extras
}

/// Offer of a frame.
pub fn offer(mut record: Record, frame: &[u8], shelf: &mut [u8]) -> (OfferAnswer, Record) {
    (offer_on(&mut record, frame, shelf), record)
}

/// Offer on a record where it stands, which a refusal leaves: the frame is checked and held.
pub fn offer_on(record: &mut Record, frame: &[u8], shelf: &mut [u8]) -> OfferAnswer {
    match check_offer(record, frame, shelf) {
        Err(number) => OfferAnswer::Refused(number),
        Ok(deliverable) => {
            shelf::hold(shelf, record.held as usize, frame);
            record.held += 1;
            OfferAnswer::Held { held: record.held as usize, deliverable }
        }
    }
}

/// Offer checks 2–4, 8–16, and says whether the frame is deliverable now.
fn check_offer(record: &Record, frame: &[u8], shelf: &[u8]) -> Result<bool, Refusal> {
    refuse(!record.keeps_rules(), 2)?;
    refuse(shelf.len() != shelf::LENGTH, 3)?;
    shelf::check(shelf, record)?;
    let frame = Frame::check(frame, record)?;
    let held = record.held as usize;
    let (from, number) = (frame.from(), frame.number());
    let same = |other: Frame| other.from() == from && other.number() == number;
    refuse(shelf::frames(shelf, held).any(same), 15)?;
    let deliverable = frame.is_deliverable(&record.deliv);
    refuse(held == Record::HELD || (held == Record::HELD - 1 && !deliverable), 16)?;
    Ok(deliverable)
}

/// Deliver the first held frame that is deliverable.
pub fn deliver(mut record: Record, shelf: &mut [u8], out: &mut [u8], body_out: &mut [u8]) -> (DeliverAnswer, Record) {
    (deliver_on(&mut record, shelf, out, body_out), record)
}

/// Deliver on a record where it stands, which a refusal leaves: the held frames are tried in the order in which they
/// were held, and the first deliverable one is removed.
pub fn deliver_on(record: &mut Record, shelf: &mut [u8], out: &mut [u8], body_out: &mut [u8]) -> DeliverAnswer {
    if let Err(number) = check_deliver(record, shelf, out, body_out) {
        return DeliverAnswer::Refused(number);
    }
    let held = record.held as usize;
    let first = shelf::frames(shelf, held).enumerate().find(|(_, frame)| frame.is_deliverable(&record.deliv));
    let Some((index, frame)) = first else {
        return DeliverAnswer::None { looked: held };
    };
    let delivery = take(record, frame, index + 1, out, body_out);
    shelf::remove(shelf, held, index);
    record.held -= 1;
    DeliverAnswer::Delivered(delivery)
}

/// Deliver checks 2–5.
fn check_deliver(record: &Record, shelf: &[u8], out: &[u8], body_out: &[u8]) -> Result<(), Refusal> {
    refuse(!record.keeps_rules(), 2)?;
    refuse(shelf.len() != shelf::LENGTH || out.len() < OUTPUT || body_out.len() < Record::BODY, 3)?;
    shelf::check(shelf, record)?;
    refuse(record.is_at_limit(), 5)
}

/// DELIV[from] goes up by one; a user frame is merged, its body is written, then trim; an extra changes nothing else.
fn take(record: &mut Record, frame: Frame, looked: usize, out: &mut [u8], body_out: &mut [u8]) -> Delivery {
    record.deliv[frame.from()] += 1;
    let mut output = Output::new(out);
    let mut extras = 0;
    let body = frame.body();
    if frame.kind() == USER {
        merge(record, frame);
        body_out[..body.len()].copy_from_slice(body);
        extras = trim(record, &mut output);
    }
    Delivery {
        kind: frame.kind(),
        from: frame.from(),
        number: frame.number(),
        looked,
        body: body.len(),
        bytes: output.written(),
        extras,
    }
}

/// Each M[x,l] with l ≠ me becomes the larger of itself and the frame's entry.
fn merge(record: &mut Record, frame: Frame) {
    let me = record.me as usize;
    for entry in frame.entries().filter(|entry| entry.column != me) {
        let known = record.entry_mut(entry.row, entry.column);
        *known = entry.value.max(*known);
    }
}
