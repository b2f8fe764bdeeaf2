//! The host's calls: over a lent image of the record and a lent answer, both of any length.
//!
//! Each returns 0 or its refusal, and a refusal leaves every lent byte. 20 stands where 2 stood.

use crate::image::{seal, Image, HELD};
use crate::node::{deliver_on, offer_on, send_on, Delivery};
use crate::{DeliverAnswer, OfferAnswer, Record, Refusal, SendAnswer};

/// An answer has this many bytes: kind, from, number (four), looked, body bytes, extra frames issued, frame bytes
/// issued (two).
pub const ANSWER: usize = 11;

/// An answer without a delivered frame.
const NOTHING: Delivery = Delivery { kind: 0, from: 0, number: 0, looked: 0, body: 0, bytes: 0, extras: 0 };

/// Set-up: 1, then 20 for an image of another length, of which nothing else is looked at.
pub fn set_up(image: &mut [u8], me: usize, n: usize, cap: usize) -> u8 {
    let record = match Record::fresh(me, n, cap) {
        Ok(record) => record,
        Err(number) => return number,
    };
    let Ok(image) = <&mut Image>::try_from(image) else {
        return 20;
    };
    image.fill(0);
    image[..3].copy_from_slice(&[record.me, record.n, record.cap]);
    seal(image);
    0
}

/// Send: 20, 3, 5–7, 21.
pub fn send(image: &mut [u8], to: usize, class: usize, body: &[u8], out: &mut [u8], answer: &mut [u8]) -> u8 {
    let Lent { image, mut record, answer } = match Lent::read(image, answer) {
        Ok(lent) => lent,
        Err(number) => return number,
    };
    match send_on(&mut record, to, class, body, out) {
        SendAnswer::Refused(number) => refusal(number),
        SendAnswer::Sent { bytes, extras } => {
            record.write_image(image);
            *answer = answer_of(&Delivery { bytes, extras, ..NOTHING });
            0
        }
    }
}

/// Offer: 20, 3, 4, 8–16.
pub fn offer(image: &mut [u8], frame: &[u8], shelf: &mut [u8], answer: &mut [u8]) -> u8 {
    let Lent { image, mut record, answer } = match Lent::read(image, answer) {
        Ok(lent) => lent,
        Err(number) => return number,
    };
    match offer_on(&mut record, frame, shelf) {
        OfferAnswer::Refused(number) => refusal(number),
        OfferAnswer::Held { .. } => {
            image[HELD] = record.held;
            seal(image);
            *answer = answer_of(&NOTHING);
            0
        }
    }
}

/// Deliver: 20, 3, 4, 5.
pub fn deliver(image: &mut [u8], shelf: &mut [u8], out: &mut [u8], body_out: &mut [u8], answer: &mut [u8]) -> u8 {
    let Lent { image, mut record, answer } = match Lent::read(image, answer) {
        Ok(lent) => lent,
        Err(number) => return number,
    };
    match deliver_on(&mut record, shelf, out, body_out) {
        DeliverAnswer::Refused(number) => refusal(number),
        DeliverAnswer::None { looked } => {
            *answer = answer_of(&Delivery { looked, ..NOTHING });
            0
        }
        DeliverAnswer::Delivered(delivery) => {
            record.write_image(image);
            *answer = answer_of(&delivery);
            0
        }
    }
}

/// What send, offer and deliver are lent: an image with a right trailer and its record, whose rules are not looked at
/// yet, and the bytes of the answer.
struct Lent<'a> {
    image: &'a mut Image,
    record: Record,
    answer: &'a mut [u8; ANSWER],
}

impl<'a> Lent<'a> {
    /// 20 for an image of another length or with a bad trailer; 3 for a short answer, behind all of 20.
    fn read(image: &'a mut [u8], answer: &'a mut [u8]) -> Result<Lent<'a>, Refusal> {
        let image: &mut Image = image.try_into().or(Err(20))?;
        let record = Record::from_image(image).ok_or(20)?;
        match answer.first_chunk_mut() {
            Some(answer) => Ok(Lent { image, record, answer }),
            None if record.keeps_rules() => Err(3),
            None => Err(20),
        }
    }
}

/// The host's number of a refusal of the node's.
fn refusal(number: Refusal) -> Refusal {
    if number == 2 {
        20
    } else {
        number
    }
}

/// The bytes of an answer.
pub fn answer_of(delivery: &Delivery) -> [u8; ANSWER] {
    let Delivery { kind, from, number, looked, body, bytes, extras } = *delivery;
    let [n0, n1, n2, n3] = number.to_le_bytes();
    let [low, high] = (bytes as u16).to_le_bytes();
    [kind, from as u8, n0, n1, n2, n3, looked as u8, body as u8, extras as u8, low, high]
}

/// What the bytes of an answer say.
pub fn read_answer(answer: &[u8; ANSWER]) -> Delivery {
    let [kind, from, n0, n1, n2, n3, looked, body, extras, low, high] = *answer;
    Delivery {
        kind,
        from: from as usize,
        number: u32::from_le_bytes([n0, n1, n2, n3]),
        looked: looked as usize,
        body: body as usize,
        bytes: u16::from_le_bytes([low, high]) as usize,
        extras: extras as usize,
    }
}
