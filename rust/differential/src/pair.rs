//! One case on both implementations.

use crate::difference::{hex, Difference};
use generate::{Buffers, Call, Case, Outcome};
use host::lent;

/// What a call of the proved node leaves: the number that it returned and the image. The buffers are changed in place.
#[derive(Clone, Debug)]
pub struct Lent {
    pub number: u8,
    pub image: Vec<u8>,
}

/// Runs a call of the proved node over an image and the buffers; the yard, the load and the trail's are no calls of it.
pub fn run_lent(mut image: Vec<u8>, call: &Call, buffers: &mut Buffers) -> Lent {
    let Buffers { shelf, out, body_out, answer, .. } = buffers;
    let number = match call {
        Call::SetUp { me, n, cap } => lent::set_up(&mut image, *me, *n, *cap),
        Call::Send { to, class, body } => lent::send(&mut image, *to, *class, body, out, answer),
        Call::Offer { frame } => lent::offer(&mut image, frame, shelf, answer),
        Call::Deliver => lent::deliver(&mut image, shelf, out, body_out, answer),
        _ => panic!("{} is no call of the node", call.name()),
    };
    Lent { number, image }
}

/// Runs the case on both; their outcome, or in what they differ.
pub fn compare(case: &Case) -> Result<Outcome, Box<Difference>> {
    let mut buffers = case.buffers.clone();
    let found = run_lent(case.image.clone(), &case.call, &mut buffers);
    judge(case, &found, &buffers)
}

/// Holds what the proved node left against the reference; its outcome, or in what they differ.
pub fn judge(case: &Case, found: &Lent, buffers: &Buffers) -> Result<Outcome, Box<Difference>> {
    let expected = case.run();
    let mut parts = Vec::new();
    if expected.answer.number() != found.number {
        parts.push(format!("returned: reference {}, proved {}", expected.answer.number(), found.number));
    }
    let Buffers { shelf, out, body_out, answer, .. } = &expected.buffers;
    differ(&mut parts, "image", &expected.image, &found.image);
    differ(&mut parts, "shelf", shelf, &buffers.shelf);
    differ(&mut parts, "frame output", out, &buffers.out);
    differ(&mut parts, "body output", body_out, &buffers.body_out);
    differ(&mut parts, "answer", answer, &buffers.answer);
    Difference::unless_none(case, expected, parts)
}

/// Notes where two runs of bytes differ.
pub fn differ(parts: &mut Vec<String>, name: &str, expected: &[u8], found: &[u8]) {
    if expected != found {
        let places: Vec<usize> = (0..expected.len().min(found.len())).filter(|k| expected[*k] != found[*k]).collect();
        let (first, last) = (places.first().copied().unwrap_or(0), places.last().copied().unwrap_or(0));
        let part = |bytes: &[u8]| hex(bytes.get(first..=last).unwrap_or(&[]));
        let (left, right) = (part(expected), part(found));
        parts.push(format!(
            "{name}, bytes {first} to {last}, {} of them: reference {left}, proved {right}",
            places.len()
        ));
    }
}
