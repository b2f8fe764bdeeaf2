//! Neighbouring bytes exchanged, as a repeater does it.

use reference::random::Random;
use std::ops::Range;

/// Bytes of a sum.
const SUM: usize = 2;

/// The places in front of the sum that ends the bytes: the byte there and the next one are neighbours.
pub fn places(bytes: &[u8]) -> Range<usize> {
    0..bytes.len().saturating_sub(SUM + 1)
}

/// The bytes with the neighbours at a place exchanged.
pub fn exchanged(bytes: &[u8], place: usize) -> Vec<u8> {
    let mut bytes = bytes.to_vec();
    bytes.swap(place, place + 1);
    bytes
}

/// Exchanges unequal neighbours in front of the sum that ends the bytes; says whether there are such.
pub fn exchange(random: &mut Random, bytes: &mut [u8]) -> bool {
    let places = places(bytes);
    exchange_among(random, bytes, places)
}

/// Exchanges unequal neighbours anywhere; says whether there are such.
pub fn exchange_anywhere(random: &mut Random, bytes: &mut [u8]) -> bool {
    let places = 0..bytes.len().saturating_sub(1);
    exchange_among(random, bytes, places)
}

/// Exchanges unequal neighbours at one of the places; says whether there are such.
fn exchange_among(random: &mut Random, bytes: &mut [u8], places: Range<usize>) -> bool {
    let unequal: Vec<usize> = places.filter(|place| bytes[*place] != bytes[place + 1]).collect();
    if let Some(place) = unequal.get(random.below(unequal.len())) {
        bytes.swap(*place, place + 1);
    }
    !unequal.is_empty()
}
