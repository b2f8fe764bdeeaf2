//! Damage to a program's input.

use reference::random::Random;

/// Changes, drops or adds a byte, one of those given; the input, which must not be empty, may stay valid.
pub fn damage_byte(random: &mut Random, input: &mut Vec<u8>, bytes: &[u8]) {
    let index = random.below(input.len());
    let byte = random.pick(bytes);
    match random.below(3) {
        0 => input[index] = byte,
        1 => input.insert(index, byte),
        _ => {
            input.remove(index);
        }
    }
}
