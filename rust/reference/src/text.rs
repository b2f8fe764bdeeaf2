//! Fields of a line: what stands between single spaces, and numbers of a few digits.

/// What stands between single spaces.
pub fn fields(line: &[u8]) -> Vec<&[u8]> {
    line.split(|byte| *byte == b' ').collect()
}

/// A field of 1 to so many digits, at most 19 of them, whose number fits its type.
pub fn read_number<N: TryFrom<u64>>(field: &[u8], most: usize) -> Option<N> {
    if !(1..=most).contains(&field.len()) || !field.iter().all(u8::is_ascii_digit) {
        return None;
    }
    let number = field.iter().fold(0, |number, digit| 10 * number + u64::from(digit - b'0'));
    N::try_from(number).ok()
}
