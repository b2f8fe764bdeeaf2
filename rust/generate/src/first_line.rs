//! The first line of a yard's input: what it is, for whoever counts what was met.

/// What a first line is; positions of caps count from 0.
#[derive(Clone, Copy, Debug, PartialEq, Eq, PartialOrd, Ord)]
pub enum FirstLine {
    /// n, and one cap for all nodes.
    Alike,
    /// n, and caps that differ, the least and the largest among them.
    Apart,
    /// n, and other caps that differ.
    Differ,
    /// n, and one cap alone.
    Old,
    /// Fewer caps than n.
    Missing,
    /// More caps than n.
    TooMany,
    /// A cap below n.
    Below(usize),
    /// A cap above n × n.
    Above(usize),
    /// A field with too many digits; n has position 0, and the caps come behind it.
    Long(usize),
    /// Anything else, or no first line.
    Other,
}

impl FirstLine {
    /// What the first line of an input is: the first of these that it meets, too many digits before all others.
    pub fn of(input: &[u8]) -> FirstLine {
        let Some(end) = input.iter().position(|byte| *byte == b'\n') else {
            return FirstLine::Other;
        };
        let fields: Vec<&[u8]> = input[..end].split(|byte| *byte == b' ').collect();
        if fields.iter().any(|field| field.is_empty() || !field.iter().all(u8::is_ascii_digit)) {
            return FirstLine::Other;
        }
        if let Some(position) = fields.iter().position(|field| field.len() > 3) {
            return FirstLine::Long(position);
        }
        let value = |field: &&[u8]| field.iter().fold(0, |value, digit| 10 * value + usize::from(digit - b'0'));
        let numbers: Vec<usize> = fields.iter().map(value).collect();
        FirstLine::of_numbers(numbers[0], &numbers[1..])
    }

    /// What a first line of these numbers is.
    fn of_numbers(n: usize, caps: &[usize]) -> FirstLine {
        if !(2..=4).contains(&n) {
            return FirstLine::Other;
        }
        match caps.len() {
            1 => return FirstLine::Old,
            count if count < n => return FirstLine::Missing,
            count if count > n => return FirstLine::TooMany,
            _ => (),
        }
        match caps.iter().position(|cap| !(n..=n * n).contains(cap)) {
            Some(position) if caps[position] < n => FirstLine::Below(position),
            Some(position) => FirstLine::Above(position),
            None if caps.iter().all(|cap| *cap == caps[0]) => FirstLine::Alike,
            None if caps.contains(&n) && caps.contains(&(n * n)) => FirstLine::Apart,
            None => FirstLine::Differ,
        }
    }

    /// Whether the yard runs an input with such a first line that is not too long.
    pub fn is_taken(self) -> bool {
        matches!(self, FirstLine::Alike | FirstLine::Apart | FirstLine::Differ)
    }

    /// Every one that is met by first lines of four nodes.
    pub fn all() -> Vec<FirstLine> {
        let caps = (0..4).flat_map(|position| [FirstLine::Below(position), FirstLine::Above(position)]);
        let long = (0..=4).map(FirstLine::Long);
        let others = [FirstLine::Alike, FirstLine::Apart, FirstLine::Differ, FirstLine::Old, FirstLine::Missing];
        others.into_iter().chain([FirstLine::TooMany, FirstLine::Other]).chain(caps).chain(long).collect()
    }
}
