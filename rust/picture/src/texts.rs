//! Texts as they are shown, and how wide they may be.

/// The most characters of a name, and of an input line, that are shown.
const SHOWN: (usize, usize) = (14, 9);

/// A node's name, or its number; long names are cut.
pub fn name(names: &[String], node: usize) -> String {
    names.get(node).map_or_else(|| format!("node {node}"), |name| cut(name, SHOWN.0))
}

/// An input line as it is shown: long ones are cut, and bytes other than printable ASCII are dots.
pub fn shown(line: &[u8]) -> String {
    let plain = |byte: &u8| if (b' '..=b'~').contains(byte) { *byte as char } else { '·' };
    cut(&line.iter().map(plain).collect::<String>(), SHOWN.1)
}

/// The width that a text may take, in any sans-serif font.
pub fn width(text: &str) -> i32 {
    let each = |character| match character {
        ' ' => 4,
        'm' | 'w' | 'M' | 'W' | '@' | '%' => 12,
        narrow if narrow.is_ascii() => 8,
        _ => 13,
    };
    text.chars().map(each).sum()
}

/// The text with at most so many characters.
fn cut(text: &str, most: usize) -> String {
    if text.chars().count() <= most {
        return text.to_string();
    }
    text.chars().take(most - 1).chain(['…']).collect()
}
