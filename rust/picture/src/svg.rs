//! SVG elements as text.

/// The colours for light and dark, and the line styles.
const STYLE: &str = include_str!("style.css");

/// A point of the picture.
pub type Point = (i32, i32);

/// Where a text stands relative to its point.
#[derive(Clone, Copy, Debug, PartialEq, Eq)]
pub enum Anchor {
    Start,
    Middle,
    End,
}

/// The whole document: title, style, and the elements given.
pub fn document(width: i32, height: i32, title: &str, elements: &str) -> String {
    let title = escape(title);
    let size = format!("width=\"{width}\" height=\"{height}\" viewBox=\"0 0 {width} {height}\"");
    let head = format!("<svg xmlns=\"http://www.w3.org/2000/svg\" {size} role=\"img\" aria-label=\"{title}\">");
    format!("{head}\n<title>{title}</title>\n<style>\n{STYLE}</style>\n{elements}</svg>\n")
}

/// A group with a class.
pub fn group(class: &str, elements: &str) -> String {
    format!("<g class=\"{class}\">\n{elements}</g>\n")
}

/// A group that says in words what it shows.
pub fn told(class: &str, title: &str, elements: &str) -> String {
    group(class, &format!("<title>{}</title>\n{elements}", escape(title)))
}

/// A straight line.
pub fn line(class: &str, (x1, y1): Point, (x2, y2): Point) -> String {
    format!("<line class=\"{class}\" x1=\"{x1}\" y1=\"{y1}\" x2=\"{x2}\" y2=\"{y2}\"/>\n")
}

/// A circle.
pub fn circle(class: &str, (x, y): Point, radius: i32) -> String {
    format!("<circle class=\"{class}\" cx=\"{x}\" cy=\"{y}\" r=\"{radius}\"/>\n")
}

/// A rectangle with round corners.
pub fn rectangle(class: &str, (x, y): Point, width: i32, height: i32) -> String {
    format!("<rect class=\"{class}\" x=\"{x}\" y=\"{y}\" width=\"{width}\" height=\"{height}\" rx=\"3\"/>\n")
}

/// A path from a point.
pub fn path(class: &str, (x, y): Point, steps: &str) -> String {
    format!("<path class=\"{class}\" d=\"M{x} {y} {steps}\"/>\n")
}

/// A text.
pub fn text(class: &str, anchor: Anchor, (x, y): Point, content: &str) -> String {
    let anchor = match anchor {
        Anchor::Start => "start",
        Anchor::Middle => "middle",
        Anchor::End => "end",
    };
    format!("<text class=\"{class}\" x=\"{x}\" y=\"{y}\" text-anchor=\"{anchor}\">{}</text>\n", escape(content))
}

/// Text that stands in XML as it is; characters that XML does not allow are shown as replaced.
pub fn escape(text: &str) -> String {
    let mut escaped = String::new();
    for character in text.chars() {
        match character {
            '&' => escaped.push_str("&amp;"),
            '<' => escaped.push_str("&lt;"),
            '>' => escaped.push_str("&gt;"),
            '"' => escaped.push_str("&quot;"),
            '\u{FFFE}' | '\u{FFFF}' => escaped.push('\u{FFFD}'),
            control if control.is_control() => escaped.push('\u{FFFD}'),
            plain => escaped.push(plain),
        }
    }
    escaped
}
