//! Reads a picture back: its elements, their attributes, and where texts stand.
#![allow(dead_code)]

use std::path::{Path, PathBuf};

/// An element: its name, attributes, the text that follows it up to the next tag, and how many elements it is in.
#[derive(Clone, Debug)]
pub struct Element {
    pub name: String,
    pub attributes: Vec<(String, String)>,
    pub content: String,
    pub depth: usize,
}

impl Element {
    /// An attribute's value, empty if it is not there.
    pub fn get(&self, name: &str) -> &str {
        self.attributes.iter().find(|(other, _)| other == name).map_or("", |(_, value)| value)
    }

    /// An attribute that is a number.
    pub fn number(&self, name: &str) -> i32 {
        self.get(name).parse().unwrap_or_else(|_| panic!("{name} of {self:?} is no number"))
    }

    /// Whether a class is among its classes.
    pub fn is(&self, class: &str) -> bool {
        self.get("class").split(' ').any(|other| other == class)
    }
}

/// A path from the top of the repository.
pub fn from_top(path: &str) -> PathBuf {
    Path::new(env!("CARGO_MANIFEST_DIR")).join("../..").join(path)
}

/// The bytes of a file of the repository.
pub fn read(path: &str) -> Vec<u8> {
    std::fs::read(from_top(path)).unwrap_or_else(|error| panic!("{path}: {error}"))
}

/// The picture of an input whose nodes have no names.
pub fn draw(input: &str) -> String {
    picture::picture(input.as_bytes(), &[]).unwrap_or_else(|fault| panic!("{input:?}: {fault}"))
}

/// Names as the library takes them.
pub fn names(list: &[&str]) -> Vec<String> {
    list.iter().map(|name| name.to_string()).collect()
}

/// The elements from here on, in their order; every tag must be closed by its own name.
pub fn elements(svg: &str) -> Vec<Element> {
    let (mut all, mut open) = (Vec::new(), Vec::new());
    for part in svg.split('<').skip(1) {
        let (tag, content) = part.split_once('>').unwrap_or_else(|| panic!("a tag without end: {part}"));
        assert!(!content.contains('>'), "an end without tag: {content}");
        if let Some(name) = tag.strip_prefix('/') {
            assert_eq!(open.pop().as_deref(), Some(name), "closed out of order");
            continue;
        }
        let element = element(tag.trim_end_matches('/'), content, open.len());
        if !tag.ends_with('/') {
            open.push(element.name.clone());
        }
        all.push(element);
    }
    assert!(open.is_empty(), "left open: {open:?}");
    all
}

/// An element from its tag.
fn element(tag: &str, content: &str, depth: usize) -> Element {
    let (name, rest) = tag.split_once(' ').unwrap_or((tag, ""));
    let parts: Vec<&str> = rest.split('"').collect();
    let attribute = |pair: &[&str]| (pair[0].trim().trim_end_matches('=').to_string(), pair[1].to_string());
    let attributes = parts.chunks_exact(2).map(attribute).collect();
    Element { name: name.to_string(), attributes, content: content.trim_end_matches('\n').to_string(), depth }
}

/// The elements of the diagram, without the legend below it; the legend starts with the one level grid line.
pub fn diagram(svg: &str) -> Vec<Element> {
    let level = |element: &Element| element.is("grid") && element.get("y1") == element.get("y2");
    elements(svg).into_iter().take_while(|element| !level(element)).collect()
}

/// The groups of a class in the diagram that say what they show: the words, and the elements of the group.
pub fn told(svg: &str, class: &str) -> Vec<(String, Vec<Element>)> {
    let all = diagram(svg);
    let starts = (1..all.len()).filter(|index| all[*index].name == "title" && all[index - 1].is(class));
    let group = |start: usize| {
        let rest = all[start + 1..].iter().take_while(|element| element.depth == all[start].depth);
        (all[start].content.clone(), rest.cloned().collect())
    };
    starts.map(group).collect()
}

/// The words of the groups of a class.
pub fn words(svg: &str, class: &str) -> Vec<String> {
    told(svg, class).into_iter().map(|(words, _)| words).collect()
}

/// The heights of the nodes' lines.
pub fn heights(svg: &str) -> Vec<i32> {
    diagram(svg).iter().filter(|element| element.is("node")).map(|line| line.number("y1")).collect()
}

/// The middle of each step's column.
pub fn columns(svg: &str) -> Vec<i32> {
    diagram(svg).iter().filter(|element| element.is("grid")).map(|line| line.number("x1")).collect()
}

/// Left, right, top and bottom of a text in a wide sans-serif font of 12 px.
pub fn extent(text: &Element) -> (i32, i32, i32, i32) {
    let plain = text.content.replace("&lt;", "<").replace("&gt;", ">").replace("&quot;", "\"").replace("&amp;", "&");
    let width = plain.chars().map(|character| if character == ' ' { 38 } else { glyph(character) }).sum::<i32>() / 10;
    let (x, y) = (text.number("x"), text.number("y"));
    let left = match text.get("text-anchor") {
        "start" => x,
        "middle" => x - width / 2,
        _ => x - width,
    };
    (left, left + width, y - 10, y + 3)
}

/// Tenths of a pixel that a character takes.
fn glyph(character: char) -> i32 {
    match character {
        '(' | ')' | 'i' | 't' | 'l' => 47,
        'm' | 'w' | 'M' | 'W' => 117,
        _ => 77,
    }
}
