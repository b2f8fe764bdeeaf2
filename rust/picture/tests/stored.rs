//! The stored pictures are what the program draws, and read well where they are shown.

mod common;

use common::{elements, from_top, names, read};

/// A stored picture: its file, the input, and the nodes' names.
const STORED: [(&str, &str, &[&str]); 2] = [
    ("docs/pictures/detour.svg", "examples/detour.yard", &["cover", "dome", "camera", "archive"]),
    ("docs/pictures/extras.svg", "examples/extras.yard", &[]),
];

/// The width of a README, and the least size of a text there.
const README: (i32, i32) = (850, 11);
/// The size of every text in a picture.
const TEXT: i32 = 12;

#[test]
fn they_are_what_the_program_draws() {
    for (file, input, list) in STORED {
        let drawn = picture::picture(&read(input), &names(list)).expect("a stored input is drawn");
        let stored = String::from_utf8(read(file)).expect("a picture is text");
        let again = format!("cargo run --release --offline -p picture -- {} < ../{input} > ../{file}", list.join(" "));
        assert!(stored == drawn, "{file} is not what the program draws; in rust/: {again}");
    }
}

#[test]
fn every_picture_is_held_to_the_program() {
    let files = std::fs::read_dir(from_top("docs/pictures")).expect("there are pictures");
    let mut found: Vec<String> =
        files.map(|file| format!("docs/pictures/{}", file.unwrap().file_name().to_string_lossy())).collect();
    found.sort();
    assert_eq!(found, STORED.map(|(file, ..)| file));
}

#[test]
fn their_text_is_large_enough_in_a_readme() {
    for (file, ..) in STORED {
        let svg = String::from_utf8(read(file)).unwrap();
        let width = elements(&svg)[0].number("width");
        assert!(svg.contains(&format!("text {{ font: {TEXT}px sans-serif;")), "{file}");
        assert_eq!(svg.matches("font:").count(), 1, "{file} has text of another size");
        assert!(TEXT * README.0 >= README.1 * width, "{file} is {width} wide");
    }
}

#[test]
fn both_pictures_show_every_entry_of_the_legend() {
    let all: String = STORED.iter().map(|(file, ..)| String::from_utf8(read(file)).unwrap()).collect();
    for word in ["user frame", "extra frame", "delivered at", "to the end", "never held", "wait, no", "refused, 15"] {
        let told = all.lines().filter(|line| line.starts_with("<title>")).any(|line| line.contains(word));
        assert!(told, "no stored picture shows: {word}");
    }
}
