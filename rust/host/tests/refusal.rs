//! The refusals: their numbers, and that each says in words of its own what is wrong and what to do.

use host::Refusal;
use std::collections::BTreeSet;
use std::error::Error;

/// The numbers that the host's calls and the trail's give.
const NUMBERS: [u8; 18] = [1, 3, 4, 5, 6, 7, 8, 9, 10, 11, 12, 13, 14, 15, 16, 19, 20, 21];

#[test]
fn numbers_are_document_01s_and_rise() {
    assert_eq!(Refusal::ALL.map(Refusal::number), NUMBERS);
    for number in 0..=255 {
        let refusal = Refusal::of(number);
        assert_eq!(refusal.is_some(), NUMBERS.contains(&number));
        assert!(refusal.is_none_or(|refusal| refusal.number() == number));
    }
}

#[test]
fn each_says_what_is_wrong_and_what_to_do() {
    let mut causes = BTreeSet::new();
    for refusal in Refusal::ALL {
        let text = refusal.to_string();
        let (number, words) = text.split_once(": ").expect("the number stands in front");
        let (cause, remedy) = words.split_once("; to do: ").expect("what to do stands behind");
        assert_eq!(number, refusal.number().to_string());
        assert!(cause.len() > 10 && remedy.len() > 10, "{text}");
        assert!(causes.insert(cause.to_string()), "{text}");
    }
}

#[test]
fn it_is_an_error() {
    let error: Box<dyn Error + Send + Sync> = Box::new(Refusal::QueueFull);
    let words = "16: 16 frames are held, or 15 are and this one has to wait; \
        to do: deliver until there is none, then offer it again";
    assert_eq!(error.to_string(), words);
}

/// The table of docs/host.md has a line for each refusal, in the same order.
#[test]
fn the_document_has_every_refusal() {
    let path = concat!(env!("CARGO_MANIFEST_DIR"), "/../../docs/host.md");
    let text = std::fs::read_to_string(path).expect("docs/host.md can be read");
    let rows = text.lines().filter_map(|line| line.strip_prefix("| ")?.split_once(" | `Refusal::"));
    let named =
        rows.map(|(number, rest)| (number.parse::<u8>().expect("a number"), rest.split('`').next().unwrap_or("")));
    let named: Vec<(u8, String)> = named.map(|(number, name)| (number, name.to_string())).collect();
    let expected: Vec<(u8, String)> =
        Refusal::ALL.iter().map(|refusal| (refusal.number(), format!("{refusal:?}"))).collect();
    assert_eq!(named, expected);
}
