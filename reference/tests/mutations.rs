//! What the byte-level mutations give.

use std::collections::BTreeSet;

use reference::file::print_file;
use reference::generate::{mutate, small, text_of};

/// Mutated files are accepted, refused for form and for typing, and unread; and
/// a seed gives one mutation.
#[test]
fn mutations_have_every_outcome() {
    let mut starts = BTreeSet::new();
    for seed in 0..3000 {
        let text = text_of(seed, &small(seed));
        let mutated = mutate(seed, &text);
        assert_eq!(mutated, mutate(seed, &text));
        let print = String::from_utf8(print_file(&mutated)).unwrap();
        let words: Vec<&str> = print.split([' ', '\n']).collect();
        starts.insert(match words[0] {
            "(refused" => words[1].to_string(),
            first => first.to_string(),
        });
    }
    for wanted in [
        "(accepted)",
        "(unread",
        "1",
        "3",
        "5",
        "8",
        "12",
        "15",
        "17",
        "24",
        "25",
    ] {
        assert!(starts.contains(wanted), "{wanted}");
    }
}

#[test]
fn an_empty_text_is_mutated_too() {
    for seed in 0..200 {
        mutate(seed, b"");
        mutate(seed, b"\n");
    }
}
