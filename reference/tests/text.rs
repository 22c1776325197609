//! The harbour file: what is read, what is unread, what is printed.

use std::collections::BTreeSet;

use crate::common::{h1, made};
use reference::file::{print_file, read_file, write_file, write_file_with_kinds, MOST_BYTES};
use reference::generate;
use reference::random::Random;
use reference::small::H1;

fn printed(text: &str) -> String {
    String::from_utf8(print_file(text.as_bytes())).unwrap()
}

/// H1 with one piece of its text replaced.
fn with(old: &str, new: &str) -> String {
    assert!(H1.contains(old));
    H1.replacen(old, new, 1)
}

#[test]
fn lines_that_are_not_so() {
    let cases = [
        ("(head 2 3 0)\n", "", 1),
        ("(head 2 3 0)\n", "\n(head 2 3 0)\n", 1),
        ("(head 2 3 0)\n", "(head 2 3)\n", 1),
        ("(head 2 3 0)\n", "(head 2 3 0 0)\n", 1),
        ("(head 2 3 0)\n", "(head 2 3 0)\r\n", 1),
        ("(head 2 3 0)\n", " (head 2 3 0)\n", 1),
        ("(head 2 3 0)\n", "(Head 2 3 0)\n", 1),
        ("(head 2 3 0)\n", "(head 2 3 0) \n", 1),
        ("(head 2 3 0)\n", "(head 2 3 0))\n", 1),
        ("(head 2 3 0)\n", "(head 2 3 0)\n(head 2 3 0)\n", 2),
        ("(head 2 3 0)\n", "(head 2 3 0)(expression 1 0 0)\n", 1),
        ("(entry 1 0)", "(entry 1  0)", 6),
        ("(entry 1 0)", "(entry 01 0)", 6),
        ("(entry 1 0)", "(entry 1 00)", 6),
        ("(entry 1 0)", "(entry 65536 0)", 6),
        ("(entry 1 0)", "(entry 99999999999999999999 0)", 6),
        ("(entry 1 0)", "(entry -1 0)", 6),
        ("(entry 1 0)", "(entry +1 0)", 6),
        ("(entry 1 0)", "(entry 1 )", 6),
        ("(entry 1 0)", "(entry)", 6),
        ("(entry 1 0)", "(entries 1 0)", 6),
        ("(entry 1 0)", "(entry\t1 0)", 6),
        ("(entry 1 0)\n", "(entry 1 0)\n\n", 7),
        (
            "(relation 0 3)\n(query 1 0 0 0)\n",
            "(query 1 0 0 0)\n(relation 0 3)\n",
            11,
        ),
        ("(query 3 2 0 0)\n", "(query 3 2 0 0)", 12),
        ("(query 3 2 0 0)\n", "(query 3 2 0 0)\n\n", 13),
        ("(query 3 2 0 0)\n", "(query 3 2 0 0)\nx", 13),
        ("(query 3 2 0 0)\n", "(query 3 2 0 0)\n(entry 0 0)\n", 13),
        ("(query 3 2 0 0)\n", "(kind 0)\n(query 3 2 0 0)\n", 13),
        ("(head 2 3 0)\n", "(kind 0)\n(head 2 3 0)\n", 1),
    ];
    for (old, new, line) in cases {
        assert_eq!(
            printed(&with(old, new)),
            format!("(unread {line})\n"),
            "{new:?}"
        );
    }
    assert_eq!(printed(""), "(unread 1)\n");
    assert_eq!(printed("\n"), "(unread 1)\n");
}

#[test]
fn tables_past_their_range() {
    let lines = [
        ("(expression 1 0 0)\n", 256),
        ("(entry 0 0)\n", 512),
        ("(relation 0 0)\n", 32),
        ("(comparison 1 0 0 0 0)\n", 256),
        ("(query 0 0 0 0)\n", 256),
        ("(kind 0)\n", 64),
    ];
    for (line, most) in lines {
        let full = format!("(head 2 3 0)\n{}", line.repeat(most));
        assert!(read_file(full.as_bytes()).is_ok());
        let over = format!("{full}{line}");
        assert_eq!(printed(&over), format!("(unread {})\n", most + 2));
    }
}

#[test]
fn too_few_lines_are_refused_and_not_unread() {
    assert_eq!(printed("(head 2 3 0)\n"), "(refused 2 0 0 0)\n");
    assert_eq!(printed("(head 65535 3 0)\n"), "(refused 1 0 0 0)\n");
    assert_eq!(
        printed("(head 2 3 0)\n(expression 1 0 0)\n"),
        "(refused 2 4 0 0)\n"
    );
    let empty = "(head 0 0 0)\n(expression 1 0 0)\n(query 0 0 0 0)\n";
    assert_eq!(printed(empty), "(accepted)\n(at 0 (has))\n");
}

#[test]
fn long_files() {
    let mut random = Random::new(1);
    for text in ["", "x", H1] {
        let most = generate::lengthened(&mut random, text.as_bytes(), MOST_BYTES);
        assert_eq!(most.len(), MOST_BYTES);
        assert_ne!(print_file(&most), b"(unread 0)\n");
        let over = generate::lengthened(&mut random, text.as_bytes(), MOST_BYTES + 1);
        assert_eq!(over.len(), MOST_BYTES + 1);
        assert_eq!(print_file(&over), b"(unread 0)\n");
    }
}

#[test]
fn what_is_written_reads_back() {
    assert_eq!(read_file(&write_file(&h1())), Ok(h1()));
    for seed in 0..800 {
        let tables = made::case(seed);
        let head = tables.features.max(tables.attributes).max(tables.model);
        // Heads over 65535, cut forms and over-full tables have no file; nor has a
        // kind table without words where there are attributes.
        let kinds = match tables.kinds.len() {
            0 => tables.attributes == 0,
            words => words <= 64,
        };
        if head <= 65535 && generate::lengths_are_sound(&tables) && kinds {
            let with_kinds = write_file_with_kinds(&tables);
            assert_eq!(read_file(&write_file(&tables)).as_ref(), Ok(&tables));
            assert_eq!(read_file(&with_kinds), Ok(tables));
        }
    }
}

/// Damage gives unread files of every sort, refused and accepted ones, and the
/// print is always one of the three.
#[test]
fn damaged_files() {
    let mut starts = BTreeSet::new();
    for seed in 0..3000 {
        let text = match seed % 3 {
            0 => H1.as_bytes().to_vec(),
            _ => generate::text_of(seed, &generate::small(seed)),
        };
        let print = print_file(&generate::damage(seed, &text));
        assert_eq!(print.last(), Some(&b'\n'));
        let first = print.split(|b| b" )".contains(b)).next().unwrap();
        starts.insert(first.to_vec());
    }
    let wanted = [
        b"(accepted".to_vec(),
        b"(refused".to_vec(),
        b"(unread".to_vec(),
    ];
    assert_eq!(starts, BTreeSet::from(wanted));
}

/// The longest print: all 1,024 configurations with all 64 attributes.
#[test]
fn the_longest_print() {
    let entries: String = (0..64).map(|a| format!("(entry {a} 0)\n")).collect();
    let text =
        format!("(head 10 64 0)\n(expression 1 0 0)\n{entries}(relation 0 64)\n(query 1 0 0 0)\n");
    let print = printed(&text);
    assert_eq!(print.lines().count(), 1025);
    assert_eq!(print.len(), 201_653);
    assert!(print
        .lines()
        .last()
        .unwrap()
        .starts_with("(at 1023 (has 0 1 2 "));
}
