//! The cases in the folder `cases` are those that the source has, and their
//! answers are the reference's.

use std::collections::BTreeSet;
use std::fs;
use std::path::Path;

use reference::cases::FILES;
use reference::generate::NUMBERS;
use reference::small::{self, Case};
use reference::{Reading, Tables};

fn stored(name: &str) -> String {
    let path = Path::new(env!("CARGO_MANIFEST_DIR"))
        .join("cases")
        .join(name);
    fs::read_to_string(&path).unwrap_or_else(|error| panic!("{name}: {error}"))
}

/// A case that was read: its number, what it gives, and the call.
struct Stored {
    number: u64,
    gives: String,
    case: Case,
}

/// The cases of a text, in the format of `small_cases`.
fn read_cases(text: &str) -> Vec<Stored> {
    let mut cases = Vec::new();
    let mut lines = text.lines();
    while let Some(first) = lines.next() {
        let number = first.strip_prefix("case ").expect("a case starts");
        let inner: Vec<&str> = lines.by_ref().take_while(|&line| line != "end").collect();
        let is_answer = |line: &&str| line.starts_with("gives ");
        let at = inner.iter().position(is_answer);
        let (given, gives) = inner.split_at(at.expect("a case gives something"));
        cases.push(Stored {
            number: number.parse().expect("a case has a number"),
            gives: gives.join("\n")["gives ".len()..].to_string(),
            case: read_case(given),
        });
    }
    cases
}

/// The call of a case, from its lines between `case` and `gives`.
fn read_case(lines: &[&str]) -> Case {
    if let [text] = lines {
        let bytes = text.strip_prefix("text").expect("a text");
        return Case::Text(numbers(bytes));
    }
    let [head, t0, t1, t2, t3, t4, kinds, reading @ .., call] = lines else {
        panic!("a case has a text, or a head, five tables, kinds and a call");
    };
    let reading = match reading {
        [] => Reading::Strict,
        ["reading filled"] => Reading::Filled,
        _ => panic!("no such reading: {reading:?}"),
    };
    let words = |line: &str| numbers(&line[2..]);
    let head: Vec<u64> = numbers(head.strip_prefix("head").expect("a head"));
    let tables = Tables {
        features: head[0],
        attributes: head[1],
        model: head[2],
        expressions: words(t0),
        entries: words(t1),
        relations: words(t2),
        comparisons: words(t3),
        queries: words(t4),
        kinds: numbers(kinds.strip_prefix("kinds").expect("kinds")),
    };
    read_call(call, tables, reading)
}

/// The call of such tables, from its line.
fn read_call(line: &str, tables: Tables, reading: Reading) -> Case {
    let (name, asked) = line
        .strip_prefix("call ")
        .and_then(|call| call.split_once(' '))
        .expect("a call");
    let asked: Vec<u64> = numbers(asked);
    match (name, &asked[..]) {
        ("check", &[room]) => Case::check(tables, reading, room as usize),
        ("configure", &[c, r1, r2, r3, r4]) => Case::Configure {
            tables,
            reading,
            c,
            room: [r1, r2, r3, r4].map(|words| words as usize),
        },
        ("find", &[wanted]) => Case::Find {
            tables,
            reading,
            wanted,
        },
        ("page", &[room]) => Case::Page {
            tables,
            reading,
            room: room as usize,
        },
        _ => panic!("no such call: {line}"),
    }
}

fn numbers<T: std::str::FromStr>(line: &str) -> Vec<T> {
    let parts = line.split_whitespace().map(str::parse);
    let numbers: Option<Vec<T>> = parts.map(Result::ok).collect();
    numbers.expect("numbers only")
}

/// The files of cases: `limits` has no source but itself.
fn names() -> impl Iterator<Item = &'static str> {
    ["limits"].into_iter().chain(FILES.map(|file| file.name))
}

#[test]
fn the_stored_answers_are_the_references() {
    for name in names() {
        let cases = read_cases(&stored(&format!("{name}.txt")));
        assert!(cases.len() >= 50);
        for Stored {
            number,
            gives,
            case,
        } in cases
        {
            assert_eq!(small::answer(&case), gives, "{name}, case {number}");
        }
    }
}

/// `hand_cases` writes them; it is to be run again when this fails.
#[test]
fn the_cases_with_a_source_are_what_the_command_makes() {
    for file in FILES {
        let name = file.name;
        assert_eq!(stored(&format!("{name}.txt")), file.lines(), "{name}");
        assert_eq!(stored(&format!("{name}.notes")), file.notes(), "{name}");
    }
}

#[test]
fn the_answers_worked_out_by_hand_are_the_references() {
    for aimed in FILES.iter().flat_map(|file| (file.cases)()) {
        assert_eq!(small::answer(&aimed.case), aimed.answer, "{}", aimed.note);
    }
}

/// A number names one case, whichever file it is in, and each has its note.
#[test]
fn numbers_and_notes_are_one_to_one() {
    let mut all = BTreeSet::new();
    for name in names() {
        let cases = read_cases(&stored(&format!("{name}.txt")));
        let notes = stored(&format!("{name}.notes"));
        assert_eq!(notes.lines().count(), cases.len(), "{name}");
        for (case, note) in cases.iter().zip(notes.lines()) {
            let number = case.number;
            assert!(note.starts_with(&format!("{number}: ")), "{note}");
            assert!(all.insert(number), "{number} twice");
        }
    }
}

/// Every number that comes before 23 is tried with a page of no bytes, and the
/// lines are as long as they have to be.
#[test]
fn the_cases_of_the_page_are_complete() {
    let files = ["page.txt", "kinds.txt"].map(|name| read_cases(&stored(name)));
    let mut without_bytes = BTreeSet::new();
    for Stored { gives, case, .. } in files.iter().flatten() {
        let Case::Page { room, .. } = case else {
            continue;
        };
        let words: Vec<&str> = gives.split(' ').collect();
        match words[..] {
            ["refused", number, ..] if *room == 0 => {
                without_bytes.insert(number.parse::<u64>().expect("a number"));
            }
            ["refused", ..] => {}
            _ => assert!(gives.lines().skip(1).all(|line| line.len() == 77)),
        }
    }
    let all = NUMBERS.into_iter().chain([23]);
    assert_eq!(without_bytes, all.collect());
}

/// What is written reads back, so a case that is stored is the case that was
/// meant.
#[test]
fn small_cases_read_back() {
    for seed in 0..600 {
        let lines = small::lines(seed, &small::case(seed));
        let read = read_cases(&lines);
        assert_eq!(read.len(), 1);
        assert_eq!(small::lines(read[0].number, &read[0].case), lines);
    }
}
