//! Every stored case of ../../reference/cases, whose format is in
//! ../../reference/README.md, by the library. A text is a case of the program and is
//! counted only: the library has no such function.

mod common;

use std::collections::BTreeMap;
use std::fmt::Display;
use std::fs;
use std::path::Path;

use common::{raw_check, raw_find, raw_page, refused, UNWRITTEN};
use gelvomas::{configure, find, page, Lent, Reading, Refusal, Tables};
use gelvomas::{COMPARISON_WORDS, ENTRY_WORDS, PAGE_LINE, QUERY_WORDS, RELATION_WORDS};

/// What the words and the bytes lent are before a call.
const STALE: u16 = 0xBEEF;
const STALE_BYTE: u8 = 0xA5;

fn numbers<T: std::str::FromStr>(line: &str) -> Vec<T> {
    let number = |word: &str| word.parse().unwrap_or_else(|_| panic!("no number: {word}"));
    line.split_whitespace().map(number).collect()
}

/// Numbers, each after a space.
fn spaced<T: Display>(numbers: &[T]) -> String {
    numbers.iter().map(|number| format!(" {number}")).collect()
}

fn refused_line(refusal: Refusal) -> String {
    let words = [
        refusal.number,
        refusal.place,
        refusal.item,
        refusal.configuration,
    ];
    format!("refused{}", spaced(&words))
}

/// What a check gives, with so many words of rows. Refused, the rows are as they
/// were; accepted, the refusal is.
fn checked(tables: &Tables, reading: Reading, room: usize) -> String {
    let lent = vec![u64::from(STALE); room];
    let mut rows = lent.clone();
    match raw_check(tables, reading, &mut rows) {
        (0, UNWRITTEN) => {
            let words = rows.iter().enumerate().filter(|(_, &word)| word != 0);
            let words: Vec<String> = words.map(|(at, word)| format!("{at}:{word}")).collect();
            format!("rows{}", spaced(&words))
        }
        (1, words) => {
            assert_eq!(rows, lent);
            refused_line(words.into())
        }
        other => panic!("no answer: {other:?}"),
    }
}

/// What configuring gives, with so many words for tables 1 to 4. Refused, they are
/// as they were, and else those after what was written.
fn configured(tables: &Tables, reading: Reading, configuration: u64, rooms: [usize; 4]) -> String {
    let mut words = rooms.map(|room| vec![STALE; room]);
    let [entries, relations, comparisons, queries] = &mut words;
    let lent = Lent {
        entries,
        relations,
        comparisons,
        queries,
    };
    let counts = match configure(tables, reading, configuration, lent) {
        Ok(counts) => counts,
        Err(refusal) => {
            assert_eq!(words, rooms.map(|room| vec![STALE; room]));
            return refused_line(refusal);
        }
    };
    let written = [
        ("E", counts.entries, ENTRY_WORDS),
        ("R", counts.relations, RELATION_WORDS),
        ("C", counts.comparisons, COMPARISON_WORDS),
        ("Q", counts.queries, QUERY_WORDS),
    ];
    let mut line = "written".to_string();
    for (words, (letter, count, width)) in words.iter().zip(written) {
        let (new, rest) = words.split_at(count as usize * width);
        assert!(rest.iter().all(|&word| word == STALE));
        line += &format!(" {letter} {count}{}", spaced(new));
    }
    line
}

/// What finding gives, by the C function and by the safe one.
fn found(tables: &Tables, reading: Reading, wanted: u64) -> String {
    let (answer, line) = match raw_find(tables, reading, wanted) {
        (0, [at, 0, 0, 0]) => (Ok(Some(at)), format!("found {at}")),
        (2, [0, 0, 0, 0]) => (Ok(None), "none".to_string()),
        (1, [number, place, item, configuration]) => {
            let refusal = refused(number, place, item, configuration);
            (Err(refusal), refused_line(refusal))
        }
        other => panic!("no answer: {other:?}"),
    };
    assert_eq!(find(tables, reading, wanted), answer);
    line
}

/// The lines of a page that was written, each after the word `line`. The bytes after
/// them are as they were.
fn page_lines(bytes: &[u8], count: u64) -> String {
    let (page, rest) = bytes.split_at(PAGE_LINE * count as usize);
    assert!(rest.iter().all(|&byte| byte == STALE_BYTE));
    let line = |bytes: &[u8]| match bytes {
        [text @ .., b'\n'] => format!("\nline {}", String::from_utf8_lossy(text)),
        other => panic!("no line feed after {other:?}"),
    };
    page.chunks(PAGE_LINE).map(line).collect()
}

/// What a page gives, with so many bytes lent, by the C function and by the safe
/// one. Refused, the bytes are as they were.
fn paged(tables: &Tables, reading: Reading, room: usize) -> String {
    let lent = vec![STALE_BYTE; room];
    let [mut bytes, mut safe] = [lent.clone(), lent.clone()];
    let (answer, text) = match raw_page(tables, reading, &mut bytes) {
        (0, [lines, 0, 0, 0]) => {
            let page = page_lines(&bytes, lines);
            (Ok(lines), format!("page {lines}{page}"))
        }
        (1, [number, place, item, configuration]) => {
            assert_eq!(bytes, lent);
            let refusal = refused(number, place, item, configuration);
            (Err(refusal), refused_line(refusal))
        }
        other => panic!("no answer: {other:?}"),
    };
    assert_eq!(page(tables, reading, &mut safe), answer);
    assert_eq!(safe, bytes);
    text
}

/// Makes a call as a case has it in its line, on these tables in this reading, and gives
/// its answer.
fn called(tables: &Tables, reading: Reading, call: &str) -> String {
    let (name, asked) = call.split_once(' ').expect("what is asked");
    let asked: Vec<u64> = numbers(asked);
    match (name, &asked[..]) {
        ("check", &[room]) => checked(tables, reading, room as usize),
        ("configure", &[at, r1, r2, r3, r4]) => {
            let rooms = [r1, r2, r3, r4].map(|room| room as usize);
            configured(tables, reading, at, rooms)
        }
        ("find", &[wanted]) => found(tables, reading, wanted),
        ("page", &[room]) => paged(tables, reading, room as usize),
        _ => panic!("no call of the library: {call}"),
    }
}

/// Runs a case, given as its lines without the first and the last, and gives the
/// name of its call, and `filled` before it where that is the reading.
fn run(lines: &[&str]) -> String {
    if lines[0].starts_with("text") {
        return "text".to_string();
    }
    let [head, t0, t1, t2, t3, t4, kinds, rest @ ..] = lines else {
        panic!("a case has a head, five tables and kinds");
    };
    let (reading, rest) = match rest {
        ["reading filled", rest @ ..] => (Reading::Filled, rest),
        _ => (Reading::Strict, rest),
    };
    let [call, gives @ ..] = rest else {
        panic!("a case has a call");
    };
    let head: Vec<u64> = numbers(head.strip_prefix("head").expect("a head"));
    let words: [Vec<u16>; 5] = [t0, t1, t2, t3, t4].map(|line| numbers(&line[2..]));
    let kinds: Vec<u16> = numbers(kinds.strip_prefix("kinds").expect("kinds"));
    let tables = Tables {
        features: head[0],
        attributes: head[1],
        model: head[2],
        expressions: &words[0],
        entries: &words[1],
        relations: &words[2],
        comparisons: &words[3],
        queries: &words[4],
        kinds: &kinds,
    };
    let call = call.strip_prefix("call ").expect("a call");
    let answer = called(&tables, reading, call);
    assert_eq!(format!("gives {answer}"), gives.join("\n"));
    let name = call.split(' ').next().expect("a name");
    match reading {
        Reading::Strict => name.to_string(),
        Reading::Filled => format!("filled {name}"),
    }
}

#[test]
fn every_stored_case_has_its_answer() {
    let folder = Path::new(env!("CARGO_MANIFEST_DIR")).join("../reference/cases");
    let mut calls: BTreeMap<String, u64> = BTreeMap::new();
    for file in fs::read_dir(folder).expect("the folder of cases") {
        let path = file.expect("a file").path();
        if path.extension().is_none_or(|extension| extension != "txt") {
            continue;
        }
        let text = fs::read_to_string(path).expect("a text");
        let mut lines = text.lines();
        while let Some(first) = lines.next() {
            println!("{first}");
            let case: Vec<&str> = lines.by_ref().take_while(|&line| line != "end").collect();
            *calls.entry(run(&case)).or_default() += 1;
        }
    }
    // How many there are of each. After a case more or fewer, it is to be changed.
    let wanted = [
        ("check", 541),
        ("configure", 55),
        ("filled check", 89),
        ("filled configure", 22),
        ("filled find", 10),
        ("filled page", 4),
        ("find", 71),
        ("page", 109),
        ("text", 42),
    ];
    assert_eq!(
        calls,
        wanted.map(|(name, count)| (name.to_string(), count)).into()
    );
}
