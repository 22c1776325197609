//! The wall page: its sentences one by one, the order of its refusals, and
//! generated cases against the rows, the print and the plain rules.

use std::collections::BTreeSet;

use crate::common::{checked, configured_with, h1, made, paged_with, source_room};
use reference::file::{page_file, print_file, print_tables, read_file, write_file};
use reference::generate::{self, LIMITS, NUMBERS};
use reference::plain::{self, Attributes};
use reference::random::Random;
use reference::{expression, form, page, Reading, Refusal, Tables};

/// Room for every page.
const ROOM: usize = 73 * 1024;

const TOO_SHORT: Refusal = Refusal {
    number: 23,
    place: 0,
    item: 0,
    configuration: 0,
};

/// A line, taken apart.
#[derive(Debug, PartialEq, Eq)]
struct Line {
    configuration: u64,
    present: Attributes,
    columns: usize,
}

/// The lines of a page: each of "exactly 72 characters and a line feed".
fn lines_of(page: &[u8]) -> Vec<Line> {
    assert_eq!(page.len() % 73, 0);
    page.chunks(73).map(line_of).collect()
}

/// "Configuration right-aligned in 4, a space, 64 marks from attribute 0 (`o`
/// present, `.` absent), a space, the number of columns right-aligned in 2."
fn line_of(line: &[u8]) -> Line {
    let text = std::str::from_utf8(line).expect("characters of one byte");
    assert_eq!((&text[4..5], &text[69..70], &text[72..]), (" ", " ", "\n"));
    let marks = &text[5..69];
    assert!(marks.chars().all(|mark| mark == 'o' || mark == '.'));
    let present = |&attribute: &u16| &marks[usize::from(attribute)..][..1] == "o";
    Line {
        configuration: right_aligned(&text[..4]),
        present: (0..64).filter(present).collect(),
        columns: right_aligned(&text[70..72]) as usize,
    }
}

/// A number after spaces only, without leading zeros.
fn right_aligned(field: &str) -> u64 {
    let digits = field.trim_start_matches(' ');
    let number: u64 = digits.parse().expect("a number");
    assert_eq!(digits, number.to_string());
    number
}

/// No features, m attributes, of which the given ones are listed.
fn list_of(attributes: u64, listed: &[u16]) -> Tables {
    Tables {
        features: 0,
        attributes,
        model: 0,
        expressions: vec![1, 0, 0],
        entries: listed.iter().flat_map(|&a| [a, 0]).collect(),
        relations: vec![0, listed.len() as u16],
        queries: vec![1, 0, 0, 0],
        ..Tables::default()
    }
    .of_moments()
}

/// H1 with another number of features, under a model.
fn h1_under(features: u64, model: [u16; 3]) -> Tables {
    let mut tables = h1();
    tables.features = features;
    tables.expressions.extend(model);
    tables.model = 3;
    tables
}

// "Print a page of lines exactly 72 characters and a line feed"

#[test]
fn h1s_page_byte_by_byte() {
    let page = [
        "   0 o...............................................................  1\n",
        "   1 o...............................................................  1\n",
        "   2 o.o.............................................................  2\n",
        "   3 o.o.............................................................  2\n",
    ];
    assert!(page.iter().all(|line| line.len() == 73));
    let written = paged_with(&h1(), ROOM).expect("H1 is accepted");
    assert_eq!(String::from_utf8_lossy(&written), page.concat());
}

// "Configuration right-aligned in 4"

#[test]
fn every_configuration_is_right_aligned_in_4() {
    let page = paged_with(&h1_under(10, [1, 0, 0]), ROOM).expect("accepted");
    for (c, line) in page.chunks(73).enumerate() {
        let number = c.to_string();
        let field = " ".repeat(4 - number.len()) + &number;
        assert_eq!(&line[..4], field.as_bytes());
    }
}

// "64 marks from attribute 0 (`o` present, `.` absent)"

#[test]
fn each_mark_is_its_attribute() {
    for attribute in 0..64 {
        let page = paged_with(&list_of(64, &[attribute]), 73).expect("accepted");
        let place = 5 + usize::from(attribute);
        for (at, &byte) in page[..69].iter().enumerate().skip(5) {
            let mark = if at == place { b'o' } else { b'.' };
            assert_eq!(byte, mark, "attribute {attribute}, byte {at}");
        }
    }
}

// "The number of columns right-aligned in 2"; there are 64 marks for every m

#[test]
fn every_m_and_number_of_columns() {
    for m in 0..=64 {
        for count in 0..=m {
            let listed: Vec<u16> = (0..count).collect();
            let page = paged_with(&list_of(u64::from(m), &listed), 73).expect("accepted");
            let marks = "o".repeat(listed.len()) + &".".repeat(64 - listed.len());
            let space = if count < 10 { " " } else { "" };
            let line = format!("   0 {marks} {space}{count}\n");
            assert_eq!(String::from_utf8_lossy(&page), line, "m {m}");
        }
    }
}

// "One line stands for each permitted configuration, ascending"

#[test]
fn only_permitted_configurations_have_lines() {
    let configurations = |features, model| {
        let page = paged_with(&h1_under(features, model), ROOM).expect("accepted");
        let lines = lines_of(&page);
        lines
            .iter()
            .map(|line| line.configuration)
            .collect::<Vec<u64>>()
    };
    assert_eq!(configurations(2, [2, 1, 0]), [2, 3]);
    assert_eq!(configurations(2, [3, 1, 0]), [0, 2]);
    assert_eq!(configurations(2, [4, 1, 2]), [3]);
    assert_eq!(configurations(2, [5, 1, 2]), [1, 2, 3]);
    let odd: Vec<u64> = (0..1024).filter(|c| c % 2 == 1).collect();
    assert_eq!(configurations(10, [2, 0, 0]), odd);
}

// "Refused: 23 the lent page is shorter than 73 × the number of lines"

#[test]
fn every_length_of_a_page() {
    for (model, lines) in [
        ([1, 0, 0], 4),
        ([5, 1, 2], 3),
        ([2, 0, 0], 2),
        ([4, 1, 2], 1),
    ] {
        let tables = h1_under(2, model);
        for room in 0..73 * 5 {
            let answer = page(&tables, Reading::Strict, &mut vec![0; room]);
            let wanted = if room < 73 * lines {
                Err(TOO_SHORT)
            } else {
                Ok(lines)
            };
            assert_eq!(answer, wanted, "{lines} lines, {room} bytes");
        }
    }
}

#[test]
fn the_lengths_around_the_longest_page() {
    let all = h1_under(10, [1, 0, 0]);
    for room in [0, 73, ROOM - 73, ROOM - 1, 1 << 16, ROOM % (1 << 16)] {
        assert_eq!(paged_with(&all, room), Err(TOO_SHORT), "{room}");
    }
    let page = paged_with(&all, ROOM).expect("accepted");
    assert_eq!(lines_of(&page).len(), 1024);
    for room in [ROOM + 1, ROOM + 72, ROOM + 73] {
        assert_eq!(paged_with(&all, room).as_ref(), Ok(&page));
    }
    // 512 lines: the number of configurations does not matter.
    let half = h1_under(10, [2, 9, 0]);
    assert_eq!(paged_with(&half, ROOM / 2 - 1), Err(TOO_SHORT));
    let page = paged_with(&half, ROOM / 2).expect("accepted");
    assert_eq!(lines_of(&page).len(), 512);
    assert_eq!(paged_with(&half, ROOM - 1), Ok(page));
}

// "Checked after 19, place 0"

/// Every number that comes before 23, by every limit, with pages that 23 would
/// refuse and pages that it would not.
#[test]
fn all_earlier_refusals_come_before_23() {
    let mut random = Random::new(23);
    let mut numbers = BTreeSet::new();
    for limit in LIMITS {
        let tables = generate::small_limit(&mut random, limit);
        let Err(refusal) = checked(&tables) else {
            continue;
        };
        numbers.insert(refusal.number);
        let aimed = generate::page_room(&mut random, &tables);
        for room in [0, 1, 72, 73, aimed, ROOM] {
            assert_eq!(paged_with(&tables, room), Err(refusal), "{}", limit.words);
        }
    }
    assert_eq!(numbers, BTreeSet::from(NUMBERS));
}

// Generated cases

/// Tables with the length of a lent page: of all families, small ones, of full
/// size, and those aimed at pages.
fn calls() -> impl Iterator<Item = (Tables, usize)> {
    let varied = (0..500).map(made::case);
    let small = (0..1000).map(generate::small);
    let full = (0..4).map(made::full);
    let walls = (0..120).map(generate::wall);
    let mut random = Random::new(1);
    let all = varied.chain(small).chain(full).chain(walls);
    all.map(move |tables| {
        let room = generate::page_room(&mut random, &tables);
        (tables, room)
    })
}

/// The accepted ones, each with its page.
fn pages() -> impl Iterator<Item = (Tables, Vec<u8>)> {
    let with_page = |(tables, _)| {
        let page = paged_with(&tables, ROOM).ok()?;
        Some((tables, page))
    };
    calls().filter_map(with_page)
}

/// The configurations at which the model holds, one after another.
fn permitted(tables: &Tables) -> Vec<u64> {
    let holds = |c: &u64| expression::values(tables, *c)[tables.model as usize];
    (0..tables.configurations()).filter(holds).collect()
}

/// What checking refuses is refused alike, and then 23 exactly when the page is
/// shorter; else there is a line for each permitted configuration.
#[test]
fn refused_or_a_line_for_each_permitted_configuration() {
    for (tables, room) in calls() {
        let wanted = checked(&tables).and_then(|_| match permitted(&tables) {
            permitted if room < 73 * permitted.len() => Err(TOO_SHORT),
            permitted => Ok(permitted),
        });
        let answer = paged_with(&tables, room).map(|page| {
            let lines = lines_of(&page).into_iter();
            lines.map(|line| line.configuration).collect::<Vec<u64>>()
        });
        assert_eq!(answer, wanted, "{tables:?} {room}");
    }
}

/// "Every mark agrees with its row bit": "configuration c is bit c mod 64 of its
/// row's word c div 64".
#[test]
fn every_mark_agrees_with_its_row_bit() {
    for (tables, page) in pages() {
        let rows = checked(&tables).expect("accepted");
        for line in lines_of(&page) {
            let c = line.configuration as usize;
            for a in 0..64 {
                let bit = rows[16 * a + c / 64] >> (c % 64) & 1 == 1;
                assert_eq!(line.present.contains(&(a as u16)), bit, "{tables:?}");
            }
            assert_eq!(line.columns, line.present.len(), "{tables:?}");
        }
    }
}

#[test]
fn the_print_says_the_same_line_by_line() {
    for (tables, page) in pages() {
        let mut print = String::from("(accepted)\n");
        for line in lines_of(&page) {
            let has: String = line.present.iter().map(|a| format!(" {a}")).collect();
            print += &format!("(at {} (has{has}))\n", line.configuration);
        }
        let wanted = print_tables(&tables);
        assert_eq!(print.as_bytes(), wanted, "{tables:?}");
    }
}

#[test]
fn the_plain_rules_give_the_same_columns() {
    for (tables, page) in pages() {
        let lists = form::check(&tables).expect("sound in form");
        for line in lines_of(&page) {
            let report = plain::configured(&tables, Reading::Strict, &lists, line.configuration);
            assert_eq!(report.columns(), Some(line.present), "{tables:?}");
        }
    }
}

/// Whatever is lent, what configuring refuses before 20 is refused alike.
#[test]
fn configuring_refuses_the_same_before_20() {
    for (tables, room) in calls() {
        let configuring = configured_with(&tables, u64::MAX, source_room(&tables));
        let configuring = configuring.expect_err("there is no such configuration");
        match paged_with(&tables, room) {
            Err(refusal) if refusal != TOO_SHORT => assert_eq!(refusal, configuring),
            _ => assert_eq!(configuring.number, 20),
        }
    }
}

/// What was lent does not show in the lines.
#[test]
fn every_byte_of_the_lines_is_written() {
    for (tables, page_of) in pages().take(400) {
        for byte in [b'o', b'.', b' ', b'\n', b'0'] {
            let mut lent = vec![byte; page_of.len()];
            assert_eq!(
                page(&tables, Reading::Strict, &mut lent),
                Ok(page_of.len() / 73)
            );
            assert_eq!(lent, page_of, "{tables:?}");
        }
    }
}

// The program

/// The page alone; where there is none, the line of the program `columns`.
#[test]
fn the_program_prints_the_page_or_what_columns_prints() {
    let mut letters = BTreeSet::new();
    for seed in 0..600 {
        let tables = made::case(seed);
        let mut text = write_file(&tables);
        if seed % 3 == 0 {
            text = generate::damage(seed, &text);
        }
        let print = print_file(&text);
        let wanted = match print.starts_with(b"(accepted)\n") {
            true => {
                let tables = read_file(&text).expect("accepted, so read");
                paged_with(&tables, ROOM).expect("accepted")
            }
            false => print.clone(),
        };
        assert_eq!(page_file(&text), wanted, "{tables:?}");
        letters.insert(print[1]);
    }
    // Accepted, refused and unread all come up.
    assert_eq!(letters, BTreeSet::from(*b"aru"));
}

#[test]
fn files_that_are_no_pages() {
    let mut h2 = h1();
    h2.entries[9] = 1;
    assert_eq!(page_file(&write_file(&h2)), b"(refused 17 1 2 1)\n");
    assert_eq!(page_file(b""), b"(unread 1)\n");
    assert_eq!(page_file(b"(head 2 3 0)\n\n"), b"(unread 2)\n");
    assert_eq!(page_file(&[b'\n'; 65_537]), b"(unread 0)\n");
}
