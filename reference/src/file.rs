//! The harbour file, its print and its page. The programs' reading "stays strict".

use std::io::{self, Read};

use crate::check::{self, ROWS};
use crate::expression;
use crate::page::{self, LINE, MOST_LINES};
use crate::reading::Reading;
use crate::refusal::Refusal;
use crate::tables::{self, Tables, MOST_ATTRIBUTES, RANGES, WIDTHS};

/// "At most 65,536 bytes".
pub const MOST_BYTES: usize = 65_536;

/// The words of the lines by group: the head, tables 0 to 4, then the kinds.
const WORDS: [&[u8]; 7] = [
    b"head",
    b"expression",
    b"entry",
    b"relation",
    b"comparison",
    b"query",
    b"kind",
];

const KIND: usize = 6;

/// What a program reads of its standard input: one byte more than a file may
/// have is enough to see that it is longer. An error of reading counts as the
/// end of the input.
pub fn standard_input() -> Vec<u8> {
    let mut text = Vec::new();
    let most = MOST_BYTES as u64 + 1;
    let _ = io::stdin().lock().take(most).read_to_end(&mut text);
    text
}

/// What the program `columns` prints for what it read. Of a file longer than
/// 65,536 bytes it is enough to give the first 65,537.
pub fn print_file(text: &[u8]) -> Vec<u8> {
    unread_or(text, print_tables)
}

/// What the program `page` prints for what it read: where there is no page, the
/// line that `columns` prints.
pub fn page_file(text: &[u8]) -> Vec<u8> {
    unread_or(text, page_tables)
}

/// What is printed for the tables of a file, or that it is unread.
fn unread_or(text: &[u8], print: fn(&Tables) -> Vec<u8>) -> Vec<u8> {
    match read_file(text) {
        Err(line) => format!("(unread {line})\n").into_bytes(),
        Ok(tables) => print(&tables),
    }
}

/// The tables of a harbour file, or the number of the first line that is not
/// so, out of order or past its table's range.
pub fn read_file(text: &[u8]) -> Result<Tables, usize> {
    if text.len() > MOST_BYTES {
        return Err(0);
    }
    let mut tables = Tables::default();
    let mut last_group = None;
    let mut number = 0;
    for line in text.split_inclusive(|&byte| byte == b'\n') {
        number += 1;
        let (group, numbers) = read_line(line).ok_or(number)?;
        if !follows(last_group, group) || !put(&mut tables, group, &numbers) {
            return Err(number);
        }
        last_group = Some(group);
    }
    match last_group {
        None => Err(1),
        Some(KIND) => Ok(tables),
        Some(_) => Ok(tables.of_moments()),
    }
}

/// May a line of this group follow one of the last group? The head stands
/// first and once; the other groups come in their order.
fn follows(last_group: Option<usize>, group: usize) -> bool {
    match last_group {
        None => group == 0,
        Some(last) => group > 0 && group >= last,
    }
}

/// Adds a line to the tables; false when it is past its table's range.
fn put(tables: &mut Tables, group: usize, numbers: &[u16]) -> bool {
    if group == 0 {
        tables.features = u64::from(numbers[0]);
        tables.attributes = u64::from(numbers[1]);
        tables.model = u64::from(numbers[2]);
        return true;
    }
    let is_full = match group {
        KIND => tables.kinds.len() as u64 == MOST_ATTRIBUTES,
        _ => tables.count(group - 1) == RANGES[group - 1].1,
    };
    if is_full {
        return false;
    }
    let words = match group {
        KIND => &mut tables.kinds,
        _ => tables.words_mut(group - 1),
    };
    words.extend(numbers);
    true
}

/// A line: "an open bracket, the word, as many numbers as its form has words
/// (head three), each after one space, ..., a close bracket, a line feed".
fn read_line(line: &[u8]) -> Option<(usize, Vec<u16>)> {
    let inner = line.strip_prefix(b"(")?.strip_suffix(b")\n")?;
    let mut parts = inner.split(|&byte| byte == b' ');
    let word = parts.next()?;
    let group = WORDS.iter().position(|&known| known == word)?;
    let numbers = parts.map(read_number).collect::<Option<Vec<u16>>>()?;
    let wanted = match group {
        0 => 3,
        KIND => 1,
        _ => WIDTHS[group - 1],
    };
    (numbers.len() == wanted).then_some((group, numbers))
}

/// A number "without leading zeros and at most 65535".
fn read_number(digits: &[u8]) -> Option<u16> {
    if digits.is_empty() || (digits[0] == b'0' && digits.len() > 1) {
        return None;
    }
    let mut number: u16 = 0;
    for &digit in digits {
        if !digit.is_ascii_digit() {
            return None;
        }
        number = number
            .checked_mul(10)?
            .checked_add(u16::from(digit - b'0'))?;
    }
    Some(number)
}

/// What the program `columns` prints for tables.
pub fn print_tables(tables: &Tables) -> Vec<u8> {
    let mut rows = [0; ROWS];
    let text = match check::check(tables, Reading::Strict, &mut rows) {
        Err(refusal) => refused_line(refusal),
        Ok(()) => accepted_lines(tables, &rows),
    };
    text.into_bytes()
}

/// What the program `page` prints for tables. It has room for every page.
fn page_tables(tables: &Tables) -> Vec<u8> {
    let mut text = vec![0; LINE * MOST_LINES];
    match page::page(tables, Reading::Strict, &mut text) {
        Err(refusal) => refused_line(refusal).into_bytes(),
        Ok(lines) => {
            text.truncate(LINE * lines);
            text
        }
    }
}

fn refused_line(refusal: Refusal) -> String {
    let Refusal {
        number,
        place,
        item,
        configuration,
    } = refusal;
    format!("(refused {number} {place} {item} {configuration})\n")
}

/// "`(accepted)` and per permitted configuration ascending its attributes."
fn accepted_lines(tables: &Tables, rows: &[u64]) -> String {
    let mut text = String::from("(accepted)\n");
    for at in expression::permitted(tables) {
        let shown = check::shown(rows, at.configuration);
        text += &format!("(at {} (has", at.configuration);
        for attribute in (0..64).filter(|attribute| shown >> attribute & 1 == 1) {
            text += &format!(" {attribute}");
        }
        text += "))\n";
    }
    text
}

/// The harbour file of tables whose lengths are multiples of their forms, without
/// kind lines where it needs none. (A kind table of no words where m is not 0, and one
/// of more than 64, have no file.)
pub fn write_file(tables: &Tables) -> Vec<u8> {
    let mut text = lines_of_tables(tables);
    if tables.kinds != tables::moments(tables.attributes) {
        text += &kind_lines(tables);
    }
    text.into_bytes()
}

/// The same with a line for every kind.
pub fn write_file_with_kinds(tables: &Tables) -> Vec<u8> {
    (lines_of_tables(tables) + &kind_lines(tables)).into_bytes()
}

fn kind_lines(tables: &Tables) -> String {
    let kinds = tables.kinds.iter();
    kinds.map(|&kind| line(KIND, &[kind.into()])).collect()
}

fn lines_of_tables(tables: &Tables) -> String {
    let head = [tables.features, tables.attributes, tables.model];
    let mut text = line(0, &head);
    for (table, width) in WIDTHS.into_iter().enumerate() {
        for form in tables.words(table).chunks(width) {
            let numbers: Vec<u64> = form.iter().map(|&word| u64::from(word)).collect();
            text += &line(table + 1, &numbers);
        }
    }
    text
}

fn line(group: usize, numbers: &[u64]) -> String {
    let word = String::from_utf8_lossy(WORDS[group]);
    let numbers: String = numbers.iter().map(|number| format!(" {number}")).collect();
    format!("({word}{numbers})\n")
}
