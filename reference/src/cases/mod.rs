//! The hand-aimed cases of the folder `cases`, but for `limits.txt`. The answer
//! of each was worked out by hand, as its note says, before the reference was
//! asked.
//!
//! `bin/hand_cases.rs` writes them, and `tests/cases.rs` holds what is stored,
//! and the answers worked out, to the reference.

pub(crate) mod exactly_one;
mod few;
mod filled;
mod find;
pub(crate) mod kinds;
pub(crate) mod page;
mod repeats;

use crate::check::ROWS;
use crate::file;
use crate::reading::Reading;
use crate::small::{self, Case, H1};
use crate::tables::Tables;

/// A file of cases, and one of their notes.
pub struct File {
    pub name: &'static str,
    /// The number of the first case: a number names one case, whichever file it
    /// is in, and those of `limits.txt` are lower.
    first: u64,
    /// All cases, in the order of their numbers.
    pub cases: fn() -> Vec<Aimed>,
}

/// All files.
pub const FILES: [File; 7] = [
    File {
        name: "find",
        first: 1001,
        cases: find::cases,
    },
    File {
        name: "repeats",
        first: 2001,
        cases: repeats::cases,
    },
    File {
        name: "page",
        first: 3001,
        cases: page::cases,
    },
    File {
        name: "exactly-one",
        first: 4001,
        cases: exactly_one::cases,
    },
    File {
        name: "kinds",
        first: 5001,
        cases: kinds::cases,
    },
    File {
        name: "few",
        first: 6001,
        cases: few::cases,
    },
    File {
        name: "filled",
        first: 7001,
        cases: filled::cases,
    },
];

/// The notes have no longer answer whole.
const LONG: usize = 250;

/// A call, with what it is for and its answer.
pub struct Aimed {
    pub note: String,
    /// The answer worked out by hand, as the lines from `gives` on have it.
    pub answer: String,
    pub case: Case,
}

impl File {
    /// The cases with their numbers.
    pub fn numbered(&self) -> Vec<(u64, Aimed)> {
        (self.first..).zip((self.cases)()).collect()
    }

    /// The lines of the cases.
    pub fn lines(&self) -> String {
        let cases = self.numbered().into_iter();
        cases
            .map(|(number, aimed)| small::lines(number, &aimed.case))
            .collect()
    }

    /// The lines of the notes: one for each case, with the first line of its
    /// answer, or the first words of a long one.
    pub fn notes(&self) -> String {
        let line = |(number, Aimed { note, answer, .. })| {
            let answer: String = answer.lines().take(1).collect();
            let answer = match answer.len() {
                0..=LONG => answer,
                _ => answer.split_inclusive(' ').take(10).collect::<String>() + "..",
            };
            format!("{number}: {note}: {answer}\n")
        };
        self.numbered().into_iter().map(line).collect()
    }
}

fn aimed(note: impl Into<String>, answer: impl Into<String>, case: Case) -> Aimed {
    Aimed {
        note: note.into(),
        answer: answer.into(),
        case,
    }
}

fn check(note: impl Into<String>, answer: impl Into<String>, tables: Tables) -> Aimed {
    aimed(note, answer, Case::check(tables, Reading::Strict, ROWS))
}

/// With as much room as the source has.
fn configure(note: &'static str, answer: &'static str, tables: Tables, c: u64) -> Aimed {
    let room = [1, 2, 3, 4].map(|table| tables.words(table).len());
    configure_with(note, answer, tables, c, room)
}

fn configure_with(
    note: &'static str,
    answer: &'static str,
    tables: Tables,
    c: u64,
    room: [usize; 4],
) -> Aimed {
    let case = Case::Configure {
        tables,
        reading: Reading::Strict,
        c,
        room,
    };
    aimed(note, answer, case)
}

fn find(note: &'static str, answer: &'static str, tables: Tables, wanted: u64) -> Aimed {
    let case = Case::Find {
        tables,
        reading: Reading::Strict,
        wanted,
    };
    aimed(note, answer, case)
}

fn page(note: &'static str, answer: impl Into<String>, tables: Tables, room: usize) -> Aimed {
    let case = Case::Page {
        tables,
        reading: Reading::Strict,
        room,
    };
    aimed(note, answer, case)
}

// Steps

/// The set of the given attributes.
fn set(attributes: &[u64]) -> u64 {
    attributes.iter().fold(0, |all, a| all | 1 << a)
}

fn h1() -> Tables {
    file::read_file(H1.as_bytes()).expect("H1 is sound")
}

/// H1 after a change.
fn h1_with(change: fn(&mut Tables)) -> Tables {
    let mut tables = h1();
    change(&mut tables);
    tables.of_moments()
}

/// One relation, always there, is the report. Expression 0 is true, 1 + i is
/// feature i, and more follow. Entries are attribute, expression.
fn harbour(features: u16, attributes: u64, more: &[[u16; 3]], entries: &[[u16; 2]]) -> Tables {
    let mut expressions = vec![[1, 0, 0]];
    expressions.extend((0..features).map(|feature| [2, feature, 0]));
    expressions.extend(more);
    Tables {
        features: u64::from(features),
        attributes,
        model: 0,
        expressions: expressions.concat(),
        entries: entries.concat(),
        relations: vec![0, entries.len() as u16],
        queries: vec![1, 0, 0, 0],
        ..Tables::default()
    }
    .of_moments()
}

/// A harbour under another model.
fn under(model: u64, tables: Tables) -> Tables {
    Tables { model, ..tables }
}

/// A harbour with other queries.
fn asking(queries: &[[u16; 4]], tables: Tables) -> Tables {
    let queries = queries.concat();
    Tables { queries, ..tables }
}
