//! The configuring call: plain tables for one configuration.

use std::ops::Range;

use crate::check::{self, Accepted};
use crate::expression::Permitted;
use crate::filled;
use crate::reading::Reading;
use crate::refusal::Refusal;
use crate::tables::{self, Tables};
use crate::typing::{self, Set};

/// Writes tables 1 to 4 of the report configured at `c` into `out` and returns
/// the number of forms in each. Words after them, and on a refusal all words,
/// stay as they were.
///
/// The head of the result is 0 features, the same attributes, model 0; its
/// only expression is true (1 0 0). They are fixed, so they are not written.
pub fn configure(
    tables: &Tables,
    reading: Reading,
    c: u64,
    out: [&mut [u16]; 4],
) -> Result<[usize; 4], Refusal> {
    let accepted = check::accepted(tables, reading)?;
    let at = permitted_at(&accepted, c)?;
    room(tables, &out)?;
    let written = configured(tables, reading, &accepted, at);
    let mut counts = [0; 4];
    for (index, lent) in out.into_iter().enumerate() {
        let words = &written[index];
        lent[..words.len()].copy_from_slice(words);
        counts[index] = words.len() / tables::WIDTHS[index + 1];
    }
    Ok(counts)
}

/// 20: c over 2^n - 1, or not permitted; the configuration is c as given.
fn permitted_at(accepted: &Accepted, c: u64) -> Result<&Permitted, Refusal> {
    let mut all = accepted.permitted.iter();
    all.find(|at| at.configuration == c)
        .ok_or(Refusal::new(20, 0, 0, c))
}

/// 21: a table lent for writing (1 to 4) shorter than its source.
fn room(tables: &Tables, out: &[&mut [u16]; 4]) -> Result<(), Refusal> {
    for table in 1..=4 {
        if out[table - 1].len() < tables.words(table).len() {
            return Err(Refusal::at(21, table));
        }
    }
    Ok(())
}

/// The words of tables 1 to 4 of the configured report.
fn configured(
    tables: &Tables,
    reading: Reading,
    accepted: &Accepted,
    at: &Permitted,
) -> [Vec<u16>; 4] {
    let holds = &at.holds;
    let lists = &accepted.lists;
    let (relations, relation_numbers) = relations_at(tables, &lists.relations, holds);
    let (comparisons, comparison_numbers) = comparisons_at(tables, holds);
    let kept = Kept {
        relations: relation_numbers,
        comparisons: comparison_numbers,
        attributes: attributes_at(tables, reading, accepted, at),
    };
    let (queries, projects) = queries_at(tables, &lists.queries, holds, &kept);
    let entries = [relations.1, projects].concat();
    [entries, relations.0, comparisons, queries]
}

/// New numbers by old number, and the attributes that a project above each query form may
/// keep. Of forms not kept, and of choices, see each maker.
struct Kept {
    relations: Vec<Option<u16>>,
    comparisons: Vec<u16>,
    attributes: Vec<Set>,
}

/// The filled reading "leaves dropped entries out": a project keeps what its operand has.
/// In the strict one that is all it lists, because the report was accepted.
fn attributes_at(
    tables: &Tables,
    reading: Reading,
    accepted: &Accepted,
    at: &Permitted,
) -> Vec<Set> {
    match reading {
        Reading::Strict => vec![Set::MAX; tables.count(4)],
        Reading::Filled => filled::sets_at(tables, &accepted.lists, at),
    }
}

/// "Each attribute's first entry that holds", of the given attributes, with expression
/// 0, in the order of the list: a later entry of an attribute that is kept goes.
fn entries_at(tables: &Tables, list: &Range<usize>, holds: &[bool], mut of: Set) -> Vec<u16> {
    let mut words = Vec::new();
    for number in list.clone() {
        let [attribute, expression] = tables.entry(number);
        if holds[usize::from(expression)] && of >> attribute & 1 == 1 {
            of &= !(1 << attribute);
            words.extend([attribute, 0]);
        }
    }
    words
}

/// Words of relations and of their entries, and the new numbers.
type Relations = ((Vec<u16>, Vec<u16>), Vec<Option<u16>>);

/// "Relations present are kept in order", each with the entries that configuring
/// keeps: words of the relations and of their entries, and the new numbers; an absent
/// relation has none.
fn relations_at(tables: &Tables, lists: &[Range<usize>], holds: &[bool]) -> Relations {
    let mut relations = Vec::new();
    let mut entries = Vec::new();
    let mut numbers = Vec::new();
    for (number, list) in lists.iter().enumerate() {
        let presence = usize::from(tables.relation(number)[0]);
        if !holds[presence] {
            numbers.push(None);
            continue;
        }
        numbers.push(Some((relations.len() / 2) as u16));
        let kept = entries_at(tables, list, holds, Set::MAX);
        relations.extend([0, (kept.len() / 2) as u16]);
        entries.extend(kept);
    }
    ((relations, entries), numbers)
}

/// "Every non-choice comparison is kept. A reference to a choice becomes one to
/// the form it leads to, through further choices": the number of a choice is
/// the new number of the form that it leads to.
fn comparisons_at(tables: &Tables, holds: &[bool]) -> (Vec<u16>, Vec<u16>) {
    let mut words: Vec<u16> = Vec::new();
    let mut numbers: Vec<u16> = Vec::new();
    for form in 0..tables.count(3) {
        let [kind, operator, a, b, c] = tables.comparison(form);
        let to = |old: u16| numbers[usize::from(old)];
        if kind == tables::COMPARISON_CHOICE {
            let taken = if holds[usize::from(a)] { to(b) } else { to(c) };
            numbers.push(taken);
            continue;
        }
        let kept = match kind {
            4 => [kind, operator, to(a), b, c],
            5 | 6 => [kind, operator, to(a), to(b), c],
            _ => [kind, operator, a, b, c],
        };
        numbers.push((words.len() / 5) as u16);
        words.extend(kept);
    }
    (words, numbers)
}

/// A relation form by the new number. "Configuring writes empty for the absent relation":
/// in the strict reading no form reached has such a relation.
fn relation_form(number: Option<u16>) -> [u16; 4] {
    match number {
        Some(number) => [tables::RELATION, number, 0, 0],
        None => [tables::EMPTY, 0, 0, 0],
    }
}

/// "Kept queries are the non-choice forms reached at c, in order"; project lists
/// keep entries as relations do. "Lists of forms not kept go." Words of the
/// queries and of the project lists.
fn queries_at(
    tables: &Tables,
    lists: &[Range<usize>],
    holds: &[bool],
    kept: &Kept,
) -> (Vec<u16>, Vec<u16>) {
    let reached = typing::reached_at(tables, holds);
    let mut words: Vec<u16> = Vec::new();
    let mut entries = Vec::new();
    // New number of each form; a choice has that of the form it leads to, a
    // form not reached has 0 and nothing refers to it.
    let mut new: Vec<u16> = vec![0; reached.len()];
    for form in 0..reached.len() {
        if !reached[form] {
            continue;
        }
        let [kind, a, b, c] = tables.query(form);
        let to = |old: u16| new[usize::from(old)];
        if kind == tables::CHOICE {
            new[form] = if holds[usize::from(a)] { to(b) } else { to(c) };
            continue;
        }
        let query = match kind {
            tables::RELATION => relation_form(kept.relations[usize::from(a)]),
            tables::SELECT => [kind, kept.comparisons[usize::from(a)], to(b), 0],
            tables::PROJECT => {
                let of = kept.attributes[usize::from(b)];
                let list = entries_at(tables, &lists[form], holds, of);
                let length = (list.len() / 2) as u16;
                entries.extend(list);
                [kind, length, to(b), 0]
            }
            tables::PRODUCT | tables::UNION | tables::INTERSECTION => [kind, to(a), to(b), 0],
            _ => [kind, 0, 0, 0],
        };
        new[form] = (words.len() / 4) as u16;
        words.extend(query);
    }
    (words, entries)
}
