//! Checks 1 to 10 and 24: are the tables sound in form?
//!
//! Each function is one row of the table of refusals (docs/FORMAT.md).

use std::ops::Range;

use crate::refusal::Refusal;
use crate::tables::{self, Tables, MOST_ATTRIBUTES, MOST_FEATURES, MOST_IN_RANGE};
use crate::tables::{NAME, RANGES, WIDTHS, WITH_CONSTANT};

/// Where each list lies in table 1: "relation 0's, relation 1's and so on,
/// then each project form's in query order". A query that is no project has an
/// empty range.
#[derive(Clone, Debug)]
pub struct Lists {
    pub relations: Vec<Range<usize>>,
    pub queries: Vec<Range<usize>>,
}

/// Runs checks 1 to 10 in their order, then 24, and gives the place of the lists.
pub fn check(tables: &Tables) -> Result<Lists, Refusal> {
    head(tables)?;
    lengths(tables)?;
    expressions(tables)?;
    model(tables)?;
    entries(tables)?;
    let relations = relations(tables)?;
    comparisons(tables)?;
    let after_relations = relations.last().map_or(0, |list| list.end);
    let seen = queries(tables, after_relations)?;
    never_taken(&seen.taken)?;
    entries_left(tables, seen.end)?;
    kinds(tables)?;
    Ok(Lists {
        relations,
        queries: seen.lists,
    })
}

/// 1: over 10 features (place 0), or over 64 attributes (place 1).
fn head(tables: &Tables) -> Result<(), Refusal> {
    if tables.features > MOST_FEATURES {
        return Err(Refusal::at(1, 0));
    }
    if tables.attributes > MOST_ATTRIBUTES {
        return Err(Refusal::at(1, 1));
    }
    Ok(())
}

/// 2: word count no multiple of its form, or a count outside its range.
fn lengths(tables: &Tables) -> Result<(), Refusal> {
    for (table, (lowest, highest)) in RANGES.into_iter().enumerate() {
        let whole = tables.words(table).len().is_multiple_of(WIDTHS[table]);
        let count = tables.count(table);
        if !whole || count < lowest || count > highest {
            return Err(Refusal::at(2, table));
        }
    }
    Ok(())
}

/// 3: unknown kind, unused word not 0, feature >= n, operand not lower, count
/// outside 1 to 10, range that passes n.
fn expressions(tables: &Tables) -> Result<(), Refusal> {
    for form in 0..tables.count(0) {
        if !expression_is_sound(tables, form) {
            return Err(Refusal::at(3, form));
        }
    }
    Ok(())
}

fn expression_is_sound(tables: &Tables, form: usize) -> bool {
    let [kind, a, b] = tables.expression(form);
    let lower = |operand: u16| usize::from(operand) < form;
    match kind {
        0 | 1 => a == 0 && b == 0,
        2 => u64::from(a) < tables.features && b == 0,
        3 => lower(a) && b == 0,
        4 | 5 => lower(a) && lower(b),
        6 => range_is_sound(tables, a, b),
        _ => false,
    }
}

/// Is the count 1 to 10, and does the range end at n or before? Where it ends may
/// be past 65535, so it is counted in 64 bits.
fn range_is_sound(tables: &Tables, first: u16, count: u16) -> bool {
    let end = u64::from(first) + u64::from(count);
    (1..=MOST_IN_RANGE).contains(&count) && end <= tables.features
}

/// 4: model not in table 0.
fn model(tables: &Tables) -> Result<(), Refusal> {
    if tables.model >= tables.count(0) as u64 {
        return Err(Refusal::at(4, 0));
    }
    Ok(())
}

/// 5: attribute >= m, or expression not in table 0.
fn entries(tables: &Tables) -> Result<(), Refusal> {
    for number in 0..tables.count(1) {
        let [attribute, expression] = tables.entry(number);
        if !is_attribute(tables, attribute) || !is_in_table(tables, 0, expression) {
            return Err(Refusal::at(5, number));
        }
    }
    Ok(())
}

/// 6: expression not in table 0, list past table 1.
fn relations(tables: &Tables) -> Result<Vec<Range<usize>>, Refusal> {
    let mut lists = Vec::new();
    let mut start = 0;
    for number in 0..tables.count(2) {
        let [expression, count] = tables.relation(number);
        let list = start..start + usize::from(count);
        if !is_in_table(tables, 0, expression) || is_past_entries(tables, &list) {
            return Err(Refusal::at(6, number));
        }
        start = list.end;
        lists.push(list);
    }
    Ok(lists)
}

/// 7: unknown kind, unused word not 0, operand not lower, operator over 5,
/// attribute >= m, expression not in table 0.
fn comparisons(tables: &Tables) -> Result<(), Refusal> {
    for form in 0..tables.count(3) {
        if !comparison_is_sound(tables, form) {
            return Err(Refusal::at(7, form));
        }
    }
    Ok(())
}

fn comparison_is_sound(tables: &Tables, form: usize) -> bool {
    let [kind, operator, a, b, c] = tables.comparison(form);
    let lower = |operand: u16| usize::from(operand) < form;
    let attribute = |word: u16| is_attribute(tables, word);
    let operator_is_sound = match kind {
        2 | 3 => operator <= 5,
        _ => operator == 0,
    };
    operator_is_sound
        && match kind {
            0 | 1 => a == 0 && b == 0 && c == 0,
            // Word c is the constant's kind, which is 24's matter.
            2 => attribute(a),
            3 => attribute(a) && attribute(b) && c == 0,
            4 => lower(a) && b == 0 && c == 0,
            5 | 6 => lower(a) && lower(b) && c == 0,
            7 => is_in_table(tables, 0, a) && lower(b) && lower(c),
            _ => false,
        }
}

/// What check 8 has gathered on its way up table 4.
struct Seen {
    taken: Vec<bool>,
    lists: Vec<Range<usize>>,
    end: usize,
}

/// 8: unknown kind, unused word not 0, operand not lower, relation, comparison
/// or expression not in its table, list past table 1, operand already taken.
fn queries(tables: &Tables, after_relations: usize) -> Result<Seen, Refusal> {
    let mut seen = Seen {
        taken: vec![false; tables.count(4)],
        lists: Vec::new(),
        end: after_relations,
    };
    for form in 0..tables.count(4) {
        if !query_words_are_sound(tables, form)
            || !take_operands(tables, form, &mut seen.taken)
            || !take_list(tables, form, &mut seen)
        {
            return Err(Refusal::at(8, form));
        }
    }
    Ok(seen)
}

fn query_words_are_sound(tables: &Tables, form: usize) -> bool {
    let [kind, a, b, c] = tables.query(form);
    let lower = |operand: u16| usize::from(operand) < form;
    match kind {
        0 => a == 0 && b == 0 && c == 0,
        1 => is_in_table(tables, 2, a) && b == 0 && c == 0,
        2 => is_in_table(tables, 3, a) && lower(b) && c == 0,
        3 => lower(b) && c == 0,
        4 => is_in_table(tables, 0, a) && lower(b) && lower(c),
        5..=7 => lower(a) && lower(b) && c == 0,
        _ => false,
    }
}

/// Marks the operands of a form as taken; false when one already was, by a
/// lower form or by this one.
fn take_operands(tables: &Tables, form: usize, taken: &mut [bool]) -> bool {
    for operand in tables::operands(tables.query(form)) {
        if taken[operand] {
            return false;
        }
        taken[operand] = true;
    }
    true
}

/// Notes where a project form's list lies; false when it is past table 1.
fn take_list(tables: &Tables, form: usize, seen: &mut Seen) -> bool {
    let [kind, a, ..] = tables.query(form);
    let length = match kind {
        tables::PROJECT => usize::from(a),
        _ => 0,
    };
    let list = seen.end..seen.end + length;
    seen.end = list.end;
    seen.lists.push(list.clone());
    !is_past_entries(tables, &list)
}

/// 9: form other than the last never taken.
fn never_taken(taken: &[bool]) -> Result<(), Refusal> {
    for (form, is_taken) in taken.iter().enumerate() {
        if !is_taken && form + 1 < taken.len() {
            return Err(Refusal::at(9, form));
        }
    }
    Ok(())
}

/// 10: entries left after the last list.
fn entries_left(tables: &Tables, end: usize) -> Result<(), Refusal> {
    if end < tables.count(1) {
        return Err(Refusal::at(10, end));
    }
    Ok(())
}

/// 24: the kind table is not m words (place 0), else a kind over 2 there (place the
/// word), else one in a comparison (place the form).
fn kinds(tables: &Tables) -> Result<(), Refusal> {
    if tables.kinds.len() as u64 != tables.attributes {
        return Err(Refusal::at(24, 0));
    }
    let is_over = |&kind: &u16| kind > NAME;
    if let Some(word) = tables.kinds.iter().position(is_over) {
        return Err(Refusal::at(24, word));
    }
    for form in 0..tables.count(3) {
        let [kind, _, _, _, c] = tables.comparison(form);
        if kind == WITH_CONSTANT && is_over(&c) {
            return Err(Refusal::at(24, form));
        }
    }
    Ok(())
}

fn is_attribute(tables: &Tables, word: u16) -> bool {
    u64::from(word) < tables.attributes
}

fn is_in_table(tables: &Tables, table: usize, word: u16) -> bool {
    usize::from(word) < tables.count(table)
}

/// Does the list go past table 1? It may hold an attribute more than once.
fn is_past_entries(tables: &Tables, list: &Range<usize>) -> bool {
    list.end > tables.count(1)
}
