//! Faults put into accepted tables: one for every limit of every check.

mod clashes;

use super::feature_ranges::{self, Range};
use super::kinds;
use crate::check::{self, ROWS};
use crate::expression;
use crate::form;
use crate::random::Random;
use crate::reading::Reading;
use crate::refusal::is_of_typing;
use crate::tables::{self, Tables, EXACTLY_ONE, MOMENT, RANGES, WIDTHS, WITH_CONSTANT};
use crate::typing;

pub use clashes::has_two_kinds;
use clashes::{alone, append_choice, append_clash, append_constant, append_unlike};
use clashes::{everywhere, kinds_of_length, lacking, one_of, select_by, select_lacking};
use clashes::{unknown_kind, unknown_kind_of_constant};

/// One way to break one condition of the table of refusals.
pub struct Limit {
    /// The refusal that it aims at.
    pub number: u64,
    /// The condition, in words.
    pub words: &'static str,
    /// Puts the fault in; none when the tables give no occasion.
    pub apply: fn(&mut Random, &mut Tables) -> Option<()>,
}

const fn limit(
    number: u64,
    words: &'static str,
    apply: fn(&mut Random, &mut Tables) -> Option<()>,
) -> Limit {
    Limit {
        number,
        words,
        apply,
    }
}

/// Puts a fault of the given number into a copy of the tables, so that the
/// refusal has that number if that can be had in some tries.
pub fn aimed(random: &mut Random, sound: &Tables, number: u64) -> Tables {
    let limits: Vec<&Limit> = LIMITS.iter().filter(|l| l.number == number).collect();
    let mut tables = sound.clone();
    for _ in 0..6 {
        let limit = limits[random.below(limits.len())];
        // Some tries with the same limit, or the easy ones would push out the
        // others.
        for _ in 0..8 {
            tables = sound.clone();
            if (limit.apply)(random, &mut tables).is_some() && outcome(&tables) == number {
                return tables;
            }
        }
    }
    tables
}

/// Faults of typing of which the lowest form is not the first to fail: some
/// lower configuration fails in a higher form only. As far as some tries give
/// it.
pub fn crossed(random: &mut Random, sound: &Tables) -> Tables {
    let mut tables = sound.clone();
    for _ in 0..60 {
        tables = sound.clone();
        let limit = &LIMITS[random.below(LIMITS.len())];
        let kind = random.pick(&[2, 3, 5, 6, 7]);
        if apply_of_typing(limit)(random, &mut tables).is_some()
            && is_of_typing(outcome(&tables))
            && append_query(random, &mut tables, kind).is_some()
            && is_crossed(&tables)
        {
            break;
        }
    }
    tables
}

/// What puts the fault of a limit of typing in; for other limits a turned word.
fn apply_of_typing(limit: &Limit) -> fn(&mut Random, &mut Tables) -> Option<()> {
    match is_of_typing(limit.number) {
        true => limit.apply,
        false => turn,
    }
}

/// Is the configuration that typing names another than the first that fails?
pub fn is_crossed(tables: &Tables) -> bool {
    let mut rows = [0; ROWS];
    let Err(refusal) = check::check(tables, Reading::Strict, &mut rows) else {
        return false;
    };
    if !is_of_typing(refusal.number) {
        return false;
    }
    let lists = form::check(tables).expect("typing comes after form");
    let mut permitted = expression::permitted(tables).into_iter();
    let first = permitted.find(|at| typing::report_at(tables, &lists, at).is_err());
    first.is_some_and(|at| at.configuration != refusal.configuration)
}

/// Puts in a fault that has to do with kinds: of 24 and 25, and of others whose words
/// say so.
pub fn of_kinds(random: &mut Random, sound: &Tables) -> Tables {
    let names_kinds = |words: &str| words.contains("kinds differ") || words.contains("a kind");
    let is_of_kinds = |l: &&Limit| match l.number {
        10 | 16 => names_kinds(l.words),
        number => number == 24 || number == 25,
    };
    let limits: Vec<&Limit> = LIMITS.iter().filter(is_of_kinds).collect();
    for _ in 0..40 {
        let limit = random.pick(&limits);
        let mut tables = sound.clone();
        if (limit.apply)(random, &mut tables).is_some() && outcome(&tables) == limit.number {
            return tables;
        }
    }
    sound.clone()
}

/// Puts in several faults, of any numbers.
pub fn several(random: &mut Random, sound: &Tables) -> Tables {
    let mut tables = sound.clone();
    for _ in 0..random.between(2, 5) {
        let limit = &LIMITS[random.below(LIMITS.len())];
        let mut tried = tables.clone();
        // Over-long tables would hide all else too often, and a table that an
        // earlier fault cut gives no occasion for some later ones.
        if lengths_are_sound(&tried) && (limit.apply)(random, &mut tried).is_some() {
            tables = tried;
        }
    }
    tables
}

/// Several faults of typing only: they show which one comes first.
pub fn several_of_typing(random: &mut Random, sound: &Tables) -> Tables {
    let mut tables = sound.clone();
    for _ in 0..random.between(2, 4) {
        let mut tried = tables.clone();
        let limit = &LIMITS[random.below(LIMITS.len())];
        if apply_of_typing(limit)(random, &mut tried).is_some() && gets_to_typing(&tried) {
            tables = tried;
        }
    }
    tables
}

/// Are the tables accepted, or refused for a typing fault?
fn gets_to_typing(tables: &Tables) -> bool {
    let number = outcome(tables);
    number == 0 || is_of_typing(number)
}

/// The number of the refusal when checking strictly, 0 when accepted.
pub fn outcome(tables: &Tables) -> u64 {
    outcome_in(tables, Reading::Strict)
}

/// The same in either reading.
pub fn outcome_in(tables: &Tables, reading: Reading) -> u64 {
    let mut rows = [0; ROWS];
    match check::check(tables, reading, &mut rows) {
        Ok(()) => 0,
        Err(refusal) => refusal.number,
    }
}

/// Do the tables pass check 2?
pub fn lengths_are_sound(tables: &Tables) -> bool {
    RANGES.iter().enumerate().all(|(table, (lowest, highest))| {
        let whole = tables.words(table).len().is_multiple_of(WIDTHS[table]);
        let count = tables.count(table);
        whole && count >= *lowest && count <= *highest
    })
}

// Small steps on tables

fn put(tables: &mut Tables, table: usize, form: usize, word: usize, value: u16) -> Option<()> {
    let index = form * WIDTHS[table] + word;
    tables.words_mut(table)[index] = value;
    Some(())
}

fn kind(tables: &Tables, table: usize, form: usize) -> u16 {
    tables.words(table)[form * WIDTHS[table]]
}

fn append(tables: &mut Tables, table: usize, form: &[u16]) -> Option<usize> {
    if tables.count(table) >= RANGES[table].1 {
        return None;
    }
    tables.words_mut(table).extend(form);
    Some(tables.count(table) - 1)
}

fn any(random: &mut Random, tables: &Tables, table: usize) -> Option<usize> {
    let count = tables.count(table);
    (count > 0).then(|| random.below(count))
}

/// A word that is not 0.
fn some_word(random: &mut Random) -> u16 {
    let small = random.between(1, 5) as u16;
    random.pick(&[1, small, 65535])
}

/// A form of one of the kinds in table 0, 3 or 4: one that is there, or a sound
/// one that is put at the end.
fn form_of(random: &mut Random, tables: &mut Tables, table: usize, kinds: &[u16]) -> Option<usize> {
    let there: Vec<usize> = (0..tables.count(table))
        .filter(|&form| kinds.contains(&kind(tables, table, form)))
        .collect();
    if !there.is_empty() && random.chance(1, 2) {
        return Some(random.pick(&there));
    }
    let kind = random.pick(kinds);
    match table {
        0 => append_expression(random, tables, kind),
        3 => append_comparison(random, tables, kind),
        _ => append_query(random, tables, kind),
    }
}

fn append_expression(random: &mut Random, tables: &mut Tables, kind: u16) -> Option<usize> {
    let a = any(random, tables, 0)? as u16;
    let b = any(random, tables, 0)? as u16;
    let features = tables.features.min(10) as usize;
    let form = match kind {
        0 | 1 => [kind, 0, 0],
        2 | EXACTLY_ONE if features == 0 => return None,
        2 => [kind, random.below(features) as u16, 0],
        3 => [kind, a, 0],
        EXACTLY_ONE => {
            let [first, count] = feature_ranges::sound(random, features);
            [kind, first, count]
        }
        _ => [kind, a, b],
    };
    append(tables, 0, &form)
}

/// Gives a form of kind 6 another range: one that is there, or a new one.
fn put_range(
    random: &mut Random,
    tables: &mut Tables,
    range: fn(&mut Random, &Tables) -> Range,
) -> Option<()> {
    let form = match form_of(random, tables, 0, &[EXACTLY_ONE]) {
        Some(form) => form,
        // Without features there is no sound one.
        None => append(tables, 0, &[EXACTLY_ONE, 0, 0])?,
    };
    let [first, count] = range(random, tables);
    put(tables, 0, form, 1, first)?;
    put(tables, 0, form, 2, count)
}

fn any_attribute(random: &mut Random, tables: &Tables) -> Option<u16> {
    let attributes = tables.attributes.min(64) as usize;
    (attributes > 0).then(|| random.below(attributes) as u16)
}

fn append_comparison(random: &mut Random, tables: &mut Tables, kind: u16) -> Option<usize> {
    if tables.comparisons.is_empty() && kind >= 4 {
        append(tables, 3, &[1, 0, 0, 0, 0])?;
    }
    let a = any(random, tables, 3).unwrap_or(0) as u16;
    let b = any(random, tables, 3).unwrap_or(0) as u16;
    let operator = random.below(6) as u16;
    let form = match kind {
        0 | 1 => [kind, 0, 0, 0, 0],
        2 => {
            let left = any_attribute(random, tables)?;
            [kind, operator, left, 7, kind_of(tables, left)]
        }
        3 => {
            let left = any_attribute(random, tables)?;
            [kind, operator, left, any_attribute(random, tables)?, 0]
        }
        4 => [kind, 0, a, 0, 0],
        5 | 6 => [kind, 0, a, b, 0],
        _ => [kind, 0, any(random, tables, 0)? as u16, a, b],
    };
    append(tables, 3, &form)
}

/// The kind of an attribute; in a table that is cut short, any.
fn kind_of(tables: &Tables, attribute: u16) -> u16 {
    let kind = tables.kinds.get(usize::from(attribute));
    kind.copied().unwrap_or(MOMENT)
}

/// A sound form over the report; it becomes the report. (A form without
/// operands leaves the old report untaken: that is for faults that come
/// before.)
fn append_query(random: &mut Random, tables: &mut Tables, kind: u16) -> Option<usize> {
    let mut report = any(random, tables, 4).map(|_| tables.count(4) - 1)? as u16;
    let mut other = 0;
    if kind >= tables::CHOICE {
        let leaf = match any(random, tables, 2) {
            Some(relation) if random.chance(3, 4) => [1, relation as u16, 0, 0],
            _ => [0, 0, 0, 0],
        };
        other = append(tables, 4, &leaf)? as u16;
        if random.chance(1, 2) {
            std::mem::swap(&mut report, &mut other);
        }
    }
    let form = match kind {
        0 => [kind, 0, 0, 0],
        1 => [kind, any(random, tables, 2)? as u16, 0, 0],
        2 => [kind, any(random, tables, 3)? as u16, report, 0],
        3 => [kind, append_list(random, tables)?, report, 0],
        4 => [kind, any(random, tables, 0)? as u16, report, other],
        _ => [kind, report, other, 0],
    };
    append(tables, 4, &form)
}

/// Entries at the end of table 1 for a project form at the end of table 4;
/// gives their number.
fn append_list(random: &mut Random, tables: &mut Tables) -> Option<u16> {
    let attributes = tables.attributes.min(64) as usize;
    let mut all: Vec<u16> = (0..attributes as u16).collect();
    random.shuffle(&mut all);
    all.truncate(random.below(attributes.min(3) + 1));
    if !all.is_empty() && random.chance(1, 4) {
        all.push(random.pick(&all));
    }
    for &attribute in &all {
        let expression = any(random, tables, 0)? as u16;
        append(tables, 1, &[attribute, expression])?;
    }
    Some(all.len() as u16)
}

/// Where the list of a relation lies.
fn relation_list(tables: &Tables, relation: usize) -> std::ops::Range<usize> {
    let length = |number: usize| usize::from(tables.relation(number)[1]);
    let start: usize = (0..relation).map(length).sum();
    start..start + length(relation)
}

/// Where the list of a project form lies.
fn project_list(tables: &Tables, form: usize) -> std::ops::Range<usize> {
    let relations: usize = (0..tables.count(2))
        .map(|number| usize::from(tables.relation(number)[1]))
        .sum();
    let length = |number: usize| match tables.query(number) {
        [tables::PROJECT, a, ..] => usize::from(a),
        _ => 0,
    };
    let start = relations + (0..form).map(length).sum::<usize>();
    start..start + length(form)
}

/// Puts an entry into table 1, which the list that has the place then has too.
fn insert_entry(tables: &mut Tables, place: usize, list: List, entry: [u16; 2]) -> Option<()> {
    if tables.count(1) >= RANGES[1].1 || place > tables.count(1) {
        return None;
    }
    tables.entries.splice(2 * place..2 * place, entry);
    let (table, form) = match list {
        List::Relation(relation) => (2, relation),
        List::Project(form) => (4, form),
    };
    let length = tables.words(table)[form * WIDTHS[table] + 1].checked_add(1)?;
    put(tables, table, form, 1, length)
}

/// A list, by the relation or the project form whose it is.
#[derive(Clone, Copy)]
enum List {
    Relation(usize),
    Project(usize),
}

/// Lists some entry of a list once more, behind it: the list's set stays as it
/// is. Gives the numbers of both, of which the second is the repeat.
fn list_again(random: &mut Random, tables: &mut Tables, list: List) -> Option<[usize; 2]> {
    let range = match list {
        List::Relation(relation) => relation_list(tables, relation),
        List::Project(form) => project_list(tables, form),
    };
    if range.is_empty() || range.end > tables.count(1) {
        return None;
    }
    let first = random.between(range.start, range.end - 1);
    let again = random.between(first + 1, range.end);
    let entry = tables.entry(first);
    insert_entry(tables, again, list, entry)?;
    Some([first, again])
}

/// The same with a relation's list.
fn relation_again(random: &mut Random, tables: &mut Tables) -> Option<(usize, [usize; 2])> {
    let relation = any(random, tables, 2)?;
    let both = list_again(random, tables, List::Relation(relation))?;
    Some((relation, both))
}

/// The same with the list of a project form, or with one put over the report.
fn project_again(random: &mut Random, tables: &mut Tables) -> Option<[usize; 2]> {
    let form = form_of(random, tables, 4, &[tables::PROJECT])?;
    list_again(random, tables, List::Project(form))
}

/// An attribute is listed again, in a relation or a project, and both of its
/// reasons are turned.
fn turn_reasons(random: &mut Random, tables: &mut Tables) -> Option<()> {
    let both = match random.chance(1, 2) {
        true => relation_again(random, tables)?.1,
        false => project_again(random, tables)?,
    };
    for entry in both {
        let expression = any(random, tables, 0)? as u16;
        put(tables, 1, entry, 1, expression)?;
    }
    Some(())
}

/// Sets an operand word to the form's own number, or to a higher one.
fn not_lower(
    random: &mut Random,
    tables: &mut Tables,
    table: usize,
    kinds: &[u16],
    word: usize,
) -> Option<()> {
    let form = form_of(random, tables, table, kinds)?;
    let own = form as u16;
    let value = random.pick(&[own, own, own, own, own + 1, 65535]);
    put(tables, table, form, word, value)
}

/// Sets an unused word to something else than 0.
fn unused(
    random: &mut Random,
    tables: &mut Tables,
    table: usize,
    kinds: &[u16],
    word: usize,
) -> Option<()> {
    let form = form_of(random, tables, table, kinds)?;
    let value = some_word(random);
    put(tables, table, form, word, value)
}

/// Sets a word that refers to another table to the count of that table, or to
/// more.
fn not_in_table(
    random: &mut Random,
    tables: &mut Tables,
    at: (usize, usize, usize),
    other: usize,
) -> Option<()> {
    let (table, form, word) = at;
    let count = tables.count(other) as u16;
    let value = random.pick(&[count, count, count, count, count + 1, 65535]);
    put(tables, table, form, word, value)
}

/// Sets an attribute word to m, or to more.
fn no_attribute(random: &mut Random, tables: &mut Tables, at: (usize, usize, usize)) -> Option<()> {
    let (table, form, word) = at;
    let attributes = tables.attributes.min(65) as u16;
    let value = random.pick(&[attributes, attributes, attributes, attributes + 64, 65535]);
    put(tables, table, form, word, value)
}

/// Cuts or adds words so that the length is no multiple of the form.
fn no_multiple(random: &mut Random, tables: &mut Tables, table: usize) -> Option<()> {
    let odd = random.between(1, WIDTHS[table] - 1);
    let words = tables.words_mut(table);
    if words.len() > odd && random.chance(1, 2) {
        words.truncate(words.len() - odd);
    } else {
        words.extend(vec![0; odd]);
    }
    Some(())
}

/// One form more than the range of the table allows.
fn over_range(tables: &mut Tables, table: usize, form: &[u16]) -> Option<()> {
    let words = (RANGES[table].1 + 1) * WIDTHS[table];
    while tables.words(table).len() < words {
        tables.words_mut(table).extend(form);
    }
    Some(())
}

/// A relation that is absent at some permitted configuration. None in tables
/// that are not sound in form.
fn partly_present(random: &mut Random, tables: &Tables) -> Option<usize> {
    form::check(tables).ok()?;
    let permitted = expression::permitted(tables);
    let absent = |relation: &usize| {
        let presence = usize::from(tables.relation(*relation)[0]);
        permitted.iter().any(|at| !at.holds[presence])
    };
    let partly: Vec<usize> = (0..tables.count(2)).filter(absent).collect();
    (!partly.is_empty()).then(|| random.pick(&partly))
}

/// Gives some entry of a relation the expression.
fn put_in_list(
    random: &mut Random,
    tables: &mut Tables,
    relation: usize,
    expression: u16,
) -> Option<()> {
    let list = relation_list(tables, relation);
    if list.is_empty() || list.end > tables.count(1) {
        return None;
    }
    let entry = random.between(list.start, list.end - 1);
    put(tables, 1, entry, 1, expression)
}

/// Puts sound comparisons behind table 3 that nothing names, up to a number: two
/// without operands, then choices and forms over them by turns.
pub fn more_comparisons(random: &mut Random, tables: &mut Tables, most: usize) {
    let start = tables.count(3);
    for number in start..most {
        let last = number.saturating_sub(1) as u16;
        let other = random.below(number.max(1)) as u16;
        let expression = random.below(tables.count(0)) as u16;
        let form = match number {
            0 | 1 => {
                let kind = random.below(4) as u16;
                append_comparison(random, tables, kind);
                continue;
            }
            _ if number % 2 == 0 => [7, 0, expression, last, other],
            _ => random.pick(&[
                [4, 0, last, 0, 0],
                [5, 0, last, other, 0],
                [6, 0, other, last, 0],
            ]),
        };
        if usize::from(last) < tables.count(3) {
            append(tables, 3, &form);
        }
    }
}

/// An expression that holds at no permitted configuration.
fn nowhere(random: &mut Random, tables: &mut Tables) -> Option<u16> {
    let model = tables.model as u16;
    let form = match random.below(3) {
        0 => [0, 0, 0],
        1 => [3, model, 0],
        _ => {
            let not = append(tables, 0, &[3, model, 0])? as u16;
            let other = any(random, tables, 0)? as u16;
            [4, not, other]
        }
    };
    append(tables, 0, &form).map(|number| number as u16)
}

/// Turns one word of sound tables into another that is sound in form: a change
/// of meaning.
pub fn turn(random: &mut Random, tables: &mut Tables) -> Option<()> {
    match random.below(13) {
        0 => {
            let entry = any(random, tables, 1)?;
            let expression = any(random, tables, 0)? as u16;
            put(tables, 1, entry, 1, expression)
        }
        1 => {
            let entry = any(random, tables, 1)?;
            let attribute = any_attribute(random, tables)?;
            put(tables, 1, entry, 0, attribute)
        }
        2 => {
            let relation = any(random, tables, 2)?;
            let expression = any(random, tables, 0)? as u16;
            put(tables, 2, relation, 0, expression)
        }
        3 => turn_expression(random, tables),
        4 => turn_comparison(random, tables),
        5 => {
            tables.model = any(random, tables, 0)? as u64;
            Some(())
        }
        6 => turn_kind(random, tables),
        _ => turn_query(random, tables),
    }
}

fn turn_expression(random: &mut Random, tables: &mut Tables) -> Option<()> {
    let form = any(random, tables, 0)?;
    let [kind, ..] = tables.expression(form);
    let features = tables.features.clamp(1, 10) as usize;
    match kind {
        2 => {
            let feature = random.below(features) as u16;
            put(tables, 0, form, 1, feature)
        }
        EXACTLY_ONE => {
            let [first, count] = feature_ranges::sound(random, features);
            put(tables, 0, form, 1, first)?;
            put(tables, 0, form, 2, count)
        }
        4 | 5 => put(tables, 0, form, 0, 9 - kind),
        3 => put(tables, 0, form, 1, random.below(form.max(1)) as u16),
        0 | 1 => put(tables, 0, form, 0, 1 - kind),
        _ => None,
    }
}

fn turn_kind(random: &mut Random, tables: &mut Tables) -> Option<()> {
    if tables.kinds.is_empty() {
        return None;
    }
    let word = random.below(tables.kinds.len());
    tables.kinds[word] = kinds::other(random, tables.kinds[word] % 3);
    Some(())
}

fn turn_comparison(random: &mut Random, tables: &mut Tables) -> Option<()> {
    let form = any(random, tables, 3)?;
    let [kind, _, a, b, c] = tables.comparison(form);
    match kind {
        WITH_CONSTANT if random.chance(1, 3) => {
            let kind = kinds::other(random, c % 3);
            put(tables, 3, form, 4, kind)
        }
        2 | 3 => {
            let attribute = any_attribute(random, tables)?;
            put(tables, 3, form, 2, attribute)
        }
        7 if random.chance(1, 2) => {
            put(tables, 3, form, 3, c)?;
            put(tables, 3, form, 4, b)
        }
        7 => {
            let expression = any(random, tables, 0)? as u16;
            put(tables, 3, form, 2, expression)
        }
        5 | 6 => put(tables, 3, form, 3, a),
        _ => None,
    }
}

fn turn_query(random: &mut Random, tables: &mut Tables) -> Option<()> {
    let form = any(random, tables, 4)?;
    let [kind, _, b, c] = tables.query(form);
    match kind {
        tables::RELATION => {
            let relation = any(random, tables, 2)? as u16;
            put(tables, 4, form, 1, relation)
        }
        tables::SELECT => {
            let comparison = any(random, tables, 3)? as u16;
            put(tables, 4, form, 1, comparison)
        }
        tables::CHOICE if random.chance(1, 2) => {
            put(tables, 4, form, 2, c)?;
            put(tables, 4, form, 3, b)
        }
        tables::CHOICE => {
            let expression = any(random, tables, 0)? as u16;
            put(tables, 4, form, 1, expression)
        }
        tables::PRODUCT | tables::UNION | tables::INTERSECTION => {
            put(tables, 4, form, 0, random.pick(&[5, 6, 7]))
        }
        _ => None,
    }
}

/// Every limit of every check that tables alone can fail, in the order of the checks.
pub static LIMITS: &[Limit] = &[
    limit(1, "11 features", |_, t| {
        t.features = 11;
        Some(())
    }),
    limit(1, "far too many features", |r, t| {
        t.features = r.pick(&[64, 255, 65535, (1 << 32) + 2, u64::MAX]);
        Some(())
    }),
    limit(1, "65 attributes", |_, t| {
        t.attributes = 65;
        Some(())
    }),
    limit(1, "far too many attributes", |r, t| {
        t.attributes = r.pick(&[66, 256, 65535, 65536 + 3, u64::MAX]);
        Some(())
    }),
    limit(1, "too many features and attributes", |_, t| {
        t.features = 11;
        t.attributes = 65;
        Some(())
    }),
    limit(2, "table 0 no multiple", |r, t| no_multiple(r, t, 0)),
    limit(2, "table 1 no multiple", |r, t| no_multiple(r, t, 1)),
    limit(2, "table 2 no multiple", |r, t| no_multiple(r, t, 2)),
    limit(2, "table 3 no multiple", |r, t| no_multiple(r, t, 3)),
    limit(2, "table 4 no multiple", |r, t| no_multiple(r, t, 4)),
    limit(2, "257 expressions", |_, t| over_range(t, 0, &[1, 0, 0])),
    limit(2, "513 entries", |_, t| over_range(t, 1, &[0, 0])),
    limit(2, "33 relations", |_, t| over_range(t, 2, &[0, 0])),
    limit(2, "257 comparisons", |_, t| {
        over_range(t, 3, &[1, 0, 0, 0, 0])
    }),
    limit(2, "257 queries", |_, t| over_range(t, 4, &[0, 0, 0, 0])),
    limit(2, "no expressions", |_, t| {
        t.expressions.clear();
        Some(())
    }),
    limit(2, "no queries", |_, t| {
        t.queries.clear();
        Some(())
    }),
    limit(3, "unknown kind", |r, t| {
        let form = any(r, t, 0)?;
        let kind = r.pick(&[7, 7, 8, 256, 256 + EXACTLY_ONE, 65535]);
        put(t, 0, form, 0, kind)
    }),
    limit(3, "unused a", |r, t| unused(r, t, 0, &[0, 1], 1)),
    limit(3, "unused b of a constant", |r, t| {
        unused(r, t, 0, &[0, 1], 2)
    }),
    limit(3, "unused b of a feature", |r, t| unused(r, t, 0, &[2], 2)),
    limit(3, "unused b of not", |r, t| unused(r, t, 0, &[3], 2)),
    limit(3, "feature = n", |r, t| {
        let form = form_of(r, t, 0, &[2])?;
        let features = t.features as u16;
        put(t, 0, form, 1, features)
    }),
    limit(3, "feature far over n", |r, t| {
        let form = append(t, 0, &[2, 0, 0])?;
        let value = r.pick(&[10, 16, 64, 65535]);
        put(t, 0, form, 1, value)
    }),
    limit(3, "operand a not lower", |r, t| {
        not_lower(r, t, 0, &[3, 4, 5], 1)
    }),
    limit(3, "operand b not lower", |r, t| {
        not_lower(r, t, 0, &[4, 5], 2)
    }),
    limit(3, "range of no features", |r, t| {
        put_range(r, t, feature_ranges::of_none)
    }),
    limit(3, "range of 11 features", |r, t| {
        put_range(r, t, feature_ranges::of_11)
    }),
    limit(3, "range of far more features", |r, t| {
        put_range(r, t, feature_ranges::of_many)
    }),
    limit(3, "range past n by one", |r, t| {
        put_range(r, t, feature_ranges::past_by_one)
    }),
    limit(3, "range past n by one, n at a limit", |r, t| {
        let features = r.pick(&[0, 1, 6, 7, 10]);
        // With more features all else stays sound.
        if features < t.features {
            return None;
        }
        t.features = features;
        put_range(r, t, feature_ranges::past_by_one)
    }),
    limit(3, "range far past n", |r, t| {
        put_range(r, t, feature_ranges::far_past)
    }),
    limit(3, "range not past n in 16 bits", |r, t| {
        put_range(r, t, feature_ranges::past_16_bits)
    }),
    limit(3, "range of over 10, not past n in 16 bits", |r, t| {
        put_range(r, t, feature_ranges::of_many_past_16_bits)
    }),
    limit(4, "model = count", |_, t| {
        t.model = t.count(0) as u64;
        Some(())
    }),
    limit(4, "model far over", |r, t| {
        t.model = r.pick(&[256, 65535, 65536, 1 << 32, u64::MAX]);
        Some(())
    }),
    limit(5, "attribute not below m", |r, t| {
        let entry = any(r, t, 1)?;
        no_attribute(r, t, (1, entry, 0))
    }),
    limit(5, "expression not in table 0", |r, t| {
        let entry = any(r, t, 1)?;
        not_in_table(r, t, (1, entry, 1), 0)
    }),
    limit(5, "an entry left, with attribute m", |_, t| {
        let attributes = t.attributes as u16;
        append(t, 1, &[attributes, 0]).map(|_| ())
    }),
    limit(6, "expression not in table 0", |r, t| {
        let relation = any(r, t, 2)?;
        not_in_table(r, t, (2, relation, 0), 0)
    }),
    limit(6, "list past table 1 by one", |r, t| {
        let relation = any(r, t, 2)?;
        let start = relation_list(t, relation).start;
        let past = t.count(1).checked_sub(start)? + 1;
        put(t, 2, relation, 1, past as u16)
    }),
    limit(
        6,
        "table 1 cut by one inside the last relation's list",
        |_, t| {
            let last = t.count(2).checked_sub(1)?;
            let end = relation_list(t, last).end;
            t.entries.truncate((2 * end).checked_sub(2)?);
            Some(())
        },
    ),
    limit(6, "list far past table 1", |r, t| {
        let relation = any(r, t, 2)?;
        let value = r.pick(&[513, 32768, 65535]);
        put(t, 2, relation, 1, value)
    }),
    limit(6, "one attribute over and over, past table 1", |r, t| {
        let relation = any(r, t, 2)?;
        let start = relation_list(t, relation).start;
        let attribute = any_attribute(r, t)?;
        let end = t.count(1);
        (start..end).try_for_each(|entry| put(t, 1, entry, 0, attribute))?;
        put(t, 2, relation, 1, (end.checked_sub(start)? + 1) as u16)
    }),
    limit(7, "unknown kind", |r, t| {
        let form = form_of(r, t, 3, &[0, 1, 2, 3, 4, 5, 6, 7])?;
        let kind = r.pick(&[8, 8, 8, 9, 256, 65535]);
        put(t, 3, form, 0, kind)
    }),
    limit(7, "operator where none is used", |r, t| {
        unused(r, t, 3, &[0, 1, 4, 5, 6, 7], 1)
    }),
    limit(7, "operator over 5", |r, t| {
        let form = form_of(r, t, 3, &[2, 3])?;
        let operator = r.pick(&[6, 6, 6, 7, 65535]);
        put(t, 3, form, 1, operator)
    }),
    limit(7, "unused a", |r, t| unused(r, t, 3, &[0, 1], 2)),
    limit(7, "unused b of a constant", |r, t| {
        unused(r, t, 3, &[0, 1], 3)
    }),
    limit(7, "unused b of not", |r, t| unused(r, t, 3, &[4], 3)),
    limit(7, "unused c of a constant", |r, t| {
        unused(r, t, 3, &[0, 1], 4)
    }),
    limit(7, "unused c of two attributes", |r, t| {
        unused(r, t, 3, &[3], 4)
    }),
    limit(7, "unused c of not", |r, t| unused(r, t, 3, &[4], 4)),
    limit(7, "unused c of and, or", |r, t| unused(r, t, 3, &[5, 6], 4)),
    limit(7, "operand a not lower", |r, t| {
        not_lower(r, t, 3, &[4, 5, 6], 2)
    }),
    limit(7, "operand b of and, or not lower", |r, t| {
        not_lower(r, t, 3, &[5, 6], 3)
    }),
    limit(7, "operand b of a choice not lower", |r, t| {
        not_lower(r, t, 3, &[7], 3)
    }),
    limit(7, "operand c not lower", |r, t| not_lower(r, t, 3, &[7], 4)),
    limit(7, "attribute a not below m", |r, t| {
        let form = form_of(r, t, 3, &[2, 3])?;
        no_attribute(r, t, (3, form, 2))
    }),
    limit(7, "attribute b not below m", |r, t| {
        let form = form_of(r, t, 3, &[3])?;
        no_attribute(r, t, (3, form, 3))
    }),
    limit(7, "expression not in table 0", |r, t| {
        let form = form_of(r, t, 3, &[7])?;
        not_in_table(r, t, (3, form, 2), 0)
    }),
    limit(8, "unknown kind", |r, t| {
        let form = any(r, t, 4)?;
        let kind = r.pick(&[8, 8, 8, 9, 256, 65535]);
        put(t, 4, form, 0, kind)
    }),
    limit(8, "unused a", |r, t| unused(r, t, 4, &[0], 1)),
    limit(8, "unused b of empty", |r, t| unused(r, t, 4, &[0], 2)),
    limit(8, "unused b of a relation", |r, t| unused(r, t, 4, &[1], 2)),
    limit(8, "unused c of empty", |r, t| unused(r, t, 4, &[0], 3)),
    limit(8, "unused c of a relation", |r, t| unused(r, t, 4, &[1], 3)),
    limit(8, "unused c of a select", |r, t| unused(r, t, 4, &[2], 3)),
    limit(8, "unused c of a project", |r, t| unused(r, t, 4, &[3], 3)),
    limit(8, "unused c of a product", |r, t| unused(r, t, 4, &[5], 3)),
    limit(8, "unused c of a union", |r, t| unused(r, t, 4, &[6], 3)),
    limit(8, "unused c of an intersection", |r, t| {
        unused(r, t, 4, &[7], 3)
    }),
    limit(8, "operand a not lower", |r, t| {
        not_lower(r, t, 4, &[5, 6, 7], 1)
    }),
    limit(8, "operand of a select not lower", |r, t| {
        not_lower(r, t, 4, &[2], 2)
    }),
    limit(8, "operand of a project not lower", |r, t| {
        not_lower(r, t, 4, &[3], 2)
    }),
    limit(8, "operand b of a choice not lower", |r, t| {
        not_lower(r, t, 4, &[4], 2)
    }),
    limit(8, "operand b not lower", |r, t| {
        not_lower(r, t, 4, &[5, 6, 7], 2)
    }),
    limit(8, "operand c not lower", |r, t| not_lower(r, t, 4, &[4], 3)),
    limit(8, "relation not in table 2", |r, t| {
        let form = form_of(r, t, 4, &[1])?;
        not_in_table(r, t, (4, form, 1), 2)
    }),
    limit(8, "comparison not in table 3", |r, t| {
        if t.count(3) == 0 {
            let report = (t.count(4) - 1) as u16;
            return append(t, 4, &[2, 0, report, 0]).map(|_| ());
        }
        let form = form_of(r, t, 4, &[2])?;
        not_in_table(r, t, (4, form, 1), 3)
    }),
    limit(8, "expression not in table 0", |r, t| {
        let form = form_of(r, t, 4, &[4])?;
        not_in_table(r, t, (4, form, 1), 0)
    }),
    limit(8, "list past table 1 by one", |r, t| {
        let form = form_of(r, t, 4, &[3])?;
        let start = project_list(t, form).start;
        let past = t.count(1).checked_sub(start)? + 1;
        put(t, 4, form, 1, past as u16)
    }),
    limit(8, "a list of one entry after the last entry", |_, t| {
        let report = (t.count(4) - 1) as u16;
        append(t, 4, &[3, 1, report, 0]).map(|_| ())
    }),
    limit(
        8,
        "table 1 cut by one inside the last project's list",
        |_, t| {
            let last = (0..t.count(4)).rev().find(|&f| t.query(f)[0] == 3)?;
            if project_list(t, last).is_empty() {
                return None;
            }
            t.entries.truncate(t.entries.len().checked_sub(2)?);
            Some(())
        },
    ),
    limit(8, "list far past table 1", |r, t| {
        let form = form_of(r, t, 4, &[3])?;
        let value = r.pick(&[513, 32768, 65535]);
        put(t, 4, form, 1, value)
    }),
    limit(8, "one attribute over and over, past table 1", |r, t| {
        let report = (t.count(4) - 1) as u16;
        let attribute = any_attribute(r, t)?;
        let times = r.between(1, 3) as u16;
        for _ in 0..times {
            append(t, 1, &[attribute, 0])?;
        }
        append(t, 4, &[3, times + 1, report, 0]).map(|_| ())
    }),
    limit(8, "operand taken twice in one form", |r, t| {
        let form = form_of(r, t, 4, &[4, 5, 6, 7])?;
        let [kind, a, b, _] = t.query(form);
        match kind {
            4 => put(t, 4, form, 3, b),
            _ => put(t, 4, form, 2, a),
        }
    }),
    limit(8, "operand taken by a lower form too", |r, t| {
        let report = t.count(4) - 1;
        let taken = r.below(report.max(1)) as u16;
        let form = form_of(r, t, 4, &[2, 3, 4])?;
        if form <= usize::from(taken) {
            return None;
        }
        put(t, 4, form, 2, taken)
    }),
    limit(9, "a form with operands made empty", |r, t| {
        let form = form_of(r, t, 4, &[2, 4, 5, 6, 7])?;
        (0..4).try_for_each(|word| put(t, 4, form, word, 0))
    }),
    limit(9, "a form put behind the report", |r, t| {
        let kind = r.below(2) as u16;
        append_query(r, t, kind).map(|_| ())
    }),
    limit(9, "a form with two operands made a select", |r, t| {
        let form = form_of(r, t, 4, &[4, 5, 6, 7])?;
        let comparison = any(r, t, 3)? as u16;
        let [kind, a, b, _] = t.query(form);
        let operand = if kind == 4 { b } else { a };
        put(t, 4, form, 0, 2)?;
        put(t, 4, form, 1, comparison)?;
        put(t, 4, form, 2, operand)?;
        put(t, 4, form, 3, 0)
    }),
    limit(10, "one entry more", |r, t| {
        let attribute = any_attribute(r, t)?;
        append(t, 1, &[attribute, 0]).map(|_| ())
    }),
    limit(10, "several entries more", |r, t| {
        for _ in 0..r.between(2, 4) {
            let attribute = any_attribute(r, t)?;
            append(t, 1, &[attribute, 0])?;
        }
        Some(())
    }),
    limit(10, "one entry more, as the last one", |_, t| {
        let last = t.entry(t.count(1).checked_sub(1)?);
        append(t, 1, &last).map(|_| ())
    }),
    limit(10, "a project's list shorter by one", |r, t| {
        let form = form_of(r, t, 4, &[3])?;
        let length = t.query(form)[1].checked_sub(1)?;
        put(t, 4, form, 1, length)
    }),
    limit(10, "a relation's list shorter by one", |r, t| {
        let relation = any(r, t, 2)?;
        let length = t.relation(relation)[1].checked_sub(1)?;
        put(t, 2, relation, 1, length)
    }),
    limit(10, "one entry more, and a kind over 2", |r, t| {
        let attribute = any_attribute(r, t)?;
        append(t, 1, &[attribute, 0])?;
        match r.chance(1, 2) {
            true => unknown_kind(r, t),
            false => unknown_kind_of_constant(r, t),
        }
    }),
    limit(10, "one entry more, and a kind table too short", |r, t| {
        let attribute = any_attribute(r, t)?;
        append(t, 1, &[attribute, 0])?;
        t.kinds.pop().map(|_| ())
    }),
    limit(24, "kind table of no words", |_, t| kinds_of_length(t, 0)),
    limit(24, "kind table a word too short", |_, t| {
        t.kinds.pop().map(|_| ())
    }),
    limit(24, "kind table a word too long", |_, t| {
        t.kinds.push(MOMENT);
        Some(())
    }),
    limit(
        24,
        "kind table of one word with no attributes",
        |_, t| match t.attributes {
            0 => kinds_of_length(t, 1),
            _ => None,
        },
    ),
    limit(24, "kind table of 64 words", |_, t| kinds_of_length(t, 64)),
    limit(24, "kind table of 65 words", |_, t| kinds_of_length(t, 65)),
    limit(
        24,
        "kind table too short, and a kind over 2 in it",
        |r, t| {
            t.kinds.pop()?;
            unknown_kind(r, t)
        },
    ),
    limit(24, "kind table too long, by a kind over 2", |r, t| {
        t.kinds.push(kinds::unknown(r));
        Some(())
    }),
    limit(24, "first kind over 2", |r, t| {
        *t.kinds.first_mut()? = kinds::unknown(r);
        Some(())
    }),
    limit(24, "last kind over 2", |r, t| {
        *t.kinds.last_mut()? = kinds::unknown(r);
        Some(())
    }),
    limit(24, "a kind of 3", |r, t| {
        unknown_kind(r, t)?;
        t.kinds.iter_mut().for_each(|kind| *kind = (*kind).min(3));
        Some(())
    }),
    limit(24, "two kinds over 2", |r, t| {
        unknown_kind(r, t)?;
        unknown_kind(r, t)
    }),
    limit(24, "a constant's kind of 3", |r, t| {
        let form = form_of(r, t, 3, &[WITH_CONSTANT])?;
        put(t, 3, form, 4, 3)
    }),
    limit(24, "a constant's kind far over 2", |r, t| {
        let form = form_of(r, t, 3, &[WITH_CONSTANT])?;
        let kind = r.pick(&[256, 258, 32768, 65535]);
        put(t, 3, form, 4, kind)
    }),
    limit(
        24,
        "a constant's kind over 2, where nothing compares it",
        |r, t| {
            let attribute = any_attribute(r, t)?;
            let form = append_constant(r, t, attribute, true)?;
            let kind = kinds::unknown(r);
            put(t, 3, form.into(), 4, kind)
        },
    ),
    limit(24, "two constants' kinds over 2", |r, t| {
        unknown_kind_of_constant(r, t)?;
        unknown_kind_of_constant(r, t)
    }),
    limit(
        24,
        "an attribute's kind and a constant's kind over 2",
        |r, t| {
            unknown_kind_of_constant(r, t)?;
            unknown_kind(r, t)
        },
    ),
    limit(24, "and no configuration permitted", |r, t| {
        t.model = append(t, 0, &[0, 0, 0])? as u64;
        match r.chance(1, 2) {
            true => unknown_kind(r, t),
            false => unknown_kind_of_constant(r, t),
        }
    }),
    limit(24, "and a relation present nowhere", |r, t| {
        let expression = nowhere(r, t)?;
        append(t, 2, &[expression, 0])?;
        unknown_kind(r, t)
    }),
    limit(24, "and kinds differ", |r, t| {
        let comparison = append_clash(r, t)?;
        select_by(t, comparison)?;
        t.kinds.push(MOMENT);
        Some(())
    }),
    limit(12, "model false", |_, t| {
        t.model = append(t, 0, &[0, 0, 0])? as u64;
        Some(())
    }),
    limit(12, "model x and not x", |r, t| {
        let x = any(r, t, 0)? as u16;
        let not = append(t, 0, &[3, x, 0])? as u16;
        t.model = append(t, 0, &[4, x, not])? as u64;
        Some(())
    }),
    limit(12, "a form made false", |r, t| {
        let last = t.count(0) - 1;
        let form = r.below(last.min(t.model as usize) + 1);
        put(t, 0, form, 0, 0)?;
        put(t, 0, form, 1, 0)?;
        put(t, 0, form, 2, 0)
    }),
    limit(13, "relation present nowhere", |r, t| {
        let relation = any(r, t, 2)?;
        let expression = nowhere(r, t)?;
        put(t, 2, relation, 0, expression)
    }),
    limit(
        13,
        "and an entry of a later relation holds nowhere",
        |r, t| {
            let relation = any(r, t, 2)?;
            let later = any(r, t, 2)?;
            let expression = nowhere(r, t)?;
            put_in_list(r, t, later, expression)?;
            put(t, 2, relation, 0, expression)
        },
    ),
    limit(13, "a relation more, present nowhere", |r, t| {
        let expression = nowhere(r, t)?;
        append(t, 2, &[expression, 0]).map(|_| ())
    }),
    limit(
        13,
        "a model that holds only where a relation is absent",
        |r, t| {
            let relation = any(r, t, 2)?;
            let presence = t.relation(relation)[0];
            t.model = append(t, 0, &[3, presence, 0])? as u64;
            Some(())
        },
    ),
    limit(
        14,
        "entry holds only where its relation is absent",
        |r, t| {
            let relation = partly_present(r, t)?;
            let presence = t.relation(relation)[0];
            let not = append(t, 0, &[3, presence, 0])? as u16;
            put_in_list(r, t, relation, not)
        },
    ),
    limit(14, "and a later relation present nowhere", |r, t| {
        let relation = any(r, t, 2)?;
        let expression = nowhere(r, t)?;
        put_in_list(r, t, relation, expression)?;
        append(t, 2, &[expression, 0]).map(|_| ())
    }),
    limit(14, "two entries of a relation", |r, t| {
        let relation = any(r, t, 2)?;
        let expression = nowhere(r, t)?;
        put_in_list(r, t, relation, expression)?;
        put_in_list(r, t, relation, expression)
    }),
    limit(14, "entry holds at no permitted configuration", |r, t| {
        let relation = any(r, t, 2)?;
        let expression = nowhere(r, t)?;
        put_in_list(r, t, relation, expression)
    }),
    limit(14, "an attribute's second entry holds nowhere", |r, t| {
        let (_, [_, again]) = relation_again(r, t)?;
        let expression = nowhere(r, t)?;
        put(t, 1, again, 1, expression)
    }),
    limit(
        14,
        "an attribute's first entry holds nowhere, its second somewhere",
        |r, t| {
            let (_, [first, _]) = relation_again(r, t)?;
            let expression = nowhere(r, t)?;
            put(t, 1, first, 1, expression)
        },
    ),
    limit(
        14,
        "an attribute's second entry holds only where its relation is absent",
        |r, t| {
            let relation = partly_present(r, t)?;
            let [_, again] = list_again(r, t, List::Relation(relation))?;
            let presence = t.relation(relation)[0];
            let not = append(t, 0, &[3, presence, 0])? as u16;
            put(t, 1, again, 1, not)
        },
    ),
    limit(
        14,
        "an attribute three times, the last holds nowhere",
        |r, t| {
            let (relation, _) = relation_again(r, t)?;
            let [_, again] = list_again(r, t, List::Relation(relation))?;
            let expression = nowhere(r, t)?;
            put(t, 1, again, 1, expression)
        },
    ),
    limit(14, "a word turned", turn),
    limit(15, "a relation without its guard", |r, t| {
        let report = (t.count(4) - 1) as u16;
        let relation = partly_present(r, t)? as u16;
        let leaf = append(t, 4, &[1, relation, 0, 0])? as u16;
        let none = append(t, 4, &[3, 0, leaf, 0])? as u16;
        append(t, 4, &[5, none, report, 0]).map(|_| ())
    }),
    limit(15, "a word turned", turn),
    limit(16, "a select over the report", |r, t| {
        let kind = r.below(8) as u16;
        append_comparison(r, t, kind);
        append_query(r, t, 2).map(|_| ())
    }),
    limit(16, "a select by a comparison of two", |r, t| {
        while t.count(3) < 2 {
            append_comparison(r, t, 2)?;
        }
        let kind = r.between(4, 7) as u16;
        let comparison = append_comparison(r, t, kind)? as u16;
        let form = append_query(r, t, 2)?;
        put(t, 4, form, 1, comparison)
    }),
    limit(
        16,
        "and kinds differ in the form, at a lower configuration",
        |r, t| {
            let later = lacking(r, t, true)?;
            let clash = append_clash(r, t)?;
            let missing = append_constant(r, t, later, true)?;
            let kind = r.pick(&[5, 6]);
            let both = append(t, 3, &[kind, 0, clash, missing, 0])? as u16;
            select_by(t, both)
        },
    ),
    limit(
        16,
        "and kinds differ in the form, at the same configuration",
        |r, t| {
            let attribute = lacking(r, t, false)?;
            let clash = append_constant(r, t, attribute, false)?;
            select_by(t, clash)
        },
    ),
    limit(16, "and kinds differ in a higher form", |r, t| {
        let attribute = lacking(r, t, false)?;
        let clash = append_clash(r, t)?;
        select_lacking(r, t, attribute)?;
        select_by(t, clash)
    }),
    limit(16, "the reasons of an attribute turned", turn_reasons),
    limit(16, "a word turned", turn),
    limit(17, "a project over the report", |r, t| {
        append_query(r, t, 3).map(|_| ())
    }),
    limit(17, "an attribute's second entry turned", |r, t| {
        let [_, again] = project_again(r, t)?;
        let expression = any(r, t, 0)? as u16;
        put(t, 1, again, 1, expression)
    }),
    limit(
        17,
        "an attribute's first entry turned, with a second",
        |r, t| {
            let [first, _] = project_again(r, t)?;
            let expression = any(r, t, 0)? as u16;
            put(t, 1, first, 1, expression)
        },
    ),
    limit(17, "an attribute three times, the last turned", |r, t| {
        let form = form_of(r, t, 4, &[3])?;
        list_again(r, t, List::Project(form))?;
        let [_, again] = list_again(r, t, List::Project(form))?;
        let expression = any(r, t, 0)? as u16;
        put(t, 1, again, 1, expression)
    }),
    limit(17, "the reasons of an attribute turned", turn_reasons),
    limit(17, "a word turned", turn),
    limit(18, "a product over the report", |r, t| {
        append_query(r, t, 5).map(|_| ())
    }),
    limit(
        18,
        "a product shares by an attribute's second entry",
        |r, t| {
            let report = (t.count(4) - 1) as u16;
            let relation = any(r, t, 2)?;
            let list = relation_list(t, relation);
            if list.is_empty() || list.end > t.count(1) {
                return None;
            }
            let entry = t.entry(r.between(list.start, list.end - 1));
            let never = nowhere(r, t)?;
            append(t, 1, &[entry[0], never])?;
            append(t, 1, &entry)?;
            let leaf = append(t, 4, &[1, relation as u16, 0, 0])? as u16;
            let project = append(t, 4, &[3, 2, leaf, 0])? as u16;
            append(t, 4, &[5, report, project, 0]).map(|_| ())
        },
    ),
    limit(18, "a word turned", turn),
    limit(19, "a union or intersection over the report", |r, t| {
        let kind = r.pick(&[6, 7]);
        append_query(r, t, kind).map(|_| ())
    }),
    limit(19, "the reasons of an attribute turned", turn_reasons),
    limit(19, "a word turned", turn),
    limit(25, "a constant of another kind", |r, t| {
        let known = one_of(r, everywhere(t)?)?;
        let clash = append_constant(r, t, known, false)?;
        select_by(t, clash)
    }),
    limit(25, "an attribute of another kind", |r, t| {
        let clash = append_unlike(r, t)?;
        select_by(t, clash)
    }),
    limit(25, "a constant's kind turned", |r, t| {
        let form = form_of(r, t, 3, &[WITH_CONSTANT])?;
        let kind = t.comparison(form)[4] % 3;
        let kind = kinds::other(r, kind);
        put(t, 3, form, 4, kind)
    }),
    limit(25, "an attribute's kind turned", turn_kind),
    limit(25, "where a choice's expression holds", |r, t| {
        let expression = any(r, t, 0)? as u16;
        let choice = append_choice(r, t, expression, true)?;
        select_by(t, choice)
    }),
    limit(25, "where a choice's expression does not hold", |r, t| {
        let expression = any(r, t, 0)? as u16;
        let choice = append_choice(r, t, expression, false)?;
        select_by(t, choice)
    }),
    limit(25, "at one configuration alone", |r, t| {
        let (expression, there) = alone(r, t)?;
        let choice = append_choice(r, t, expression, there)?;
        select_by(t, choice)
    }),
    limit(
        25,
        "at one configuration alone, by a choice above",
        |r, t| {
            let report = t.count(4) - 1;
            let (expression, there) = alone(r, t)?;
            let clash = append_clash(r, t)?;
            select_by(t, clash)?;
            let [select, none] = [report + 1, append(t, 4, &[0, 0, 0, 0])?].map(|form| form as u16);
            let [b, c] = if there {
                [select, none]
            } else {
                [none, select]
            };
            append(t, 4, &[tables::CHOICE, expression, b, c]).map(|_| ())
        },
    ),
    limit(25, "under not, and, or", |r, t| {
        let clash = append_clash(r, t)?;
        let other = r.below(usize::from(clash) + 1) as u16;
        let form = r.pick(&[
            [4, 0, clash, 0, 0],
            [5, 0, clash, other, 0],
            [6, 0, other, clash, 0],
            [5, 0, clash, clash, 0],
        ]);
        let joined = append(t, 3, &form)? as u16;
        select_by(t, joined)
    }),
    limit(25, "at the end of a chain of forms joined twice", |r, t| {
        let mut last = append_clash(r, t)?;
        let most = r.pick(&[usize::from(last) + 2, 256]).min(RANGES[3].1);
        while t.count(3) < most {
            let kind = r.pick(&[5, 6]);
            last = append(t, 3, &[kind, 0, last, last, 0])? as u16;
        }
        select_by(t, last)
    }),
    limit(25, "of two attributes, in one form", |r, t| {
        let known = everywhere(t)?;
        let one = one_of(r, known)?;
        let other = one_of(r, known & !(1 << one))?;
        let clashes = [one, other].map(|attribute| append_constant(r, t, attribute, false));
        let both = append(t, 3, &[5, 0, clashes[0]?, clashes[1]?, 0])? as u16;
        select_by(t, both)
    }),
    limit(25, "and 16 in a higher form", |r, t| {
        let attribute = lacking(r, t, false)?;
        let clash = append_clash(r, t)?;
        select_by(t, clash)?;
        select_lacking(r, t, attribute)
    }),
    limit(
        25,
        "and in a higher form, at a lower configuration",
        |r, t| {
            let expression = any(r, t, 0)? as u16;
            let choice = append_choice(r, t, expression, true)?;
            let [_, _, _, clash, _] = t.comparison(choice.into());
            select_by(t, choice)?;
            select_by(t, clash)
        },
    ),
    limit(25, "a word turned", turn),
];
