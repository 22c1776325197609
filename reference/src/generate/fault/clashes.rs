//! Steps towards the faults that have to do with kinds: 24, 25, and others beside them.

use super::{append, form_of, kind_of, put};
use crate::check;
use crate::expression;
use crate::form;
use crate::generate::build::bits;
use crate::generate::kinds;
use crate::random::Random;
use crate::reading::Reading;
use crate::tables::{Tables, COMPARISON_CHOICE, MOMENT, SELECT};
use crate::tables::{WITH_ATTRIBUTE, WITH_CONSTANT};
use crate::typing::Set;

/// Cuts the kind table, or lengthens it, to a number of words that is not its own.
pub fn kinds_of_length(tables: &mut Tables, words: usize) -> Option<()> {
    if tables.kinds.len() == words {
        return None;
    }
    tables.kinds.resize(words, MOMENT);
    Some(())
}

/// A kind over 2 in the kind table.
pub fn unknown_kind(random: &mut Random, tables: &mut Tables) -> Option<()> {
    if tables.kinds.is_empty() {
        return None;
    }
    let word = random.below(tables.kinds.len());
    tables.kinds[word] = kinds::unknown(random);
    Some(())
}

/// A constant of a kind over 2, in a comparison that is there or a new one.
pub fn unknown_kind_of_constant(random: &mut Random, tables: &mut Tables) -> Option<()> {
    let form = form_of(random, tables, 3, &[WITH_CONSTANT])?;
    let kind = kinds::unknown(random);
    put(tables, 3, form, 4, kind)
}

/// The columns of accepted tables at each permitted configuration.
fn columns(tables: &Tables) -> Option<Vec<Set>> {
    check::accepted(tables, Reading::Strict)
        .ok()
        .map(|accepted| accepted.columns)
}

/// The columns that accepted tables have at every permitted configuration.
pub fn everywhere(tables: &Tables) -> Option<Set> {
    columns(tables).as_deref().map(in_all)
}

fn in_all(columns: &[Set]) -> Set {
    columns.iter().fold(Set::MAX, |every, set| every & set)
}

/// An attribute out of a set, if it has any.
pub fn one_of(random: &mut Random, set: Set) -> Option<u16> {
    let attributes = bits(set);
    (!attributes.is_empty()).then(|| random.pick(&attributes))
}

/// The set of the given attributes whose kind is another than the given one's.
fn unlike(tables: &Tables, attribute: u16, of: Set) -> Set {
    let kind = kind_of(tables, attribute);
    let others = bits(of).into_iter();
    let others = others.filter(|&other| kind_of(tables, other) != kind);
    others.fold(0, |set, other| set | 1 << other)
}

/// Have accepted tables columns of more than one kind everywhere?
pub fn has_two_kinds(tables: &Tables) -> bool {
    let known = everywhere(tables).unwrap_or(0);
    let first = known.trailing_zeros() as u16;
    known != 0 && unlike(tables, first, known) != 0
}

/// A new comparison of two attributes of different kinds that the report has
/// everywhere.
pub fn append_unlike(random: &mut Random, tables: &mut Tables) -> Option<u16> {
    let known = everywhere(tables)?;
    let left = one_of(random, known)?;
    let right = one_of(random, unlike(tables, left, known))?;
    let operator = random.below(6) as u16;
    append(tables, 3, &[WITH_ATTRIBUTE, operator, left, right, 0]).map(|form| form as u16)
}

/// A new comparison of the attribute with a constant, of its kind or of another.
pub fn append_constant(
    random: &mut Random,
    tables: &mut Tables,
    attribute: u16,
    alike: bool,
) -> Option<u16> {
    let own = kind_of(tables, attribute);
    let kind = match alike {
        true => own,
        false => kinds::other(random, own),
    };
    let operator = random.below(6) as u16;
    let form = [WITH_CONSTANT, operator, attribute, 7, kind];
    append(tables, 3, &form).map(|form| form as u16)
}

/// A new comparison of two kinds, in an attribute that the report has everywhere.
pub fn append_clash(random: &mut Random, tables: &mut Tables) -> Option<u16> {
    if random.chance(1, 2) {
        if let Some(comparison) = append_unlike(random, tables) {
            return Some(comparison);
        }
    }
    let known = one_of(random, everywhere(tables)?)?;
    append_constant(random, tables, known, false)
}

/// A new comparison of one kind, in an attribute that the report has everywhere.
fn append_match(random: &mut Random, tables: &mut Tables) -> Option<u16> {
    let known = one_of(random, everywhere(tables)?)?;
    append_constant(random, tables, known, true)
}

/// A select by the comparison, over the report; it becomes the report.
pub fn select_by(tables: &mut Tables, comparison: u16) -> Option<()> {
    let report = tables.count(4).checked_sub(1)? as u16;
    append(tables, 4, &[SELECT, comparison, report, 0]).map(|_| ())
}

/// A new comparison of two kinds where the expression holds, or elsewhere.
pub fn append_choice(
    random: &mut Random,
    tables: &mut Tables,
    expression: u16,
    there: bool,
) -> Option<u16> {
    let clash = append_clash(random, tables)?;
    let alike = append_match(random, tables)?;
    let [b, c] = if there {
        [clash, alike]
    } else {
        [alike, clash]
    };
    let form = [COMPARISON_CHOICE, 0, expression, b, c];
    append(tables, 3, &form).map(|form| form as u16)
}

/// An expression that holds at one permitted configuration of several; or that holds
/// at all of them but one, and false.
pub fn alone(random: &mut Random, tables: &Tables) -> Option<(u16, bool)> {
    form::check(tables).ok()?;
    let permitted = expression::permitted(tables);
    let mut found = Vec::new();
    for form in 0..tables.count(0) {
        let there = permitted.iter().filter(|at| at.holds[form]).count();
        if permitted.len() > 1 && there == 1 {
            found.push((form as u16, true));
        } else if permitted.len() > 1 && there + 1 == permitted.len() {
            found.push((form as u16, false));
        }
    }
    (!found.is_empty()).then(|| random.pick(&found))
}

/// An attribute that some permitted configuration lacks; or one that the lowest has
/// and a later one lacks.
pub fn lacking(random: &mut Random, tables: &Tables, lowest_has: bool) -> Option<u16> {
    let columns = columns(tables)?;
    let among = match lowest_has {
        true => columns[0],
        false => Set::MAX,
    };
    let attributes = bits(among & !in_all(&columns)).into_iter();
    let below_m = attributes.filter(|&a| u64::from(a) < tables.attributes);
    one_of(random, below_m.fold(0, |set, a| set | 1 << a))
}

/// A select by an attribute that the report lacks somewhere.
pub fn select_lacking(random: &mut Random, tables: &mut Tables, attribute: u16) -> Option<()> {
    let comparison = append_constant(random, tables, attribute, true)?;
    select_by(tables, comparison)
}
