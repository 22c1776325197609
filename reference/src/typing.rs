//! Checks 15 to 19 and 25 in the strict reading: the typing rules, one permitted
//! configuration at a time.

use std::ops::Range;

use crate::expression::Permitted;
use crate::form::Lists;
use crate::refusal::Refusal;
use crate::tables::{self, Tables};

/// A set of attributes: bit a is attribute a.
pub type Set = u64;

/// A broken rule: its number and the item at fault.
struct Fault {
    number: u64,
    item: u64,
}

/// The set of the whole report at each permitted configuration, in their
/// order; or the fault of "the lowest form that fails, its lowest failing
/// configuration, and the lowest attribute number at fault there".
pub fn check(tables: &Tables, lists: &Lists, permitted: &[Permitted]) -> Result<Vec<Set>, Refusal> {
    let mut columns = Vec::with_capacity(permitted.len());
    let mut worst: Option<Refusal> = None;
    for at in permitted {
        match report_at(tables, lists, at) {
            Ok(set) => columns.push(set),
            // The configurations ascend, so of faults that are alike the first stays.
            Err(fault) if worst.is_none_or(|old| comes_before(&fault, &old)) => {
                worst = Some(fault);
            }
            Err(_) => {}
        }
    }
    match worst {
        None => Ok(columns),
        Some(fault) => Err(fault),
    }
}

/// Does a fault come before one of a lower configuration? That of a lower form does,
/// and in one form 16 comes before 25, which is looked for "only when 16 fails there at
/// no configuration". Of other numbers a form has one.
fn comes_before(fault: &Refusal, other: &Refusal) -> bool {
    (fault.place, fault.number) < (other.place, other.number)
}

/// The set of the report at one configuration, or its lowest failing form
/// there. Nothing above that form is looked at: a broken form has no set.
pub fn report_at(tables: &Tables, lists: &Lists, at: &Permitted) -> Result<Set, Refusal> {
    let reached = reached_at(tables, &at.holds);
    let compared = Compared::at(tables, &at.holds);
    let mut sets: Vec<Set> = vec![0; tables.count(4)];
    for form in 0..sets.len() {
        if !reached[form] {
            continue;
        }
        match set_of_form(tables, lists, &at.holds, &compared, &sets, form) {
            Ok(set) => sets[form] = set,
            Err(Fault { number, item }) => {
                let place = form as u64;
                return Err(Refusal::new(number, place, item, at.configuration));
            }
        }
    }
    Ok(sets[sets.len() - 1])
}

/// Which query forms are reached, given what the expressions say. The report is
/// the last form; "a choice passes to b those where a holds, to c the others;
/// every other form passes on all its own". Operands are lower: one descending
/// pass.
pub fn reached_at(tables: &Tables, holds: &[bool]) -> Vec<bool> {
    let count = tables.count(4);
    let mut reached = vec![false; count];
    reached[count - 1] = true;
    for form in (0..count).rev() {
        if !reached[form] {
            continue;
        }
        let query = tables.query(form);
        let [kind, a, b, c] = query.map(usize::from);
        if kind as u16 == tables::CHOICE {
            reached[if holds[a] { b } else { c }] = true;
        } else {
            for operand in tables::operands(query) {
                reached[operand] = true;
            }
        }
    }
    reached
}

/// What each comparison names and where its kinds differ, at one configuration.
pub(crate) struct Compared {
    /// "Every attribute that the comparison names there, its choices taken".
    pub(crate) named: Vec<Set>,
    /// The left attributes of the comparisons in it whose sides differ in kind.
    pub(crate) clashing: Vec<Set>,
}

impl Compared {
    pub(crate) fn at(tables: &Tables, holds: &[bool]) -> Compared {
        let named = joined_over(tables, holds, |comparison| match comparison {
            [tables::WITH_CONSTANT, _, a, ..] => 1 << a,
            [tables::WITH_ATTRIBUTE, _, a, b, _] => 1 << a | 1 << b,
            _ => 0,
        });
        let clashing = joined_over(tables, holds, |comparison| {
            let [_, _, left, ..] = comparison;
            match sides(tables, comparison) {
                Some([one, other]) if one != other => 1 << left,
                _ => 0,
            }
        });
        Compared { named, clashing }
    }
}

/// The kinds of a comparison's two sides, where it has sides.
fn sides(tables: &Tables, [kind, _, a, b, c]: [u16; 5]) -> Option<[u16; 2]> {
    let of = |attribute: u16| tables.kinds[usize::from(attribute)];
    match kind {
        tables::WITH_CONSTANT => Some([of(a), c]),
        tables::WITH_ATTRIBUTE => Some([of(a), of(b)]),
        _ => None,
    }
}

/// For every comparison the attributes of those that it is made of, its choices
/// taken: one ascending pass. `own` gives those of a comparison without operands.
fn joined_over(tables: &Tables, holds: &[bool], own: impl Fn([u16; 5]) -> Set) -> Vec<Set> {
    let mut joined: Vec<Set> = Vec::with_capacity(tables.count(3));
    for form in 0..tables.count(3) {
        let comparison = tables.comparison(form);
        let [kind, _, a, b, c] = comparison.map(usize::from);
        let set = match kind {
            0..=3 => own(comparison),
            4 => joined[a],
            5 | 6 => joined[a] | joined[b],
            7 if holds[a] => joined[b],
            7 => joined[c],
            _ => panic!("check 7 lets no other kind pass"),
        };
        joined.push(set);
    }
    joined
}

/// One typing rule: the set of a reached form, its operands' sets being known.
fn set_of_form(
    tables: &Tables,
    lists: &Lists,
    holds: &[bool],
    compared: &Compared,
    sets: &[Set],
    form: usize,
) -> Result<Set, Fault> {
    let query = tables.query(form);
    let [_, a, b, c] = query.map(usize::from);
    match query[0] {
        tables::EMPTY => Ok(0),
        tables::RELATION => {
            let presence = usize::from(tables.relation(a)[0]);
            let list = joined(tables, &lists.relations[a], holds);
            keeps(holds[presence], 15, a as u64, list)
        }
        tables::SELECT => {
            let set = none_at_fault(16, compared.named[a] & !sets[b], sets[b])?;
            none_at_fault(25, compared.clashing[a], set)
        }
        tables::PROJECT => {
            let list = joined(tables, &lists.queries[form], holds);
            none_at_fault(17, list & !sets[b], list)
        }
        tables::CHOICE => Ok(if holds[a] { sets[b] } else { sets[c] }),
        tables::PRODUCT => none_at_fault(18, sets[a] & sets[b], sets[a] | sets[b]),
        tables::UNION | tables::INTERSECTION => none_at_fault(19, sets[a] ^ sets[b], sets[a]),
        _ => panic!("check 8 lets no other kind pass"),
    }
}

/// The attributes of a list's entries whose expression holds: one that occurs
/// more than once "is there when any of its entries holds".
pub(crate) fn joined(tables: &Tables, list: &Range<usize>, holds: &[bool]) -> Set {
    let mut set = 0;
    for number in list.clone() {
        let [attribute, expression] = tables.entry(number);
        if holds[usize::from(expression)] {
            set |= 1 << attribute;
        }
    }
    set
}

fn keeps(rule: bool, number: u64, item: u64, set: Set) -> Result<Set, Fault> {
    if rule {
        Ok(set)
    } else {
        Err(Fault { number, item })
    }
}

/// The rule is kept when no attribute is at fault; else the lowest one is the
/// item.
fn none_at_fault(number: u64, at_fault: Set, set: Set) -> Result<Set, Fault> {
    let lowest = u64::from(at_fault.trailing_zeros());
    keeps(at_fault == 0, number, lowest, set)
}
