//! Readings of the kinds, the right one and wrong ones. A reading's answer is made of
//! that for the same tables in which all kinds are 0, so that no kinds differ there,
//! and of a search of its own for 24 and 25.

use std::collections::BTreeSet;

use reference::refusal::{is_of_form, is_of_typing};
use reference::small::{self, Case};
use reference::tables::{COMPARISON_CHOICE, SELECT, WITH_ATTRIBUTE, WITH_CONSTANT};
use reference::{expression, form, plain, Refusal, Tables};

/// What a program makes of the kinds.
pub struct Reading {
    pub words: &'static str,
    /// The place of 24, if it finds something.
    over: fn(&Tables) -> Option<usize>,
    /// Does 24 come before a refusal of other numbers?
    over_comes_before: fn(u64) -> bool,
    /// The comparison forms that a comparison is made of at a configuration.
    under: fn(&Tables, u16, &[bool]) -> BTreeSet<u16>,
    /// The item of a comparison whose kinds differ, if they do.
    item: fn(&Tables, [u16; 5]) -> Option<u16>,
    /// The item of several.
    of_several: fn(&BTreeSet<u16>) -> Option<u16>,
    /// Is a form looked at there?
    looks_at: fn(&At, usize) -> bool,
    /// The place of 25, given the select and its comparison.
    place: fn(usize, u16) -> u64,
    /// Does 25 come before the other typing fault?
    comes_before: fn(&Refusal, &Refusal) -> bool,
}

/// A configuration, and what is known of it whatever the reading.
struct At {
    configuration: u64,
    holds: Vec<bool>,
    /// The query forms reached.
    reached: BTreeSet<usize>,
    is_permitted: bool,
    /// Is it the lowest permitted one?
    is_lowest: bool,
}

pub const RIGHT: Reading = Reading {
    words: "both sides have one kind",
    over: |tables| over(tables, |length, m| length != m, |kind| kind > 2, |_| true),
    over_comes_before: |number| !is_of_form(number),
    under: |tables, comparison, holds| taken(tables, comparison, |a| [holds[a], !holds[a]]),
    item: |tables, comparison| left_of_two_kinds(tables, comparison),
    of_several: |items| items.first().copied(),
    looks_at: |at, select| at.is_permitted && at.reached.contains(&select),
    place: |select, _| select as u64,
    comes_before: |fault, other| fault.place < other.place,
};

/// The wrong programs that the cases have to tell from the right one.
pub const WRONG: [Reading; 29] = [
    Reading {
        words: "a longer kind table let through",
        over: |tables| over(tables, |length, m| length < m, |kind| kind > 2, |_| true),
        ..RIGHT
    },
    Reading {
        words: "a kind table of 64 words let through",
        over: |tables| {
            let wrong = |length, m| length != m && length != 64;
            over(tables, wrong, |kind| kind > 2, |_| true)
        },
        ..RIGHT
    },
    Reading {
        words: "kind 3 let through",
        over: |tables| over(tables, |length, m| length != m, |kind| kind > 3, |_| true),
        ..RIGHT
    },
    Reading {
        words: "kinds in eight bits",
        over: |tables| {
            let wrong = |kind| kind % 256 > 2;
            over(tables, |length, m| length != m, wrong, |_| true)
        },
        ..RIGHT
    },
    Reading {
        words: "a kind over 2 before the length",
        over: |tables| {
            let word = tables.kinds.iter().position(|&kind| kind > 2);
            word.or_else(|| (RIGHT.over)(tables))
        },
        ..RIGHT
    },
    Reading {
        words: "constants of any kind let through",
        over: |tables| over(tables, |length, m| length != m, |kind| kind > 2, |_| false),
        ..RIGHT
    },
    Reading {
        words: "constants over 2 only where a query names them",
        over: |tables| {
            let length = |length, m| length != m;
            let named = named(tables);
            over(
                tables,
                length,
                |kind| kind > 2,
                |form| named.contains(&form),
            )
        },
        ..RIGHT
    },
    Reading {
        words: "constants before the kind table",
        over: |tables| constant_over_2(tables).or_else(|| (RIGHT.over)(tables)),
        ..RIGHT
    },
    Reading {
        words: "24 before 10",
        over_comes_before: |number| number > 9,
        ..RIGHT
    },
    Reading {
        words: "24 after 11",
        over_comes_before: |number| number > 11 && !is_of_form(number),
        ..RIGHT
    },
    Reading {
        words: "24 after 12",
        over_comes_before: |number| number > 12 && !is_of_form(number),
        ..RIGHT
    },
    Reading {
        words: "24 after 14",
        over_comes_before: |number| number > 14 && !is_of_form(number),
        ..RIGHT
    },
    Reading {
        words: "kinds never differ",
        item: |_, _| None,
        ..RIGHT
    },
    Reading {
        words: "constants have the kind that is wanted",
        item: |tables, comparison| match comparison[0] {
            WITH_CONSTANT => None,
            _ => left_of_two_kinds(tables, comparison),
        },
        ..RIGHT
    },
    Reading {
        words: "only constants have kinds",
        item: |tables, comparison| match comparison[0] {
            WITH_ATTRIBUTE => None,
            _ => left_of_two_kinds(tables, comparison),
        },
        ..RIGHT
    },
    Reading {
        words: "the constant itself is the kind",
        item: |tables, comparison| match comparison {
            [WITH_CONSTANT, _, a, b, _] => (tables.kinds[usize::from(a)] != b).then_some(a),
            _ => left_of_two_kinds(tables, comparison),
        },
        ..RIGHT
    },
    Reading {
        words: "the lower side is the item",
        item: |tables, comparison| {
            let left = left_of_two_kinds(tables, comparison)?;
            match comparison {
                [WITH_ATTRIBUTE, _, _, b, _] => Some(left.min(b)),
                _ => Some(left),
            }
        },
        ..RIGHT
    },
    Reading {
        words: "the highest attribute is the item",
        of_several: |items| items.last().copied(),
        ..RIGHT
    },
    Reading {
        words: "both alternatives of a choice",
        under: |tables, comparison, _| taken(tables, comparison, |_| [true, true]),
        ..RIGHT
    },
    Reading {
        words: "the other alternative of a choice",
        under: |tables, comparison, holds| taken(tables, comparison, |a| [!holds[a], holds[a]]),
        ..RIGHT
    },
    Reading {
        words: "every comparison, selected or not",
        under: |tables, _, _| (0..tables.count(3) as u16).collect(),
        ..RIGHT
    },
    Reading {
        words: "the selected form alone, nothing under it",
        under: |_, comparison, _| BTreeSet::from([comparison]),
        ..RIGHT
    },
    Reading {
        words: "at the lowest permitted configuration only",
        looks_at: |at, select| at.is_lowest && at.reached.contains(&select),
        ..RIGHT
    },
    Reading {
        words: "at configurations that are not permitted too",
        looks_at: |at, select| at.reached.contains(&select),
        ..RIGHT
    },
    Reading {
        words: "where the select is not reached too",
        looks_at: |at, _| at.is_permitted,
        ..RIGHT
    },
    Reading {
        words: "the comparison is the place",
        place: |_, comparison| comparison.into(),
        ..RIGHT
    },
    Reading {
        words: "in one form the lowest configuration first, whether 16 or 25",
        comes_before: |fault, other| {
            let at = |fault: &Refusal| (fault.place, fault.configuration);
            at(fault) < at(other)
        },
        ..RIGHT
    },
    Reading {
        words: "in one form 25 first",
        comes_before: |fault, other| fault.place <= other.place,
        ..RIGHT
    },
    Reading {
        words: "25 after all other typing faults",
        comes_before: |_, _| false,
        ..RIGHT
    },
];

/// The place of 24, by what is wrong of a length and of a kind, and of which
/// comparisons the constants count.
fn over(
    tables: &Tables,
    length: impl Fn(u64, u64) -> bool,
    kind: impl Fn(u16) -> bool,
    counts: impl Fn(u16) -> bool,
) -> Option<usize> {
    if length(tables.kinds.len() as u64, tables.attributes) {
        return Some(0);
    }
    let word = tables.kinds.iter().position(|&word| kind(word));
    let constants = (0..tables.count(3)).find(|&form| {
        let [what, .., c] = tables.comparison(form);
        what == WITH_CONSTANT && kind(c) && counts(form as u16)
    });
    word.or(constants)
}

pub fn constant_over_2(tables: &Tables) -> Option<usize> {
    let is_over = |&form: &usize| {
        let [kind, .., c] = tables.comparison(form);
        kind == WITH_CONSTANT && c > 2
    };
    (0..tables.count(3)).find(is_over)
}

/// The comparisons that selects name, and those that they are made of.
pub fn named(tables: &Tables) -> BTreeSet<u16> {
    let mut named = BTreeSet::new();
    for form in 0..tables.count(4) {
        if let [SELECT, a, ..] = tables.query(form) {
            named.extend(taken(tables, a, |_| [true, true]));
        }
    }
    named
}

/// The forms that a comparison is made of; `alternatives` says which ones of a choice
/// on an expression.
fn taken(
    tables: &Tables,
    comparison: u16,
    alternatives: impl Fn(usize) -> [bool; 2],
) -> BTreeSet<u16> {
    let mut found = BTreeSet::from([comparison]);
    let mut waiting = vec![comparison];
    while let Some(form) = waiting.pop() {
        let [kind, _, a, b, c] = tables.comparison(usize::from(form));
        let operands = match kind {
            4 => vec![a],
            5 | 6 => vec![a, b],
            COMPARISON_CHOICE => {
                let both = [b, c].into_iter().zip(alternatives(usize::from(a)));
                let both = both.filter(|(_, is_taken)| *is_taken);
                both.map(|(operand, _)| operand).collect()
            }
            _ => vec![],
        };
        waiting.extend(operands.into_iter().filter(|&o| found.insert(o)));
    }
    found
}

pub fn left_of_two_kinds(tables: &Tables, [kind, _, a, b, c]: [u16; 5]) -> Option<u16> {
    let of = |attribute: u16| tables.kinds.get(usize::from(attribute)).copied();
    let differ = match kind {
        WITH_CONSTANT => of(a) != Some(c),
        WITH_ATTRIBUTE => of(a) != of(b),
        _ => false,
    };
    differ.then_some(a)
}

/// All configurations, ascending.
fn everywhere(tables: &Tables) -> Vec<At> {
    let permitted = expression::permitted(tables);
    let lowest = permitted.first().map(|at| at.configuration);
    let at = |configuration| {
        let holds = expression::values(tables, configuration);
        At {
            configuration,
            reached: plain::reached(tables, configuration),
            is_permitted: holds[tables.model as usize],
            is_lowest: Some(configuration) == lowest,
            holds,
        }
    };
    (0..tables.configurations()).map(at).collect()
}

/// What a program with the reading answers. None for a text.
pub fn answer(case: &Case, reading: &Reading) -> Option<String> {
    let mut as_before = case.clone();
    let tables = match &mut as_before {
        Case::Check { tables, .. }
        | Case::Configure { tables, .. }
        | Case::Find { tables, .. }
        | Case::Page { tables, .. } => tables,
        Case::Text(_) => return None,
    };
    let own = tables.clone();
    *tables = without_kinds(&own);
    let before = small::answer(&as_before);
    let first = first_of(reading, &own, refusal_of(&before));
    Some(match first {
        Some(Refusal {
            number,
            place,
            item,
            configuration,
        }) => format!("refused {number} {place} {item} {configuration}"),
        // Constants keep their kinds.
        None if before.starts_with("written") => small::answer(case),
        None => before,
    })
}

/// The tables with all kinds 0, those of constants too.
pub fn without_kinds(tables: &Tables) -> Tables {
    let mut tables = tables.clone().of_moments();
    for form in tables.comparisons.chunks_exact_mut(5) {
        if form[0] == WITH_CONSTANT {
            form[4] = 0;
        }
    }
    tables
}

fn refusal_of(answer: &str) -> Option<Refusal> {
    let fields = answer.strip_prefix("refused ")?.split(' ');
    let fields: Vec<u64> = fields.map(|field| field.parse().unwrap()).collect();
    Some(Refusal::new(fields[0], fields[1], fields[2], fields[3]))
}

/// The refusal of tables that would else have the given one, or none.
fn first_of(reading: &Reading, tables: &Tables, before: Option<Refusal>) -> Option<Refusal> {
    let number = before.map_or(u64::MAX, |refusal| refusal.number);
    if (reading.over_comes_before)(number) && number > 9 {
        if let Some(place) = (reading.over)(tables) {
            return Some(Refusal::at(24, place));
        }
    }
    let gets_to_typing = number > 19 || is_of_typing(number);
    if !gets_to_typing || form::check(&without_kinds(tables)).is_err() {
        return before;
    }
    match (kinds_differ(reading, tables), before) {
        (Some(fault), Some(other)) if is_of_typing(other.number) => {
            let first = (reading.comes_before)(&fault, &other);
            Some(if first { fault } else { other })
        }
        (Some(fault), _) => Some(fault),
        (None, before) => before,
    }
}

/// The lowest form in which kinds differ, at the lowest configuration.
pub fn kinds_differ(reading: &Reading, tables: &Tables) -> Option<Refusal> {
    // Most tables have no such comparison, and need no search.
    let mut forms = (0..tables.count(3)).map(|form| tables.comparison(form));
    if !forms.any(|form| (reading.item)(tables, form).is_some()) {
        return None;
    }
    let everywhere = everywhere(tables);
    for select in 0..tables.count(4) {
        let [kind, comparison, ..] = tables.query(select);
        if kind != SELECT {
            continue;
        }
        for at in everywhere
            .iter()
            .filter(|at| (reading.looks_at)(at, select))
        {
            let forms = (reading.under)(tables, comparison, &at.holds).into_iter();
            let forms = forms.map(|form| tables.comparison(usize::from(form)));
            let items = forms.filter_map(|form| (reading.item)(tables, form));
            if let Some(item) = (reading.of_several)(&items.collect()) {
                let place = (reading.place)(select, comparison);
                return Some(Refusal::new(25, place, item.into(), at.configuration));
            }
        }
    }
    None
}
