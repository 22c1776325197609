//! Another way to the first fault of the filled reading: form by form with trees, and
//! attribute by attribute with sorted sets. It shares nothing with `filled` but `plain`.

use std::collections::BTreeMap;
use std::ops::Range;

use reference::form::{self, Lists};
use reference::plain::{self, Attributes};
use reference::tables::{PROJECT, RELATION};
use reference::{expression, Reading, Refusal, Tables};

/// An attribute of a list, with the expressions of its entries.
type Item = (u16, Vec<u16>);

/// A configuration, and an attribute at fault there.
type Fault = (u64, u16);

/// What a program makes of a form that has to be found somewhere.
pub struct Way {
    pub words: &'static str,
    /// The configurations that count for a form, given those that reach it.
    counted: fn(&Report, usize, Vec<u64>) -> Vec<u64>,
    /// What counts as one item of a project list: its entries of one attribute.
    items: fn(&Tables, Range<usize>) -> Vec<Item>,
    /// Of several attributes at fault, with their lowest configurations, the one named.
    named: fn(&[Fault]) -> Option<Fault>,
    /// Is an item refused that is found at so many of so many places?
    refused: fn(usize, usize) -> bool,
}

pub const RIGHT: Way = Way {
    words: "missing at all places where it is listed and reached",
    counted: |_, _, reached| reached,
    items: joined,
    named: |faults| faults.iter().min().copied(),
    refused: |found, places| found == 0 && places > 0,
};

/// The wrong programs that the cases have to tell from the right one.
pub const WRONG: [Way; 7] = [
    Way {
        words: "missing at one place",
        refused: |found, places| found < places,
        ..RIGHT
    },
    Way {
        words: "found nowhere, listed or not",
        refused: |found, _| found == 0,
        ..RIGHT
    },
    Way {
        words: "found also where it is not reached",
        counted: |report, _, reached| match reached.is_empty() {
            true => reached,
            false => report.permitted.clone(),
        },
        ..RIGHT
    },
    Way {
        words: "each entry by itself",
        items: |tables, list| {
            let entries = list.map(|number| tables.entry(number));
            entries.map(|[attribute, e]| (attribute, vec![e])).collect()
        },
        ..RIGHT
    },
    Way {
        words: "the lowest attribute, then its lowest configuration",
        named: |faults| faults.iter().min_by_key(|fault| fault.1).copied(),
        ..RIGHT
    },
    Way {
        words: "all but the last configuration that reaches it",
        counted: |_, _, mut reached| {
            if reached.len() > 1 {
                reached.pop();
            }
            reached
        },
        ..RIGHT
    },
    Way {
        words: "the first 64 permitted ones alone",
        counted: |report, _, mut reached| {
            reached.retain(|c| report.permitted.iter().take(64).any(|p| p == c));
            reached
        },
        ..RIGHT
    },
];

/// The attributes of a list, each with the expressions of its entries.
fn joined(tables: &Tables, list: Range<usize>) -> Vec<Item> {
    let mut entries: BTreeMap<u16, Vec<u16>> = BTreeMap::new();
    for [attribute, expression] in list.map(|number| tables.entry(number)) {
        entries.entry(attribute).or_default().push(expression);
    }
    entries.into_iter().collect()
}

/// Tables sound in form and schema.
pub struct Report<'a> {
    tables: &'a Tables,
    lists: Lists,
    permitted: Vec<u64>,
}

impl Report<'_> {
    pub fn of(tables: &Tables) -> Report<'_> {
        let permitted = expression::permitted(tables);
        Report {
            tables,
            lists: form::check(tables).expect("sound in form"),
            permitted: permitted.iter().map(|at| at.configuration).collect(),
        }
    }

    /// The fault of the lowest form that has one.
    pub fn first_fault(&self, way: &Way) -> Option<Refusal> {
        (0..self.tables.count(4)).find_map(|form| self.fault(way, form))
    }

    fn fault(&self, way: &Way, form: usize) -> Option<Refusal> {
        let reaches = |c: &&u64| plain::reached(self.tables, **c).contains(&form);
        let reached: Vec<u64> = self.permitted.iter().filter(reaches).copied().collect();
        match self.tables.query(form) {
            [RELATION, relation, ..] => self.absent(way, form, relation, reached),
            [PROJECT, _, of, _] => self.missing(way, form, usize::from(of), reached),
            _ => self.broken(form, &reached),
        }
    }

    fn holds(&self, expression: u16, c: u64) -> bool {
        expression::values(self.tables, c)[usize::from(expression)]
    }

    fn absent(&self, way: &Way, form: usize, relation: u16, reached: Vec<u64>) -> Option<Refusal> {
        let presence = self.tables.relation(relation.into())[0];
        let places = (way.counted)(self, form, reached);
        let is_there = |c: &&u64| self.holds(presence, **c);
        let found = places.iter().filter(is_there).count();
        let first = places.iter().find(|c| !is_there(c))?;
        let refused = (way.refused)(found, places.len());
        refused.then(|| Refusal::new(15, form as u64, relation.into(), *first))
    }

    fn missing(&self, way: &Way, form: usize, of: usize, reached: Vec<u64>) -> Option<Refusal> {
        let mut places = Vec::new();
        for c in (way.counted)(self, form, reached) {
            // Where it is not reached, some program may look at a tree that does not pass.
            let columns = self.columns(of, c).unwrap_or_default();
            places.push((c, columns));
        }
        let mut faults = Vec::new();
        for (attribute, reasons) in (way.items)(self.tables, self.lists.queries[form].clone()) {
            let listed = |c: u64| reasons.iter().any(|&e| self.holds(e, c));
            let listed = places.iter().filter(|(c, _)| listed(*c));
            let listed: Vec<&(u64, Attributes)> = listed.collect();
            let lacking = listed.iter().filter(|(_, all)| !all.contains(&attribute));
            let lacking: Vec<u64> = lacking.map(|(c, _)| *c).collect();
            if (way.refused)(listed.len() - lacking.len(), listed.len()) {
                let first = lacking.first().or(places.first().map(|(c, _)| c));
                faults.extend(first.map(|&c| (c, attribute)));
            }
        }
        let (c, attribute) = (way.named)(&faults)?;
        Some(Refusal::new(17, form as u64, attribute.into(), c))
    }

    /// The columns of a form's own tree there.
    fn columns(&self, form: usize, c: u64) -> Option<Attributes> {
        plain::configured_form(self.tables, Reading::Filled, &self.lists, c, form).columns()
    }

    /// What another form breaks at its lowest configuration, but 25 only where it breaks
    /// nothing else at any.
    fn broken(&self, form: usize, reached: &[u64]) -> Option<Refusal> {
        let mut faults = Vec::new();
        for &c in reached {
            let tree = plain::configured_form(self.tables, Reading::Filled, &self.lists, c, form);
            if tree.columns().is_none() {
                let (rule, item) = tree.broken_on_top()?;
                faults.push(Refusal::new(rule, form as u64, item.into(), c));
            }
        }
        let other = faults.iter().find(|fault| fault.number != 25);
        other.or(faults.first()).copied()
    }
}
