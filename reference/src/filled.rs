//! Typing in the filled reading: "an absent relation counts as empty and a projected
//! attribute is dropped where its operand lacks it".
//!
//! Whether a relation form or a project fails depends on all configurations that reach
//! it, so the sets of all forms are worked out everywhere first, and the forms are then
//! judged one after another.

use crate::expression::Permitted;
use crate::form::Lists;
use crate::refusal::Refusal;
use crate::tables::{self, Tables};
use crate::typing::{self, Compared, Set};

/// A permitted configuration, with what is known of the report there.
struct Place<'a> {
    at: &'a Permitted,
    reached: Vec<bool>,
    compared: Compared,
    sets: Vec<Set>,
}

/// The set of the whole report at each permitted configuration, in their order; or the
/// fault of the lowest form that fails.
pub fn check(tables: &Tables, lists: &Lists, permitted: &[Permitted]) -> Result<Vec<Set>, Refusal> {
    let place = |at| Place {
        at,
        reached: typing::reached_at(tables, &at.holds),
        compared: Compared::at(tables, &at.holds),
        sets: sets_at(tables, lists, at),
    };
    let report = Report {
        tables,
        lists,
        places: permitted.iter().map(place).collect(),
    };
    let last = tables.count(4) - 1;
    match (0..=last).find_map(|form| report.fault(form)) {
        Some(fault) => Err(fault),
        None => Ok(report.places.iter().map(|p| p.sets[last]).collect()),
    }
}

/// The set of every form at one configuration. Where a form breaks its rule, it has none,
/// and what stands here in its place, and above it, is never looked at: no form is judged
/// when a lower one fails. The same goes for forms that are not reached.
pub fn sets_at(tables: &Tables, lists: &Lists, at: &Permitted) -> Vec<Set> {
    let holds = &at.holds;
    let mut sets: Vec<Set> = Vec::with_capacity(tables.count(4));
    for form in 0..tables.count(4) {
        let query = tables.query(form);
        let [_, a, b, c] = query.map(usize::from);
        let set = match query[0] {
            tables::EMPTY => 0,
            tables::RELATION if !is_present(tables, a, at) => 0,
            tables::RELATION => typing::joined(tables, &lists.relations[a], holds),
            tables::SELECT => sets[b],
            tables::PROJECT => typing::joined(tables, &lists.queries[form], holds) & sets[b],
            tables::CHOICE if holds[a] => sets[b],
            tables::CHOICE => sets[c],
            tables::PRODUCT => sets[a] | sets[b],
            tables::UNION | tables::INTERSECTION => sets[a],
            _ => panic!("check 8 lets no other kind pass"),
        };
        sets.push(set);
    }
    sets
}

/// Does the relation's expression hold there?
pub fn is_present(tables: &Tables, relation: usize, at: &Permitted) -> bool {
    at.holds[usize::from(tables.relation(relation)[0])]
}

struct Report<'a> {
    tables: &'a Tables,
    lists: &'a Lists,
    places: Vec<Place<'a>>,
}

impl Report<'_> {
    /// What is wrong with a form, when nothing is wrong with a lower one.
    fn fault(&self, form: usize) -> Option<Refusal> {
        let query = self.tables.query(form);
        let [_, a, b, _] = query.map(usize::from);
        match query[0] {
            tables::RELATION => self.absent(form, a),
            tables::SELECT => {
                let missing = |place: &Place| place.compared.named[a] & !place.sets[b];
                let clashing = |place: &Place| place.compared.clashing[a];
                let fault = self.first(form, 16, missing);
                fault.or_else(|| self.first(form, 25, clashing))
            }
            tables::PROJECT => self.missing(form, b),
            tables::PRODUCT => self.first(form, 18, |place| place.sets[a] & place.sets[b]),
            tables::UNION | tables::INTERSECTION => {
                self.first(form, 19, |place| place.sets[a] ^ place.sets[b])
            }
            _ => None,
        }
    }

    /// The configurations that reach a form.
    fn reaching(&self, form: usize) -> impl Iterator<Item = &Place<'_>> {
        self.places.iter().filter(move |place| place.reached[form])
    }

    /// 15 "if, and only if, it is reached somewhere and absent everywhere it is reached".
    /// The lowest such configuration is the first that reaches it.
    fn absent(&self, form: usize, relation: usize) -> Option<Refusal> {
        let is_there = |place: &Place| is_present(self.tables, relation, place.at);
        if self.reaching(form).any(is_there) {
            return None;
        }
        let first = self.reaching(form).next()?.at.configuration;
        Some(Refusal::new(15, form as u64, relation as u64, first))
    }

    /// 17 of an attribute "if, and only if, it holds somewhere reached and its attribute is
    /// missing at all such places". Of several, the lowest configuration where one of them
    /// is listed comes first, and there the lowest attribute.
    fn missing(&self, form: usize, of: usize) -> Option<Refusal> {
        let listed = |place: &Place| {
            let list = &self.lists.queries[form];
            typing::joined(self.tables, list, &place.at.holds)
        };
        let mut found: Set = 0;
        for place in self.reaching(form) {
            found |= listed(place) & place.sets[of];
        }
        self.first(form, 17, |place| listed(place) & !found)
    }

    /// The lowest configuration that reaches the form and has an attribute at fault, with
    /// the lowest such attribute.
    fn first(&self, form: usize, number: u64, at_fault: impl Fn(&Place) -> Set) -> Option<Refusal> {
        let fails = |place: &&Place| at_fault(place) != 0;
        let place = self.reaching(form).find(fails)?;
        let item = u64::from(at_fault(place).trailing_zeros());
        let configuration = place.at.configuration;
        Some(Refusal::new(number, form as u64, item, configuration))
    }
}
