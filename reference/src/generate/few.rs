//! Tables with exactly so many permitted configurations and so many forms: few and
//! many, each at the numbers around a power of two. Faults stand against each other,
//! and at the first, the last or another permitted configuration.

mod conditions;
mod filled;
mod steps;

use super::kinds;
use crate::random::Random;
use crate::refusal::TYPING;
use crate::tables::{Tables, CHOICE, PROJECT, SELECT};
pub use filled::{filled, small_filled};

/// Numbers of permitted configurations: 2^n − 1, 2^n and 2^n + 1.
pub const COUNTS: [u64; 27] = [
    1, 2, 3, 4, 7, 8, 9, 15, 16, 17, 31, 32, 33, 63, 64, 65, 127, 128, 129, 255, 256, 257, 511,
    512, 513, 1023, 1024,
];

/// Numbers of expressions and of query forms.
pub const FORMS: [usize; 15] = [
    1, 15, 16, 17, 31, 32, 33, 63, 64, 65, 127, 128, 129, 255, 256,
];

/// Expressions in so few forms are chosen with care.
const CRAMPED: usize = 33;

/// No fault comes above so many query forms.
const LONG: usize = 236;

/// Entry: attribute, expression.
type Entry = [u16; 2];

/// Tables that are accepted or refused by a typing fault.
pub fn tables(random: &mut Random) -> Tables {
    let count = match random.chance(4, 5) {
        true => random.pick(&COUNTS[..19]),
        false => random.pick(&COUNTS[19..]),
    };
    let features = features_for(random, count);
    let attributes = random.pick(&[0, 1, 2, 3, 12, 20, 33, 63, 64, 64, 64, 64]);
    let mut few = Few::new(random, features, attributes);
    few.choose_model(count);
    few.choose_schema();
    few.choose_report();
    few.fill_up();
    few.tables()
}

/// A number of features with at least so many configurations.
fn features_for(random: &mut Random, count: u64) -> u16 {
    let least = (0..=10).find(|&features| 1 << features >= count);
    let least = least.expect("there are at most 1,024");
    let any = random.between(least, 10);
    random.pick(&[least, any, 10, 10]) as u16
}

struct Few<'a> {
    random: &'a mut Random,
    /// The head, expressions, comparisons and kinds.
    tables: Tables,
    /// How many expressions and query forms there are to be; 0 is as many as it takes.
    expressions: usize,
    queries: usize,
    permitted: Vec<u64>,
    /// An expression that holds at every permitted configuration.
    always: u16,
    /// The presence and the list of each relation.
    relations: Vec<(u16, Vec<Entry>)>,
    /// The relation that every report stands on, and its columns: those that are there
    /// always, and those that depend on a feature.
    base: u16,
    there: Vec<u16>,
    varying: Vec<Entry>,
    /// The attributes that it lacks.
    missing: Vec<u16>,
    /// Comparisons that break no rule above the base.
    harmless: Vec<u16>,
    /// The query forms, with the lists of the projects.
    forms: Vec<([u16; 4], Vec<Entry>)>,
}

impl Few<'_> {
    fn new(random: &mut Random, features: u16, attributes: u64) -> Few<'_> {
        let mut forms = || match random.chance(2, 3) {
            true => random.pick(&FORMS),
            false => 0,
        };
        let [expressions, queries] = [forms(), forms()];
        let tables = Tables {
            features: u64::from(features),
            attributes,
            kinds: kinds::sound(random, attributes as usize),
            ..Tables::default()
        };
        Few {
            random,
            tables,
            expressions,
            queries,
            permitted: vec![],
            always: 0,
            relations: vec![],
            base: 0,
            there: vec![],
            varying: vec![],
            missing: vec![],
            harmless: vec![],
            forms: vec![],
        }
    }

    // The schema

    /// A base with columns that differ at each permitted configuration, as far as there
    /// are attributes for it, after some relations that no query names.
    fn choose_schema(&mut self) {
        let before = self.random.pick(&[0, 0, 0, 1, 5, 23]);
        self.relations = vec![(self.always, vec![]); before];
        self.base = before as u16;
        self.choose_columns();
        let mut list = self.columns();
        if self.random.chance(1, 6) {
            list.extend(list.clone());
        }
        self.random.shuffle(&mut list);
        let presence = match self.queries {
            1 if self.random.chance(1, 2) => self.presence(None).unwrap_or(self.always),
            _ => self.always,
        };
        list.retain(|&[_, e]| self.hold_together(presence, e));
        self.relations.push((presence, list));
    }

    /// What each attribute is. Attribute 0 and the last are of the first most often.
    fn choose_columns(&mut self) {
        let mut attributes: Vec<u16> = (0..self.tables.attributes as u16).collect();
        self.random.shuffle(&mut attributes);
        if self.random.chance(3, 4) {
            let last = attributes.len().saturating_sub(1) as u16;
            attributes.sort_by_key(|&attribute| attribute != 0 && attribute != last);
        }
        let features = match self.expressions {
            1 => 0,
            _ => self.tables.features as usize,
        };
        let there = features + self.random.between(1, 2);
        for (place, attribute) in attributes.into_iter().enumerate() {
            let place = match self.tables.attributes {
                0..=3 => self.random.pick(&[place.min(features), features, 64]),
                _ => place,
            };
            if place < features {
                let holds = self.somewhere(place as u16);
                self.varying.push([attribute, holds]);
            } else if place < there {
                self.there.push(attribute);
            } else {
                self.missing.push(attribute);
            }
        }
    }

    /// The entries that give the base's columns.
    fn columns(&self) -> Vec<Entry> {
        let there = self.there.iter().map(|&attribute| [attribute, self.always]);
        there.chain(self.varying.iter().copied()).collect()
    }

    // The report

    /// Steps above the base, with faults among them or none. One form alone is the base.
    fn choose_report(&mut self) {
        let mut report = self.base();
        if self.queries == 1 {
            return;
        }
        let faults = self.random.pick(&[0, 1, 1, 2, 3, 4]);
        let numbers: Vec<u64> = (0..faults).map(|_| self.random.pick(&TYPING)).collect();
        for number in numbers {
            if self.forms.len() > LONG {
                break;
            }
            report = self.some_steps(report);
            report = self.broken(number, report, None);
            if self.random.chance(1, 4) {
                report = self.guarded(report);
            }
        }
        report = self.some_steps(report);
        self.fill_queries(report);
    }

    /// Steps that break nothing, as many as are left for the queries or fewer.
    fn some_steps(&mut self, mut of: u16) -> u16 {
        let room = self.queries.saturating_sub(self.forms.len() + 20);
        let most = room / self.random.pick(&[1, 2, 4, 4]);
        let end = self.forms.len() + self.random.below(most.max(4));
        while self.forms.len() < end.min(LONG) {
            of = match self.random.below(8) {
                0 => self.unreached(of),
                1 => self.broken_nowhere(of),
                _ => self.harmless(of),
            };
        }
        of
    }

    /// As many queries as there are to be.
    fn fill_queries(&mut self, mut report: u16) {
        while self.forms.len() < self.queries {
            report = match self.queries - self.forms.len() {
                1 => self.selected(report),
                _ => self.harmless(report),
            };
        }
    }

    // As many forms as there may be

    fn fill_up(&mut self) {
        if self.random.chance(1, 8) {
            while self.tables.count(3) < 256 {
                let form = self.harmless_form();
                self.comparison(form);
            }
        }
        let lists = self.forms.iter().map(|(_, list)| list.len());
        let schema = self.relations.iter().map(|(_, list)| list.len());
        let entries: usize = lists.chain(schema).sum();
        if self.random.chance(1, 8) && !self.there.is_empty() {
            let attribute = self.random.pick(&self.there);
            let list = vec![[attribute, self.always]; 512 - entries];
            self.relations.push((self.always, list));
        }
        if self.random.chance(1, 8) {
            self.relations.resize(32, (self.always, vec![]));
        }
        self.fill_expressions();
    }

    // Tables

    /// The forms lie as they were made, or all that have no operands come first.
    fn tables(self) -> Tables {
        let mut order: Vec<usize> = (0..self.forms.len()).collect();
        if self.random.chance(1, 2) {
            let last = order.len() - 1;
            order[..last].sort_by_key(|&form| self.forms[form].0[0] > 1);
        }
        let mut new = vec![0u16; order.len()];
        for (number, &form) in order.iter().enumerate() {
            new[form] = number as u16;
        }
        let mut tables = self.tables;
        for (presence, list) in &self.relations {
            tables.relations.extend([*presence, list.len() as u16]);
            tables.entries.extend(list.concat());
        }
        for form in order {
            let (query, list) = &self.forms[form];
            tables.queries.extend(renumbered(*query, &new));
            tables.entries.extend(list.concat());
        }
        tables
    }
}

/// The query with the new numbers of its operands.
fn renumbered([kind, a, b, c]: [u16; 4], new: &[u16]) -> [u16; 4] {
    let to = |form: u16| new[usize::from(form)];
    match kind {
        SELECT | PROJECT => [kind, a, to(b), 0],
        CHOICE => [kind, a, to(b), to(c)],
        _ if kind > CHOICE => [kind, to(a), to(b), 0],
        _ => [kind, a, b, c],
    }
}
