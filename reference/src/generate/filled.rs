//! Tables for the filled reading: reports that leave out conditions of the schema.

use super::{any_size, build, few, is_small, outcome, outcome_in};
use super::{small_accepted, small_refused, small_size};
use crate::expression;
use crate::form;
use crate::random::Random;
use crate::reading::Reading;
use crate::schema;
use crate::tables::{Tables, CHOICE};

/// Tables of any size that get as far as typing.
pub fn tables(random: &mut Random) -> Tables {
    match random.chance(2, 3) {
        true => few::filled(random),
        false => {
            let size = any_size(random);
            let sound = build::accepted(random, size);
            loosened(random, sound)
        }
    }
}

/// Small tables with the given outcome in the filled reading, 0 being accepted. Only when
/// many tries gave none that the strict reading judges otherwise, another will do.
pub fn small(random: &mut Random, number: u64) -> Tables {
    let mut other = None;
    for _ in 0..200 {
        let tables = small_try(random);
        if !is_small(&tables) || outcome_in(&tables, Reading::Filled) != number {
            continue;
        }
        if outcome(&tables) != number {
            return tables;
        }
        // These two numbers say the same in both readings more often than not.
        if matches!(number, 15 | 17) && random.chance(1, 2) {
            return tables;
        }
        other = Some(tables);
    }
    other.unwrap_or_else(|| match number {
        0 => small_accepted(random),
        _ => small_refused(random, number),
    })
}

fn small_try(random: &mut Random) -> Tables {
    if random.chance(1, 3) {
        let size = small_size(random, 0);
        let sound = build::accepted(random, size);
        return loosened(random, sound);
    }
    few::small_filled(random)
}

/// The tables after a few changes of conditions and of projected attributes, sound in form
/// and schema still.
fn loosened(random: &mut Random, mut tables: Tables) -> Tables {
    for _ in 0..random.between(1, 5) {
        let mut tried = tables.clone();
        if loosen(random, &mut tried).is_some() && gets_to_typing(&tried) {
            tables = tried;
        }
    }
    tables
}

fn gets_to_typing(tables: &Tables) -> bool {
    form::check(tables).is_ok_and(|lists| {
        let permitted = expression::permitted(tables);
        schema::check(tables, &lists, &permitted).is_ok()
    })
}

/// One change: another condition of an entry, of a relation or of a choice, a projected
/// attribute that is another, or a project list without conditions.
fn loosen(random: &mut Random, tables: &mut Tables) -> Option<()> {
    let condition = random.below(tables.count(0)) as u16;
    let listed: usize = (0..tables.count(2))
        .map(|relation| usize::from(tables.relation(relation)[1]))
        .sum();
    let [schema, projects] = [0..listed, listed..tables.count(1)];
    match random.below(8) {
        0 if !schema.is_empty() => {
            let entry = random.below(listed);
            tables.entries[2 * entry + 1] = condition;
        }
        1 | 2 if tables.count(2) > 0 => {
            let relation = random.below(tables.count(2));
            tables.relations[2 * relation] = condition;
        }
        3 if !projects.is_empty() => {
            let entry = projects.start + random.below(projects.len());
            tables.entries[2 * entry] = random.below(tables.attributes as usize) as u16;
        }
        4 | 5 if !projects.is_empty() => {
            let entry = projects.start + random.below(projects.len());
            tables.entries[2 * entry + 1] = condition;
        }
        6 if !projects.is_empty() => {
            let always = (0..tables.count(0)).find(|&e| tables.expression(e)[0] == 1)?;
            projects.for_each(|entry| tables.entries[2 * entry + 1] = always as u16);
        }
        _ => {
            let is_choice = |form: &usize| tables.query(*form)[0] == CHOICE;
            let choices: Vec<usize> = (0..tables.count(4)).filter(is_choice).collect();
            if choices.is_empty() {
                return None;
            }
            tables.queries[4 * random.pick(&choices) + 1] = condition;
        }
    }
    Some(())
}
