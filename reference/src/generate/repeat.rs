//! Repeats: which tables have them, and lists as long as table 1 allows.

use std::ops::Range;

use crate::expression::{self, Permitted};
use crate::form;
use crate::random::Random;
use crate::tables::{Tables, PROJECT};

/// Which entry of each attribute a list keeps.
#[derive(Clone, Copy, Debug, PartialEq, Eq)]
pub enum Kept {
    First,
    Last,
}

/// Do tables sound in form have a list with an attribute more than once?
pub fn has_repeat(tables: &Tables) -> bool {
    most_often(tables) > 1
}

/// How often a list has an attribute at most; 0 of tables not sound in form.
pub fn most_often(tables: &Tables) -> usize {
    let mut most = 0;
    for list in lists(tables) {
        let mut times = [0; 64];
        for entry in list {
            let attribute = usize::from(tables.entry(entry)[0]);
            times[attribute] += 1;
            most = most.max(times[attribute]);
        }
    }
    most
}

/// Tables sound in form without repeats: of each attribute a list keeps one
/// entry, whatever holds. (No document asks for this: it is what a program makes
/// of the tables that knows one entry of an attribute only.)
pub fn without_repeats(tables: &Tables, kept: Kept) -> Tables {
    let mut fewer = tables.clone();
    fewer.entries.clear();
    let mut lengths = Vec::new();
    for list in lists(tables) {
        let is_kept = |&entry: &usize| {
            let others = match kept {
                Kept::First => list.start..entry,
                Kept::Last => entry + 1..list.end,
            };
            let attribute = tables.entry(entry)[0];
            !others.into_iter().any(|e| tables.entry(e)[0] == attribute)
        };
        let entries: Vec<usize> = list.clone().filter(is_kept).collect();
        lengths.push(entries.len() as u16);
        let words = entries.iter().flat_map(|&entry| tables.entry(entry));
        fewer.entries.extend(words);
    }
    put_lengths(&mut fewer, &lengths);
    fewer
}

/// The lists of tables sound in form: the relations', then the projects'.
fn lists(tables: &Tables) -> Vec<Range<usize>> {
    let Ok(lists) = form::check(tables) else {
        return vec![];
    };
    let is_project = |&form: &usize| tables.query(form)[0] == PROJECT;
    let projects = (0..tables.count(4)).filter(is_project);
    let projects = projects.map(|form| lists.queries[form].clone());
    lists.relations.iter().cloned().chain(projects).collect()
}

/// Writes the lengths of all lists, in their order.
fn put_lengths(tables: &mut Tables, lengths: &[u16]) {
    let mut lengths = lengths.iter().copied();
    for relation in tables.relations.chunks_mut(2) {
        relation[1] = lengths.next().expect("each relation has a list");
    }
    for query in tables.queries.chunks_mut(4) {
        if query[0] == PROJECT {
            query[1] = lengths.next().expect("each project has a list");
        }
    }
}

/// Lists an attribute of accepted tables over and over, at random places of its
/// list, until table 1 has so many entries: entries that hold, where permitted,
/// only where the attribute is there already, so that every set stays as it is.
/// Nothing is done where all lists are empty.
pub fn fill_up(random: &mut Random, tables: &mut Tables, most: usize) {
    let all = lists(tables);
    let some: Vec<usize> = (0..all.len()).filter(|&l| !all[l].is_empty()).collect();
    if some.is_empty() {
        return;
    }
    let chosen = random.pick(&some);
    let list = &all[chosen];
    let first = random.between(list.start, list.end - 1);
    let attribute = tables.entry(first)[0];
    let reasons = reasons(tables, &where_used(tables, chosen), list, attribute);
    let mut entries: Vec<[u16; 2]> = list.clone().map(|e| tables.entry(e)).collect();
    for _ in tables.count(1)..most {
        let place = random.below(entries.len() + 1);
        entries.insert(place, [attribute, random.pick(&reasons)]);
    }
    let mut lengths: Vec<u16> = all.iter().map(|list| list.len() as u16).collect();
    lengths[chosen] = entries.len() as u16;
    let words = 2 * list.start..2 * list.end;
    tables.entries.splice(words, entries.concat());
    put_lengths(tables, &lengths);
}

fn holds(at: &Permitted, expression: u16) -> bool {
    at.holds[usize::from(expression)]
}

/// The permitted configurations; of a relation's list, those where it is present.
fn where_used(tables: &Tables, list: usize) -> Vec<Permitted> {
    let mut permitted = expression::permitted(tables);
    if list < tables.count(2) {
        let presence = tables.relation(list)[0];
        permitted.retain(|at| holds(at, presence));
    }
    permitted
}

/// The expressions of the attribute's entries in the list, and all that hold
/// somewhere, and only where one of those does.
fn reasons(tables: &Tables, places: &[Permitted], list: &Range<usize>, attribute: u16) -> Vec<u16> {
    let entries = list.clone().map(|entry| tables.entry(entry));
    let listed = entries.filter(|entry| entry[0] == attribute);
    let mut reasons: Vec<u16> = listed.map(|entry| entry[1]).collect();
    let there = |at: &Permitted| reasons.iter().any(|&e| holds(at, e));
    let covered: Vec<bool> = places.iter().map(there).collect();
    for e in 0..tables.count(0) as u16 {
        let mut both = places.iter().zip(&covered);
        let within = both.all(|(at, &covered)| covered || !holds(at, e));
        if within && places.iter().any(|at| holds(at, e)) {
            reasons.push(e);
        }
    }
    reasons
}

/// Gives an attribute of accepted tables a narrower reason, and its old one in an
/// entry behind another attribute's: every set stays as it is, and the order of
/// the attributes changes with the configuration. None where there is no
/// occasion, or table 1 would have more entries than so many.
pub fn delay(random: &mut Random, tables: &mut Tables, most: usize) -> Option<()> {
    let all = lists(tables);
    let chosen = random.below(all.len().max(1));
    let list = all.get(chosen)?;
    if list.is_empty() || tables.count(1) >= most {
        return None;
    }
    let first = random.between(list.start, list.end - 1);
    let [attribute, expression] = tables.entry(first);
    let mut behind = first + 1..list.end;
    behind.find(|&entry| tables.entry(entry)[0] != attribute)?;
    let places = where_used(tables, chosen);
    let mut narrower = reasons(tables, &places, list, attribute);
    narrower.retain(|&e| {
        let lost = |at: &Permitted| holds(at, expression) && !holds(at, e);
        places.iter().any(lost)
    });
    if narrower.is_empty() {
        return None;
    }
    let mut lengths: Vec<u16> = all.iter().map(|list| list.len() as u16).collect();
    lengths[chosen] += 1;
    tables.entries[2 * first + 1] = random.pick(&narrower);
    let end = 2 * list.end;
    tables.entries.splice(end..end, [attribute, expression]);
    put_lengths(tables, &lengths);
    Some(())
}
