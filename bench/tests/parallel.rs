//! The check of all configurations at once, against one configuration after
//! another.

use std::collections::BTreeMap;

use bench::parallel;
use reference::check::ROWS;
use reference::generate::{self, Family};
use reference::{Reading, Tables};

/// The number of the answer, 0 for accepted, after comparing answers and words.
fn compared(tables: &Tables, length: usize, what: &str) -> u64 {
    let lent: Vec<u64> = (7..).take(length).collect();
    let (mut wanted, mut rows) = (lent.clone(), lent);
    let answer = reference::check(tables, Reading::Strict, &mut wanted);
    assert_eq!(parallel::check(tables, &mut rows), answer, "{what}");
    assert!(rows == wanted, "the rows of {what}");
    answer.map_or_else(|refusal| refusal.number, |()| 0)
}

fn family(family: Family, name: &str, count: u64) -> BTreeMap<u64, u64> {
    let mut answers = BTreeMap::new();
    for seed in 0..count {
        let tables = generate::of_family(family, seed);
        let number = compared(&tables, ROWS, &format!("{name}, seed {seed}"));
        *answers.entry(number).or_default() += 1;
    }
    println!("{name}: {answers:?}");
    answers
}

#[test]
fn accepted_reports_have_the_same_rows() {
    let answers = family(Family::Accepted, "accepted", 2000);
    assert_eq!(answers.get(&0), Some(&2000));
}

#[test]
fn refusals_are_the_same() {
    let mut answers = family(Family::Fault, "fault", 6000);
    answers.extend(family(Family::Several, "several", 4000));
    for number in generate::NUMBERS {
        assert!(answers.contains_key(&number), "refusal {number}");
    }
}

#[test]
fn kinds_are_the_same() {
    let answers = family(Family::Compared, "compared", 6000);
    for number in [0, 10, 16, 24, 25] {
        assert!(answers.get(&number) >= Some(&100), "refusal {number}");
    }
}

#[test]
fn small_reports_are_the_same() {
    family(Family::Small, "small", 6000);
}

#[test]
fn full_reports_are_the_same() {
    let answers = family(Family::Full, "full", 300);
    assert!(answers.contains_key(&0));
}

/// Every range of every number of features, each the condition of an attribute.
#[test]
fn ranges_are_the_same() {
    for features in 1..=10 {
        let from = |first: u16| (1..=features - first).map(move |count| [6, first, count]);
        let mut expressions = vec![[1, 0, 0]];
        expressions.extend((0..features).flat_map(from));
        let entries = (1..expressions.len() as u16).map(|e| [e - 1, e]);
        let entries: Vec<[u16; 2]> = entries.collect();
        let tables = Tables {
            features: features.into(),
            attributes: 64,
            model: 0,
            expressions: expressions.concat(),
            entries: entries.concat(),
            relations: vec![0, entries.len() as u16],
            queries: vec![1, 0, 0, 0],
            ..Tables::default()
        }
        .of_moments();
        let number = compared(&tables, ROWS, &format!("ranges of {features}"));
        assert_eq!(number, 0);
    }
}

#[test]
fn rows_of_another_length_are_refused() {
    for length in [0, 1, ROWS - 1, ROWS + 1] {
        let number = compared(&generate::accepted(1), length, "another length");
        assert_eq!(number, 11);
    }
}
