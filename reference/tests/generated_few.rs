//! What the generator covers of few permitted configurations and many.

use std::collections::{BTreeMap, BTreeSet};
use std::sync::OnceLock;

use crate::common::{checked, made};
use reference::check::shown;
use reference::generate::{COUNTS, FORMS};
use reference::refusal::TYPING;
use reference::{expression, Refusal, Tables};

/// Tables with their permitted configurations, and the rows or the refusal.
struct Judged {
    tables: Tables,
    permitted: Vec<u64>,
    answer: Result<Vec<u64>, Refusal>,
}

impl Judged {
    /// The number of the refusal, 0 when accepted.
    fn number(&self) -> u64 {
        self.refusal().map_or(0, |refusal| refusal.number)
    }

    fn refusal(&self) -> Option<Refusal> {
        self.answer.as_ref().err().copied()
    }

    fn count(&self) -> usize {
        self.permitted.len()
    }
}

/// Generated tables, judged once for all tests.
fn cases() -> &'static [Judged] {
    static CASES: OnceLock<Vec<Judged>> = OnceLock::new();
    let judged = |tables: Tables| {
        let permitted = expression::permitted(&tables);
        Judged {
            permitted: permitted.iter().map(|at| at.configuration).collect(),
            answer: checked(&tables),
            tables,
        }
    };
    CASES.get_or_init(|| (0..4000).map(made::few).map(judged).collect())
}

/// Nothing but typing refuses them. Every answer comes with every number of permitted
/// configurations around 8, 16, 32, 64 and 128; and 15 never with one.
#[test]
fn every_answer_comes_with_every_number_of_permitted_ones() {
    let mut times: BTreeMap<(u64, u64), u64> = BTreeMap::new();
    for case in cases() {
        let number = case.number();
        assert!(number == 0 || TYPING.contains(&number), "{number}");
        *times.entry((case.count() as u64, number)).or_default() += 1;
    }
    println!("{times:?}");
    let of = |count, number| times.get(&(count, number)).copied().unwrap_or(0);
    for limit in [8, 16, 32, 64, 128] {
        for count in [limit - 1, limit, limit + 1] {
            for number in TYPING.into_iter().chain([0]) {
                assert!(of(count, number) >= 3, "{number} of {count}");
            }
        }
    }
    for count in COUNTS {
        assert!(of(count, 0) >= 10, "accepted, of {count}");
        let refused = TYPING.map(|number| of(count, number));
        assert!(refused.iter().sum::<u64>() >= 10, "refused, of {count}");
    }
    assert_eq!(of(1, 15), 0);
}

/// Every number of expressions and of queries comes with few and with many permitted
/// configurations, accepted and refused; the other tables are full in some.
#[test]
fn every_number_of_forms_comes_with_few_and_many() {
    let times = |table: usize, forms: usize, many: bool, refused: bool| {
        let is = |case: &&Judged| {
            let of = if many { 129..=1024 } else { 1..=8 };
            let fits = case.tables.count(table) == forms && of.contains(&case.count());
            fits && case.answer.is_err() == refused
        };
        cases().iter().filter(is).count()
    };
    let few_and_many = [false, true];
    for forms in FORMS {
        for many in few_and_many {
            for refused in few_and_many {
                let [expressions, queries] = [0, 4].map(|t| times(t, forms, many, refused));
                println!("{forms}, {many}, {refused}: {expressions}, {queries}");
                assert!(expressions >= 3 && queries >= 3, "{forms}");
            }
        }
    }
    for (table, most) in [(1, 512), (2, 32), (3, 256)] {
        for many in few_and_many {
            let [accepted, refused] = few_and_many.map(|r| times(table, most, many, r));
            println!("table {table}, {many}: {accepted}, {refused}");
            assert!(accepted >= 10 && refused >= 10, "table {table}");
        }
    }
}

/// Each rule is broken first at the first permitted configuration, at the last, and
/// between, of few and of many.
#[test]
fn faults_come_at_the_first_at_the_last_and_between() {
    let mut times: BTreeMap<(u64, &str, bool), u64> = BTreeMap::new();
    for case in cases() {
        let Some(refusal) = case.refusal() else {
            continue;
        };
        let many = match case.count() {
            1..=2 => continue,
            3..=64 => false,
            _ => true,
        };
        let place = case.permitted.binary_search(&refusal.configuration);
        let which = match place.expect("it is permitted") {
            0 => "the first",
            place if place + 1 == case.count() => "the last",
            _ => "between",
        };
        *times.entry((refusal.number, which, many)).or_default() += 1;
    }
    println!("{times:#?}");
    assert_eq!(times.len(), 6 * 3 * 2);
    assert!(times.values().all(|&times| times >= 5), "{times:?}");
}

/// Where the permitted configurations lie.
fn places(permitted: &[u64], all: u64) -> BTreeSet<&'static str> {
    let (first, last) = (permitted[0], permitted[permitted.len() - 1]);
    let step = |by: u64| permitted.windows(2).all(|two| two[1] - two[0] == by);
    let some = permitted.len() > 2;
    let sorts = [
        ("0 alone", last == 0 && all > 1),
        ("1023 alone", first == 1023),
        ("the last word alone", some && first >= 960),
        (
            "the lowest",
            some && step(1) && first == 0 && last + 1 < all,
        ),
        (
            "the highest",
            some && step(1) && first > 0 && last + 1 == all,
        ),
        (
            "together between",
            some && step(1) && first > 0 && last + 1 < all,
        ),
        ("even ones", some && step(2) && first % 2 == 0),
        ("odd ones", some && step(2) && first % 2 == 1),
        ("scattered", some && !step(1) && !step(2)),
        ("in more than two words", last / 64 > first / 64 + 1),
    ];
    let are = sorts.into_iter().filter(|(_, is)| *is);
    are.map(|(words, _)| words).collect()
}

#[test]
fn the_permitted_ones_lie_everywhere() {
    let mut times: BTreeMap<(&str, bool), u64> = BTreeMap::new();
    for case in cases() {
        for sort in places(&case.permitted, case.tables.configurations()) {
            let refused = case.answer.is_err();
            *times.entry((sort, refused)).or_default() += 1;
        }
    }
    println!("{times:#?}");
    assert_eq!(times.len(), 10 * 2);
    assert!(times.values().all(|&times| times >= 5), "{times:?}");
}

/// Columns that differ at each permitted configuration, of few and of many, with the first
/// attribute and the last; and other numbers of attributes.
#[test]
fn columns_differ_at_each_permitted_configuration() {
    let differ = |case: &&Judged| {
        let Ok(rows) = &case.answer else {
            return false;
        };
        let sets = case.permitted.iter().map(|&c| shown(rows, c));
        let sets: BTreeSet<u64> = sets.collect();
        let ends = |set: u64| set & 1 == 1 || set >> 63 == 1;
        sets.len() == case.count() && sets.iter().filter(|&&set| ends(set)).count() > 1
    };
    let varied: Vec<&Judged> = cases().iter().filter(differ).collect();
    for counts in [2..=8, 9..=32, 33..=128, 129..=1024] {
        let times = varied.iter().filter(|c| counts.contains(&c.count()));
        let times = times.count();
        println!("{counts:?}: {times}");
        assert!(times >= 20);
    }
    for attributes in [0, 1, 64] {
        let is = |case: &&Judged| case.tables.attributes == attributes;
        let refused = cases().iter().filter(is).filter(|c| c.answer.is_err());
        assert!(refused.count() >= 10, "m = {attributes}");
    }
    let past_m = |case: &&Judged| {
        let refusal = case.refusal();
        refusal.is_some_and(|r| r.number == 15 && r.item >= case.tables.attributes)
    };
    assert!(cases().iter().filter(past_m).count() >= 10);
}
