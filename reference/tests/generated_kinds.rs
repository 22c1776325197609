//! What the generator covers of the kinds of attributes and of constants.

use std::collections::{BTreeMap, BTreeSet};

use crate::common::kind_readings::{self, left_of_two_kinds, without_kinds, RIGHT, WRONG};
use crate::common::{checked, kind_readings::constant_over_2, made};
use reference::check::ROWS;
use reference::small::{self, Case};
use reference::tables::{SELECT, WITH_ATTRIBUTE, WITH_CONSTANT};
use reference::{expression, Reading, Refusal, Tables};

/// The sorts that a refused report is of.
fn sorts_of_refused(tables: &Tables, refusal: Refusal) -> BTreeSet<&'static str> {
    let mut sorts = BTreeSet::new();
    let mut sort = |is: bool, words| {
        if is {
            sorts.insert(words);
        }
    };
    let before = checked(&without_kinds(tables)).err();
    let before_is = |number| matches!(before, Some(other) if other.number == number);
    match refusal.number {
        24 => {
            let word = tables.kinds.iter().position(|&kind| kind > 2);
            let length = tables.kinds.len() as u64;
            let is_sound = length == tables.attributes;
            sort(length < tables.attributes, "24, too short");
            sort(length > tables.attributes, "24, too long");
            sort(tables.attributes == 0, "24, m = 0");
            sort(length == 64 && !is_sound, "24, 64 words");
            sort(length == 65, "24, 65 words");
            sort(is_sound && word == Some(0), "24, the first word");
            sort(is_sound && word > Some(0), "24, a later word");
            sort(is_sound && word.is_none(), "24, a constant");
            let constant = constant_over_2(tables).map(|form| form as u16);
            let named = kind_readings::named(tables);
            let named = constant.is_some_and(|form| named.contains(&form));
            sort(constant.is_some() && !named, "24, a constant unused");
            sort(before_is(12), "24 and 12");
            sort(before_is(13), "24 and 13");
        }
        25 => {
            let lowest = expression::permitted(tables)[0].configuration;
            sort(refusal.configuration == lowest, "25 at the lowest");
            sort(refusal.configuration > lowest, "25 later");
            sort(before.is_some(), "25 and another fault above");
            sort(before_is(16), "25 and 16 above");
            let [_, selected, ..] = tables.query(refusal.place as usize);
            let [kind, ..] = tables.comparison(selected.into());
            sort(kind == WITH_CONSTANT, "25 by a constant");
            sort(kind == WITH_ATTRIBUTE, "25 by two attributes");
            sort(kind >= 4, "25 under other forms");
            sort(tables.count(3) == 256, "25 of 256 comparisons");
        }
        16 => {
            let other = kind_readings::kinds_differ(&RIGHT, tables);
            let same = other.filter(|other| other.place == refusal.place);
            let lower = same.is_some_and(|other| other.configuration < refusal.configuration);
            sort(same.is_some(), "16 and kinds differ in the form");
            sort(lower, "16 and kinds differ lower in the form");
            let above = other.is_some_and(|other| other.place > refusal.place);
            sort(above, "16 and kinds differ above");
        }
        10 => {
            let over = tables.kinds.iter().any(|&kind| kind > 2);
            let over = over || constant_over_2(tables).is_some();
            sort(over, "10 and a kind over 2");
        }
        _ => {}
    }
    sorts
}

/// The sorts that an accepted report is of.
fn sorts_of_accepted(tables: &Tables) -> BTreeSet<&'static str> {
    let mut sorts = BTreeSet::new();
    let kinds: BTreeSet<u16> = tables.kinds.iter().copied().collect();
    let named = kind_readings::named(tables);
    for form in 0..tables.count(3) as u16 {
        let comparison = tables.comparison(form.into());
        match (left_of_two_kinds(tables, comparison), named.contains(&form)) {
            (Some(_), true) => sorts.insert("accepted, kinds differ where not taken"),
            (Some(_), false) => sorts.insert("accepted, kinds differ where no select is"),
            (None, true) if kinds.len() > 1 => match comparison[0] {
                WITH_CONSTANT => sorts.insert("accepted, a constant of one kind"),
                WITH_ATTRIBUTE => sorts.insert("accepted, attributes of one kind"),
                _ => false,
            },
            _ => false,
        };
    }
    let selects = (0..tables.count(4)).any(|form| tables.query(form)[0] == SELECT);
    if selects {
        sorts.insert("accepted, with a select");
    }
    sorts
}

/// How often the tables are of each sort.
fn sorts_of(cases: impl Iterator<Item = Tables>) -> BTreeMap<&'static str, u64> {
    let mut times = BTreeMap::new();
    for tables in cases {
        let sorts = match checked(&tables) {
            Ok(_) => sorts_of_accepted(&tables),
            Err(refusal) => sorts_of_refused(&tables, refusal),
        };
        for sort in sorts {
            *times.entry(sort).or_default() += 1;
        }
    }
    println!("{times:#?}");
    times
}

#[test]
fn kinds_are_no_rare_thing() {
    let times = sorts_of((0..8000).map(made::case));
    assert_eq!(times.len(), 28);
    assert!(times.values().all(|&times| times >= 3), "{times:?}");
    assert!(times["accepted, with a select"] >= 1600);
    assert!(times["accepted, kinds differ where not taken"] >= 100);
    let small = (0..16_000).filter_map(|seed| match small::case(seed) {
        Case::Check {
            tables,
            reading: Reading::Strict,
            ..
        } => Some(tables),
        _ => None,
    });
    let times = sorts_of(small);
    // A small case has no 256 comparisons.
    assert_eq!(times.len(), 27);
    assert!(times.values().all(|&times| times >= 3), "{times:?}");
}

/// How many of the calls tell each wrong reading from the right one.
fn wrong_readings(calls: impl Iterator<Item = Case>) -> BTreeMap<&'static str, u64> {
    let mut told = BTreeMap::new();
    for case in calls {
        let right = small::answer(&case);
        for reading in &WRONG {
            let wrong = kind_readings::answer(&case, reading);
            let is_told = wrong.is_some_and(|wrong| wrong != right);
            *told.entry(reading.words).or_default() += u64::from(is_told);
        }
    }
    println!("{told:#?}");
    told
}

/// Calls of which each wrong way to read kinds would be told.
#[test]
fn cases_show_how_kinds_are_read() {
    let tables = (0..3000).map(made::case);
    let tables = tables.chain((0..400).map(made::compared));
    let not_large = |tables: &Tables| tables.count(4) << tables.features.min(10) < 2_000;
    let checks = tables.filter(not_large);
    let varied = wrong_readings(checks.map(|tables| Case::check(tables, Reading::Strict, ROWS)));
    let no_rows = ["24 after 11"];
    let told = |(words, times): (&&str, &u64)| *times >= 3 || no_rows.contains(words);
    assert!(varied.iter().all(told), "{varied:?}");
    let small = wrong_readings((0..6000).map(small::case));
    assert!(small.values().all(|&times| times >= 3), "{small:?}");
}
