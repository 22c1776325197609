//! The finding call: its sentences one by one, the order of its refusals, and
//! generated cases against the rows and against the plain rules.

use std::collections::BTreeSet;

use crate::common::{
    checked, configured_with, find, h1, h1_without_list, made, refused, source_room,
};
use reference::check::shown;
use reference::generate::{self, LIMITS, NUMBERS};
use reference::plain::{self, Attributes};
use reference::random::Random;
use reference::{expression, form, Reading, Refusal, Tables};

/// The set of the given attributes.
fn set(attributes: &[u64]) -> u64 {
    attributes.iter().fold(0, |all, a| all | 1 << a)
}

/// Three features and four attributes: true, features 0 to 2, not feature 0.
/// The report is a relation with these entries (attribute, expression).
fn quay(entries: &[u16]) -> Tables {
    Tables {
        features: 3,
        attributes: 4,
        model: 0,
        expressions: vec![1, 0, 0, 2, 0, 0, 2, 1, 0, 2, 2, 0, 3, 1, 0],
        entries: entries.to_vec(),
        relations: vec![0, entries.len() as u16 / 2],
        queries: vec![1, 0, 0, 0],
        ..Tables::default()
    }
    .of_moments()
}

/// No features, m attributes, of which the given ones are listed.
fn list_of(attributes: u64, listed: &[u16]) -> Tables {
    Tables {
        features: 0,
        attributes,
        model: 0,
        expressions: vec![1, 0, 0],
        entries: listed.iter().flat_map(|&a| [a, 0]).collect(),
        relations: vec![0, listed.len() as u16],
        queries: vec![1, 0, 0, 0],
        ..Tables::default()
    }
    .of_moments()
}

const PAST_M: Refusal = Refusal {
    number: 22,
    place: 0,
    item: 0,
    configuration: 0,
};

// "Bit i is attribute i"

#[test]
fn each_bit_is_its_attribute() {
    for attribute in 0..64 {
        let tables = list_of(64, &[attribute]);
        for bit in 0..64 {
            let answer = (bit == u64::from(attribute)).then_some(0);
            assert_eq!(find(&tables, 1 << bit), Ok(answer), "{attribute} {bit}");
        }
    }
}

// "The lowest permitted configuration whose set holds them all"

#[test]
fn vessel_ramp_and_tide_on_one_report() {
    // Vessel 0 always, ramp 1 under feature 1, tide 2 under feature 2.
    let tables = quay(&[0, 0, 1, 2, 2, 3]);
    assert_eq!(find(&tables, set(&[0, 1, 2])), Ok(Some(6)));
    assert_eq!(find(&tables, set(&[0, 1])), Ok(Some(2)));
    assert_eq!(find(&tables, set(&[0, 2])), Ok(Some(4)));
    assert_eq!(find(&tables, set(&[0])), Ok(Some(0)));
}

#[test]
fn the_set_may_have_more_and_may_not_have_less() {
    // At 1 all of 0, 1 and 2; elsewhere 0, or 0 and 3.
    let tables = quay(&[0, 0, 1, 1, 2, 1, 3, 2]);
    assert_eq!(find(&tables, set(&[2])), Ok(Some(1)));
    assert_eq!(find(&tables, set(&[0, 1, 2])), Ok(Some(1)));
    // 1 has 1 and 2, 2 has 3: only at 3 are they together.
    assert_eq!(find(&tables, set(&[1, 3])), Ok(Some(3)));
}

#[test]
fn only_permitted_configurations_count() {
    // Attribute 0 under feature 0: at 1, 3, 5 and 7.
    let mut tables = quay(&[0, 1]);
    assert_eq!(find(&tables, set(&[0])), Ok(Some(1)));
    tables.model = 2;
    assert_eq!(find(&tables, set(&[0])), Ok(Some(3)));
    tables.model = 3;
    assert_eq!(find(&tables, set(&[0])), Ok(Some(5)));
    // Listed always and projected under feature 0, which the model forbids.
    tables.entries = vec![0, 0, 0, 1];
    tables.queries = vec![1, 0, 0, 0, 3, 1, 0, 0];
    tables.model = 4;
    assert_eq!(find(&tables, set(&[0])), Ok(None));
}

#[test]
fn the_reports_own_set_counts_and_not_the_relations() {
    // H1's relation has berth 1, its report has not.
    assert_eq!(find(&h1(), set(&[1])), Ok(None));
    assert_eq!(find(&h1(), set(&[2])), Ok(Some(2)));
}

#[test]
fn a_choice_decides_the_columns() {
    // With feature 1 attributes 0 and 1, else attribute 2.
    let mut tables = quay(&[0, 0, 1, 0, 2, 0]);
    tables.relations = vec![0, 2, 0, 1];
    tables.queries = vec![1, 0, 0, 0, 1, 1, 0, 0, 4, 2, 0, 1];
    assert_eq!(find(&tables, set(&[0, 1])), Ok(Some(2)));
    assert_eq!(find(&tables, set(&[2])), Ok(Some(0)));
    assert_eq!(find(&tables, set(&[1, 2])), Ok(None));
}

#[test]
fn nothing_wanted_gives_the_lowest_permitted() {
    let mut tables = h1();
    assert_eq!(find(&tables, 0), Ok(Some(0)));
    tables.model = 1;
    assert_eq!(find(&tables, 0), Ok(Some(1)));
    tables.model = 2;
    assert_eq!(find(&tables, 0), Ok(Some(2)));
    // Also where the report has no columns at all.
    let mut tables = h1_without_list(&[0, 0, 0, 0]);
    tables.model = 2;
    assert_eq!(find(&tables, 0), Ok(Some(2)));
    assert_eq!(find(&tables, 1), Ok(None));
}

#[test]
fn the_last_of_1024_is_found() {
    // Attribute 0 where all ten features are on.
    let mut tables = h1_without_list(&[1, 0, 0, 0]);
    tables.features = 10;
    tables.expressions = vec![2, 0, 0];
    for feature in 1..10 {
        tables.expressions.extend([2, feature, 0]);
        let both = tables.count(0) as u16;
        tables.expressions.extend([4, both - 2, both - 1]);
    }
    let all = tables.count(0) as u16 - 1;
    tables.expressions.extend([1, 0, 0]);
    tables.model = u64::from(all) + 1;
    tables.entries = vec![0, all, 1, all + 1];
    tables.relations = vec![all + 1, 2];
    assert_eq!(find(&tables, set(&[0])), Ok(Some(1023)));
    assert_eq!(find(&tables, set(&[1])), Ok(Some(0)));
    tables.model = u64::from(all);
    assert_eq!(find(&tables, 0), Ok(Some(1023)));
}

// "Or none when no permitted configuration has them"

#[test]
fn none_is_an_answer() {
    // Attribute 0 with feature 0, attribute 1 without it, 3 never.
    let tables = quay(&[0, 1, 1, 4]);
    assert_eq!(find(&tables, set(&[0])), Ok(Some(1)));
    assert_eq!(find(&tables, set(&[1])), Ok(Some(0)));
    assert_eq!(find(&tables, set(&[0, 1])), Ok(None));
    assert_eq!(find(&tables, set(&[3])), Ok(None));
    assert_eq!(find(&tables, set(&[0, 3])), Ok(None));
}

// "Refused: 22 the set has a bit at or above m, checked after 19, place 0"

#[test]
fn a_bit_at_or_above_m() {
    for m in 0..=64 {
        let all: Vec<u16> = (0..m as u16).collect();
        let tables = list_of(m, &all);
        for bit in 0..64 {
            let answer = match bit < m {
                true => Ok(Some(0)),
                false => Err(PAST_M),
            };
            assert_eq!(find(&tables, 1 << bit), answer, "m {m}, bit {bit}");
        }
        assert_eq!(find(&tables, 0), Ok(Some(0)), "m {m}");
        // A bit that is refused is refused beside others too.
        let answer = if m == 64 { Ok(Some(0)) } else { Err(PAST_M) };
        assert_eq!(find(&tables, u64::MAX), answer, "m {m}");
    }
}

#[test]
fn a_bit_at_m_is_refused_where_the_rest_is_none_too() {
    assert_eq!(find(&h1(), set(&[1])), Ok(None));
    assert_eq!(find(&h1(), set(&[1, 3])), Err(PAST_M));
}

// "Runs first what configuring runs before 20"

#[test]
fn typing_and_the_model_come_before_22() {
    let mut h2 = h1();
    h2.entries[9] = 1;
    let mut h8 = h1();
    h8.expressions[0] = 0;
    for wanted in [0, 1, set(&[3]), set(&[63]), u64::MAX] {
        // At 0 H2 has attribute 0, and it is refused all the same.
        assert_eq!(find(&h2, wanted), Err(refused(17, 1, 2, 1)));
        assert_eq!(find(&h8, wanted), Err(refused(12, 0, 0, 0)));
    }
}

/// Every number that comes before 22, by every limit, with sets that 22 would
/// refuse and sets that it would not.
#[test]
fn all_earlier_refusals_come_before_22() {
    let mut random = Random::new(22);
    let mut numbers = BTreeSet::new();
    for limit in LIMITS {
        let tables = generate::small_limit(&mut random, limit);
        let Err(refusal) = checked(&tables) else {
            continue;
        };
        numbers.insert(refusal.number);
        for wanted in [0, 1, set(&[63]), u64::MAX, random.word()] {
            assert_eq!(find(&tables, wanted), Err(refusal), "{}", limit.words);
        }
    }
    assert_eq!(numbers, BTreeSet::from(NUMBERS));
}

// Generated cases

/// Tables with a wanted set: of all families, small ones, and of full size.
fn calls() -> impl Iterator<Item = (Tables, u64)> {
    let varied = (0..1500).map(made::case);
    let small = (0..3000).map(generate::small);
    let full = (0..12).map(made::full);
    let mut random = Random::new(1);
    varied.chain(small).chain(full).map(move |tables| {
        let wanted = generate::wanted(&mut random, &tables, Reading::Strict);
        (tables, wanted)
    })
}

/// 22 by its words, in numbers wide enough for a shift by 64.
fn is_past_m(tables: &Tables, wanted: u64) -> bool {
    u128::from(wanted) >> tables.attributes > 0
}

/// The answer by the rows that the checker writes: one configuration after
/// another, attribute by attribute.
fn by_rows(tables: &Tables, wanted: u64) -> Result<Option<u64>, Refusal> {
    let rows = checked(tables)?;
    if is_past_m(tables, wanted) {
        return Err(PAST_M);
    }
    for c in 0..tables.configurations() {
        let permitted = expression::values(tables, c)[tables.model as usize];
        let has = |a: u64| shown(&rows, c) >> a & 1 == 1;
        if permitted && (0..64).all(|a| wanted >> a & 1 == 0 || has(a)) {
            return Ok(Some(c));
        }
    }
    Ok(None)
}

/// The answer on accepted tables by the plain rules, on the configured trees.
fn by_trees(tables: &Tables, wanted: u64) -> Result<Option<u64>, Refusal> {
    if is_past_m(tables, wanted) {
        return Err(PAST_M);
    }
    let lists = form::check(tables).expect("sound in form");
    let wanted: Attributes = (0..64).filter(|a| wanted >> a & 1 == 1).collect();
    for at in expression::permitted(tables) {
        let report = plain::configured(tables, Reading::Strict, &lists, at.configuration);
        let columns = report.columns().expect("accepted");
        if wanted.is_subset(&columns) {
            return Ok(Some(at.configuration));
        }
    }
    Ok(None)
}

#[test]
fn the_rows_give_the_same_answer() {
    for (tables, wanted) in calls() {
        let answer = by_rows(&tables, wanted);
        assert_eq!(find(&tables, wanted), answer, "{tables:?} {wanted}");
    }
}

#[test]
fn the_plain_rules_give_the_same_answer() {
    for (tables, wanted) in calls() {
        let answer = find(&tables, wanted);
        if answer.is_ok() || answer == Err(PAST_M) {
            assert_eq!(answer, by_trees(&tables, wanted), "{tables:?} {wanted}");
        }
    }
}

/// Whatever is wanted, what configuring refuses before 20 is refused alike.
#[test]
fn configuring_refuses_the_same_before_20() {
    for (tables, wanted) in calls() {
        let configuring = configured_with(&tables, u64::MAX, source_room(&tables));
        let configuring = configuring.expect_err("there is no such configuration");
        match find(&tables, wanted) {
            Err(refusal) if refusal != PAST_M => assert_eq!(refusal, configuring),
            _ => assert_eq!(configuring.number, 20),
        }
    }
}

/// All sets of small tables, so that none is left to chance.
#[test]
fn every_set_of_a_small_report() {
    for seed in 0..300 {
        let tables = generate::small(seed);
        for wanted in 0..32 {
            let answer = by_rows(&tables, wanted);
            assert_eq!(find(&tables, wanted), answer, "{tables:?} {wanted}");
        }
    }
}
