//! Kinds of attributes and of constants: an arrival that is compared with a passenger
//! count, at which configurations, and what is refused of the kind table.

mod common;

use common::{moments, raw_check, refused, H1};
use gelvomas::{check, comparison, configure, expression, find, kind, operator, page, query};
use gelvomas::{Counts, Lent, Reading, Refusal, Tables, ROWS};

const ARRIVAL: u16 = 0;
const PASSENGERS: u16 = 1;
const VESSEL: u16 = 2;

/// Expressions: true, and passenger lists, the one feature.
const LISTS: u16 = 1;

const ALWAYS: [u16; 5] = [comparison::ALWAYS, 0, 0, 0, 0];
const ARRIVAL_PASSENGERS: [u16; 5] = [
    comparison::ATTRIBUTE,
    operator::LESS,
    ARRIVAL,
    PASSENGERS,
    0,
];

/// An attribute above a constant of the kind.
fn above(attribute: u16, kind: u16) -> [u16; 5] {
    [
        comparison::CONSTANT,
        operator::GREATER,
        attribute,
        400,
        kind,
    ]
}

/// Where there are passenger lists the first comparison, elsewhere the second.
const CHOICE: [u16; 5] = [comparison::CHOICE, 0, LISTS, 0, 1];

/// The answer for a report that selects by the last of these comparisons: of arrival,
/// passengers and vessel, where the second is listed under an expression.
fn answer(listed: u16, comparisons: &[[u16; 5]], kinds: &[u16]) -> Result<(), Refusal> {
    let last = comparisons.len() as u16 - 1;
    let tables = Tables {
        features: 1,
        attributes: 3,
        model: 0,
        expressions: &[expression::TRUE, 0, 0, expression::FEATURE, 0, 0],
        entries: &[ARRIVAL, 0, PASSENGERS, listed, VESSEL, 0],
        relations: &[0, 3],
        comparisons: &comparisons.concat(),
        queries: &[query::RELATION, 0, 0, 0, query::SELECT, last, 0, 0],
        kinds,
    };
    let mut rows = [7; ROWS];
    let answer = check(&tables, Reading::Strict, &mut rows);
    assert!(answer.is_ok() || rows == [7; ROWS]);
    assert_eq!(
        find(&tables, Reading::Strict, 0).map(|found| assert_eq!(found, Some(0))),
        answer
    );
    assert_eq!(
        page(&tables, Reading::Strict, &mut [0; 146]).map(|lines| assert_eq!(lines, 2)),
        answer
    );
    answer
}

const KINDS: [u16; 3] = [kind::MOMENT, kind::COUNT, kind::NAME];

fn differ(item: u16, configuration: u64) -> Result<(), Refusal> {
    Err(refused(
        Refusal::KINDS_DIFFER,
        1,
        item.into(),
        configuration,
    ))
}

#[test]
fn an_arrival_is_no_passenger_count() {
    assert_eq!(answer(0, &[ARRIVAL_PASSENGERS], &KINDS), differ(ARRIVAL, 0));
    // All of one kind.
    for kind in 0..3 {
        assert_eq!(answer(0, &[ARRIVAL_PASSENGERS], &[kind; 3]), Ok(()));
    }
}

#[test]
fn a_constant_has_its_kind_in_word_c() {
    for attribute in [ARRIVAL, PASSENGERS, VESSEL] {
        for kind in KINDS {
            let wanted = match kind == KINDS[usize::from(attribute)] {
                true => Ok(()),
                false => differ(attribute, 0),
            };
            assert_eq!(answer(0, &[above(attribute, kind)], &KINDS), wanted);
        }
    }
}

#[test]
fn only_what_is_reached_is_judged() {
    let clash = ARRIVAL_PASSENGERS;
    // With passenger lists, without them, and in a comparison that is not selected.
    assert_eq!(
        answer(0, &[clash, ALWAYS, CHOICE], &KINDS),
        differ(ARRIVAL, 1)
    );
    assert_eq!(
        answer(0, &[ALWAYS, clash, CHOICE], &KINDS),
        differ(ARRIVAL, 0)
    );
    assert_eq!(answer(0, &[clash, ALWAYS], &KINDS), Ok(()));
}

/// Passengers are listed with passenger lists only: they are missing at 0. At 1 both are
/// there.
#[test]
fn a_missing_attribute_comes_first() {
    let both = [above(VESSEL, kind::COUNT), above(PASSENGERS, kind::COUNT)];
    let joined = [both[0], both[1], [comparison::AND, 0, 0, 1, 0]];
    let missing = Err(refused(Refusal::COMPARED_MISSING, 1, PASSENGERS.into(), 0));
    assert_eq!(answer(LISTS, &joined, &KINDS), missing);
    assert_eq!(answer(0, &joined, &KINDS), differ(VESSEL, 0));
}

#[test]
fn the_kind_table_has_a_word_for_each_attribute() {
    let refusal = |place| Err(refused(Refusal::KIND, place, 0, 0));
    let long = vec![0; 70_000];
    for length in [0, 1, 2, 4, 64, 65, 65_536, 65_539, 70_000] {
        assert_eq!(
            answer(0, &[ALWAYS], &long[..length]),
            refusal(0),
            "{length}"
        );
    }
    for word in 0..3 {
        for kind in [3, 258, 65535] {
            let mut kinds = KINDS;
            kinds[word] = kind;
            assert_eq!(answer(0, &[ALWAYS], &kinds), refusal(word as u64));
        }
    }
    // Of a constant, selected or not.
    assert_eq!(answer(0, &[ALWAYS, above(ARRIVAL, 3)], &KINDS), refusal(1));
    assert_eq!(answer(0, &[above(ARRIVAL, 3), ALWAYS], &KINDS), refusal(0));
}

#[test]
fn of_64_attributes_and_of_none() {
    for attributes in [0, 1, 63, 64] {
        let tables = Tables {
            features: 0,
            attributes,
            expressions: &[expression::TRUE, 0, 0],
            queries: &[query::EMPTY, 0, 0, 0],
            kinds: moments(attributes),
            ..Tables::default()
        };
        assert_eq!(check(&tables, Reading::Strict, &mut [0; ROWS]), Ok(()));
        let kinds = [0; 65];
        let longer = Tables {
            kinds: &kinds[..attributes as usize + 1],
            ..tables
        };
        let refusal = refused(Refusal::KIND, 0, 0, 0);
        assert_eq!(
            check(&longer, Reading::Strict, &mut [0; ROWS]),
            Err(refusal)
        );
    }
}

/// After 10, and before the rows lent.
#[test]
fn the_place_of_the_check() {
    let kinds: &[u16] = &[0, 0];
    let mut rows = [0; 3];
    let words = raw_check(&Tables { kinds, ..H1 }, Reading::Strict, &mut rows);
    assert_eq!(words, (1, [Refusal::KIND, 0, 0, 0]));
    let left = Tables {
        kinds,
        queries: &[query::RELATION, 0, 0, 0],
        ..H1
    };
    let words = raw_check(&left, Reading::Strict, &mut rows);
    assert_eq!(words, (1, [Refusal::ENTRY_LEFT, 3, 0, 0]));
}

#[test]
fn configuring_keeps_the_kinds_of_constants() {
    let comparisons = [
        above(PASSENGERS, kind::COUNT),
        above(VESSEL, kind::NAME),
        CHOICE,
    ];
    let tables = Tables {
        features: 1,
        attributes: 3,
        model: 0,
        expressions: &[expression::TRUE, 0, 0, expression::FEATURE, 0, 0],
        entries: &[PASSENGERS, 0, VESSEL, 0],
        relations: &[0, 2],
        comparisons: &comparisons.concat(),
        queries: &[query::RELATION, 0, 0, 0, query::SELECT, 2, 0, 0],
        kinds: &KINDS,
    };
    let (mut entries, mut relations) = ([7; 4], [7; 2]);
    let (mut new, mut queries) = ([7; 15], [7; 8]);
    let lent = Lent {
        entries: &mut entries,
        relations: &mut relations,
        comparisons: &mut new,
        queries: &mut queries,
    };
    let counts = Counts {
        entries: 2,
        relations: 1,
        comparisons: 2,
        queries: 2,
    };
    assert_eq!(configure(&tables, Reading::Strict, 0, lent), Ok(counts));
    assert_eq!(new[..10], comparisons[..2].concat());
    assert_eq!(new[10..], [7; 5]);
    let plain = Tables {
        features: 0,
        expressions: &[expression::TRUE, 0, 0],
        entries: &entries,
        relations: &relations,
        comparisons: &new[..10],
        queries: &queries,
        ..tables
    };
    assert_eq!(check(&plain, Reading::Strict, &mut [0; ROWS]), Ok(()));
}
