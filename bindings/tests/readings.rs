//! The two readings: what strict refuses because a condition of the schema is left out,
//! filled accepts; and what filled refuses too. H10 of docs/FORMAT.md, "Worked examples",
//! reports of ramps, and sets and pages in both readings.

mod common;

use common::{raw_check, raw_find, raw_page, refused, shown, H1, UNWRITTEN};
use gelvomas::Reading::{Filled, Strict};
use gelvomas::{check, comparison, configure, find, kind, operator, page, query};
use gelvomas::{Counts, Lent, Reading, Refusal, Tables, PAGE_LINE, ROWS};

/// What the words and the bytes are before a call.
const STALE: u16 = 0xBEEF;
const STALE_BYTE: u8 = 0xA5;

/// Vessel 0, berth 1 and ramp 2; swaps 0 and ramps 1. With ramps the sailings, else
/// empty, projected to vessel and, with ramps, ramp.
const H10: Tables = Tables {
    queries: &[1, 0, 0, 0, 0, 0, 0, 0, 4, 2, 0, 1, 3, 2, 2, 0],
    ..H1
};

/// Ramps 0, a feature. Relation 0, the ramps, is there with ramps, and lists sailing 0
/// and ramp 1. The report is the relation: it does not repeat the condition.
const RAMPS: Tables = Tables {
    features: 1,
    attributes: 3,
    model: 0,
    // True; ramps; not ramps.
    expressions: &[1, 0, 0, 2, 0, 0, 3, 1, 0],
    entries: &[0, 0, 1, 0],
    relations: &[1, 2],
    comparisons: &[],
    queries: &[query::RELATION, 0, 0, 0],
    kinds: &[kind::NAME; 3],
};

/// The columns at each configuration, as sets; or the refusal, with the rows as they were.
fn columns(tables: &Tables, reading: Reading) -> Result<Vec<u64>, Refusal> {
    let mut rows = [u64::from(STALE); ROWS];
    let answer = check(tables, reading, &mut rows);
    assert!(answer.is_ok() || rows == [u64::from(STALE); ROWS]);
    answer?;
    Ok((0..1 << tables.features).map(|c| shown(&rows, c)).collect())
}

/// Tables 1 to 4 as they are written at a configuration. The words after them, and of a
/// refused call all words, are as they were.
fn written(tables: &Tables, reading: Reading, c: u64) -> Result<[Vec<u16>; 4], Refusal> {
    let mut words = [
        vec![STALE; tables.entries.len() + 3],
        vec![STALE; tables.relations.len() + 3],
        vec![STALE; tables.comparisons.len() + 3],
        vec![STALE; tables.queries.len() + 3],
    ];
    let [entries, relations, comparisons, queries] = &mut words;
    let lent = Lent {
        entries,
        relations,
        comparisons,
        queries,
    };
    let answer = configure(tables, reading, c, lent);
    let kept = answer.map_or([0; 4], |n: Counts| {
        [
            2 * n.entries,
            2 * n.relations,
            5 * n.comparisons,
            4 * n.queries,
        ]
    });
    for (words, kept) in words.iter_mut().zip(kept) {
        let rest = words.split_off(kept as usize);
        assert!(rest.iter().all(|&word| word == STALE));
    }
    answer.map(|_| words)
}

/// In the filled reading: these columns at each configuration; and what is written there
/// is accepted strictly, with the same columns.
fn expect_filled(tables: &Tables, wanted: &[u64]) {
    assert_eq!(columns(tables, Filled).as_deref(), Ok(wanted));
    for (c, &set) in (0..).zip(wanted) {
        let [entries, relations, comparisons, queries] =
            written(tables, Filled, c).expect("all configurations are permitted");
        let plain = Tables {
            features: 0,
            attributes: tables.attributes,
            model: 0,
            expressions: &[1, 0, 0],
            entries: &entries,
            relations: &relations,
            comparisons: &comparisons,
            queries: &queries,
            kinds: tables.kinds,
        };
        assert_eq!(columns(&plain, Strict), Ok(vec![set]), "at {c}");
    }
}

/// Refused so in this reading by all four calls.
fn expect_refused(tables: &Tables, reading: Reading, wanted: Refusal) {
    assert_eq!(columns(tables, reading), Err(wanted));
    assert_eq!(written(tables, reading, 0), Err(wanted));
    assert_eq!(find(tables, reading, 0), Err(wanted));
    assert_eq!(page(tables, reading, &mut []), Err(wanted));
}

#[test]
fn h10_is_accepted_in_the_filled_reading() {
    expect_refused(&H10, Strict, refused(17, 3, 0, 0));
    expect_filled(&H10, &[0, 0, 0b101, 0b101]);
    let mut rows = [u64::from(STALE); ROWS];
    assert_eq!(check(&H10, Filled, &mut rows), Ok(()));
    for (index, &word) in rows.iter().enumerate() {
        let wanted = if [0, 32].contains(&index) { 0b1100 } else { 0 };
        assert_eq!(word, wanted, "word {index}");
    }
}

/// At 0 the sailings, present, keep their two entries; the choice leads to empty, and
/// the project above it keeps no entry.
#[test]
fn h10_configured_in_the_filled_reading() {
    let wanted: [&[u16]; 4] = [
        &[0, 0, 1, 0],
        &[0, 2],
        &[],
        &[query::EMPTY, 0, 0, 0, query::PROJECT, 0, 0, 0],
    ];
    assert_eq!(written(&H10, Filled, 0), Ok(wanted.map(<[u16]>::to_vec)));
    let all: [&[u16]; 4] = [
        &[0, 0, 1, 0, 2, 0, 0, 0, 2, 0],
        &[0, 3],
        &[],
        &[query::RELATION, 0, 0, 0, query::PROJECT, 2, 0, 0],
    ];
    assert_eq!(written(&H10, Filled, 2), Ok(all.map(<[u16]>::to_vec)));
}

/// Where ramps is off the relation is absent: strictly that is refused, and filled it is
/// empty. It is not in the tables written.
#[test]
fn an_absent_relation_is_written_as_empty() {
    expect_refused(&RAMPS, Strict, refused(15, 0, 0, 0));
    expect_filled(&RAMPS, &[0, 0b11]);
    let empty: [&[u16]; 4] = [&[], &[], &[], &[query::EMPTY, 0, 0, 0]];
    assert_eq!(written(&RAMPS, Filled, 0), Ok(empty.map(<[u16]>::to_vec)));
    let all: [&[u16]; 4] = [&[0, 0, 1, 0], &[0, 2], &[], &[query::RELATION, 0, 0, 0]];
    assert_eq!(written(&RAMPS, Filled, 1), Ok(all.map(<[u16]>::to_vec)));
}

/// Relation 0 is always there and lists sailing 0, and ramp 1 with ramps. The report asks
/// for both everywhere.
#[test]
fn a_missing_attribute_is_dropped() {
    let both = Tables {
        entries: &[0, 0, 1, 1, 0, 0, 1, 0],
        relations: &[0, 2],
        queries: &[query::RELATION, 0, 0, 0, query::PROJECT, 2, 0, 0],
        ..RAMPS
    };
    expect_refused(&both, Strict, refused(17, 1, 1, 0));
    expect_filled(&both, &[0b01, 0b11]);
    let at_0: [&[u16]; 4] = [
        &[0, 0, 0, 0],
        &[0, 1],
        &[],
        &[query::RELATION, 0, 0, 0, query::PROJECT, 1, 0, 0],
    ];
    assert_eq!(written(&both, Filled, 0), Ok(at_0.map(<[u16]>::to_vec)));
}

/// Absent, or missing, wherever it is asked for: a mistake, and refused in both readings
/// at the lowest such configuration.
#[test]
fn what_is_nowhere_is_refused_in_both_readings() {
    // Empty with ramps, else the ramps, which are absent there; and with ramps attribute 2,
    // which no relation lists.
    let swapped = Tables {
        queries: &[0, 0, 0, 0, 1, 0, 0, 0, 4, 1, 0, 1],
        ..RAMPS
    };
    let unlisted = Tables {
        entries: &[0, 0, 1, 0, 0, 0, 2, 1],
        relations: &[0, 2],
        queries: &[1, 0, 0, 0, 3, 2, 0, 0],
        ..RAMPS
    };
    for reading in [Strict, Filled] {
        expect_refused(&swapped, reading, refused(15, 1, 0, 0));
        expect_refused(&unlisted, reading, refused(17, 1, 2, 1));
    }
}

/// The ramps selected by one of them: where ramps is off there is nothing to compare.
#[test]
fn what_is_compared_is_not_filled_in() {
    let by_ramp = [comparison::CONSTANT, operator::EQUAL, 1, 500, kind::NAME];
    let selected = Tables {
        comparisons: &by_ramp,
        queries: &[query::RELATION, 0, 0, 0, query::SELECT, 0, 0, 0],
        ..RAMPS
    };
    expect_refused(&selected, Strict, refused(15, 0, 0, 0));
    expect_refused(&selected, Filled, refused(16, 1, 1, 0));
}

#[test]
fn finding_in_both_readings() {
    for (tables, refusal, found) in [
        (H10, refused(17, 3, 0, 0), Some(2)),
        (RAMPS, refused(15, 0, 0, 0), Some(1)),
    ] {
        assert_eq!(find(&tables, Strict, 1), Err(refusal));
        assert_eq!(find(&tables, Filled, 1), Ok(found));
        assert_eq!(find(&tables, Filled, 0), Ok(Some(0)));
        assert_eq!(find(&tables, Filled, 1 << 3), Err(refused(22, 0, 0, 0)));
    }
    // Vessel and ramp together; berth, which H10's report never has; what no relation lists.
    assert_eq!(find(&H10, Filled, 0b101), Ok(Some(2)));
    assert_eq!(find(&H10, Filled, 0b010), Ok(None));
    assert_eq!(find(&RAMPS, Filled, 0b100), Ok(None));
}

#[test]
fn the_page_in_both_readings() {
    let wanted = [
        "   0 ................................................................  0\n",
        "   1 ................................................................  0\n",
        "   2 o.o.............................................................  2\n",
        "   3 o.o.............................................................  2\n",
    ];
    let mut bytes = [STALE_BYTE; 4 * PAGE_LINE];
    let refusal = refused(17, 3, 0, 0);
    assert_eq!(page(&H10, Strict, &mut bytes), Err(refusal));
    let short = refused(23, 0, 0, 0);
    assert_eq!(page(&H10, Filled, &mut bytes[1..]), Err(short));
    assert_eq!(bytes, [STALE_BYTE; 4 * PAGE_LINE]);
    assert_eq!(page(&H10, Filled, &mut bytes), Ok(4));
    assert_eq!(String::from_utf8_lossy(&bytes), wanted.concat());
}

/// H1 repeats the schema's conditions. What strict accepts, filled accepts with equal
/// rows, and writes the same tables.
#[test]
fn what_strict_accepts_is_the_same_in_both_readings() {
    assert_eq!(columns(&H1, Strict), columns(&H1, Filled));
    expect_filled(&H1, &[1, 1, 0b101, 0b101]);
    for c in 0..5 {
        assert_eq!(written(&H1, Strict, c), written(&H1, Filled, c));
    }
    for wanted in 0..16 {
        assert_eq!(find(&H1, Strict, wanted), find(&H1, Filled, wanted));
    }
    let [mut strict, mut filled] = [[STALE_BYTE; 4 * PAGE_LINE]; 2];
    assert_eq!(page(&H1, Strict, &mut strict), Ok(4));
    assert_eq!(page(&H1, Filled, &mut filled), Ok(4));
    assert_eq!(strict, filled);
}

/// The C functions, told by a bool; what they write of the answer's four words.
#[test]
fn the_c_functions_are_told_the_reading() {
    let mut rows = [0; ROWS];
    assert_eq!(raw_check(&RAMPS, Strict, &mut rows), (1, [15, 0, 0, 0]));
    assert_eq!(raw_check(&RAMPS, Filled, &mut rows), (0, UNWRITTEN));
    assert_eq!(raw_find(&RAMPS, Strict, 1), (1, [15, 0, 0, 0]));
    assert_eq!(raw_find(&RAMPS, Filled, 1), (0, [1, 0, 0, 0]));
    assert_eq!(raw_find(&RAMPS, Filled, 0b100), (2, [0, 0, 0, 0]));
    let mut bytes = [0; 2 * PAGE_LINE];
    assert_eq!(raw_page(&RAMPS, Strict, &mut bytes), (1, [15, 0, 0, 0]));
    assert_eq!(raw_page(&RAMPS, Filled, &mut bytes), (0, [2, 0, 0, 0]));
}

#[test]
fn the_default_is_strict() {
    assert_eq!(Reading::default(), Strict);
}
