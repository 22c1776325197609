//! Expression kind 6, exactly one of a range of features is on: a quay that is tidal,
//! locked or floating, never two; ranges of few features and of ten; and what is
//! refused.

mod common;

use common::{refused, shown};
use gelvomas::expression::{EXACTLY_ONE, NOT, TRUE};
use gelvomas::{check, configure, find, page, query, Counts, Lent, Reading, Refusal, Tables};
use gelvomas::{PAGE_LINE, ROWS};

/// Features tidal 0, locked 1, floating 2, of which exactly one is on; attributes
/// vessel 0, tide 1, lock 2, pontoon 3.
const QUAY: Tables = Tables {
    features: 3,
    attributes: 4,
    model: 0,
    // EXACTLY_ONE, and each of the three features.
    expressions: &[6, 0, 3, 2, 0, 0, 2, 1, 0, 2, 2, 0],
    entries: &[VESSEL, 0, TIDE, 1, LOCK, 2, PONTOON, 3],
    relations: &[0, 4],
    comparisons: &[],
    queries: &[query::RELATION, 0, 0, 0],
    kinds: &[0; 4],
};

const LOCKED: u64 = 1 << 1;

const VESSEL: u16 = 0;
const TIDE: u16 = 1;
const LOCK: u16 = 2;
const PONTOON: u16 = 3;

/// The set of these attributes.
fn set(attributes: &[u16]) -> u64 {
    attributes.iter().fold(0, |all, a| all | 1 << a)
}

/// The configurations at which attribute 0 is in a report that has it where the last
/// of these expressions holds, with so many features.
fn held(features: u64, expressions: &[[u16; 3]]) -> Result<Vec<usize>, Refusal> {
    let expressions = [&[[TRUE, 0, 0]], expressions].concat();
    let last = expressions.len() as u16 - 1;
    let tables = Tables {
        features,
        attributes: 1,
        model: 0,
        expressions: &expressions.concat(),
        entries: &[0, last],
        relations: &[0, 1],
        comparisons: &[],
        queries: &[query::RELATION, 0, 0, 0],
        kinds: &[0],
    };
    let mut rows = [0; ROWS];
    check(&tables, Reading::Strict, &mut rows)?;
    Ok((0..1024).filter(|&c| shown(&rows, c) == 1).collect())
}

#[test]
fn a_quay_is_of_one_kind() {
    let mut rows = [u64::MAX; ROWS];
    assert_eq!(check(&QUAY, Reading::Strict, &mut rows), Ok(()));
    // Bits 1, 2 and 4; and then one of them for each kind.
    let wanted = [(0, 0b10110), (16, 0b10), (32, 0b100), (48, 0b10000)];
    for (index, &word) in rows.iter().enumerate() {
        let at = wanted.iter().find(|(place, _)| *place == index);
        assert_eq!(word, at.map_or(0, |&(_, word)| word), "word {index}");
    }
}

#[test]
fn it_holds_when_exactly_one_is_on() {
    let wanted: [(u64, [u16; 2], &[usize]); 8] = [
        (1, [0, 1], &[1]),
        (2, [0, 2], &[1, 2]),
        (2, [1, 1], &[2, 3]),
        (3, [0, 3], &[1, 2, 4]),
        (3, [0, 2], &[1, 2, 5, 6]),
        (3, [1, 2], &[2, 3, 4, 5]),
        (4, [1, 2], &[2, 3, 4, 5, 10, 11, 12, 13]),
        (10, [0, 10], &[1, 2, 4, 8, 16, 32, 64, 128, 256, 512]),
    ];
    for (features, [first, count], at) in wanted {
        let held = held(features, &[[EXACTLY_ONE, first, count]]);
        assert_eq!(held.as_deref(), Ok(at), "{first} {count} of {features}");
    }
}

#[test]
fn not_exactly_one() {
    let held = held(3, &[[EXACTLY_ONE, 0, 3], [NOT, 1, 0]]);
    assert_eq!(held, Ok(vec![0, 3, 5, 6, 7]));
}

/// A count outside 1 to 10, or a range that passes the features. In 16 bits some of
/// these would end at or below the number of features.
#[test]
fn ranges_that_are_refused() {
    let refusal = Err(refused(Refusal::EXPRESSION, 1, 0, 0));
    for (features, first, count) in [
        (0, 0, 0),
        (3, 0, 0),
        (3, 3, 0),
        (10, 0, 11),
        (10, 65535, 11),
        (3, 0, 65535),
        (3, 1, 65535),
        (0, 0, 1),
        (1, 0, 2),
        (6, 0, 7),
        (7, 7, 1),
        (10, 1, 10),
        (10, 10, 1),
        (3, 65535, 1),
        (3, 65535, 2),
        (10, 65530, 10),
    ] {
        let held = held(features, &[[EXACTLY_ONE, first, count]]);
        assert_eq!(held, refusal, "{first} {count} of {features}");
    }
}

#[test]
fn kind_7_is_unknown() {
    let refusal = Err(refused(Refusal::EXPRESSION, 1, 0, 0));
    assert_eq!(held(3, &[[EXACTLY_ONE + 1, 0, 3]]), refusal);
    assert_eq!(held(3, &[[EXACTLY_ONE + 256, 0, 3]]), refusal);
}

/// Locked: vessel and lock are kept. Of no kind or of two it is not permitted.
#[test]
fn a_locked_quay() {
    let (mut entries, mut relations, mut queries) = ([7; 8], [7; 2], [7; 4]);
    let mut configured = |configuration| {
        let lent = Lent {
            entries: &mut entries,
            relations: &mut relations,
            comparisons: &mut [],
            queries: &mut queries,
        };
        configure(&QUAY, Reading::Strict, configuration, lent)
    };
    for configuration in [0, 3, 5, 6, 7] {
        let refusal = refused(Refusal::CONFIGURATION, 0, 0, configuration);
        assert_eq!(configured(configuration), Err(refusal));
    }
    let counts = Counts {
        entries: 2,
        relations: 1,
        comparisons: 0,
        queries: 1,
    };
    assert_eq!(configured(LOCKED), Ok(counts));
    assert_eq!(entries, [VESSEL, 0, LOCK, 0, 7, 7, 7, 7]);
    assert_eq!(relations, [0, 2]);
    assert_eq!(queries, [query::RELATION, 0, 0, 0]);
}

#[test]
fn which_kind_of_quay_has_it() {
    assert_eq!(find(&QUAY, Reading::Strict, 0), Ok(Some(1)));
    assert_eq!(
        find(&QUAY, Reading::Strict, set(&[VESSEL, LOCK])),
        Ok(Some(2))
    );
    assert_eq!(find(&QUAY, Reading::Strict, set(&[PONTOON])), Ok(Some(4)));
    assert_eq!(
        find(&QUAY, Reading::Strict, set(&[TIDE, PONTOON])),
        Ok(None)
    );
}

#[test]
fn the_page_of_a_quay() {
    let wanted = [
        "   1 oo..............................................................  2\n",
        "   2 o.o.............................................................  2\n",
        "   4 o..o............................................................  2\n",
    ];
    let mut bytes = [0; 3 * PAGE_LINE];
    assert_eq!(page(&QUAY, Reading::Strict, &mut bytes), Ok(3));
    assert_eq!(String::from_utf8_lossy(&bytes), wanted.concat());
    let refusal = refused(Refusal::PAGE, 0, 0, 0);
    assert_eq!(page(&QUAY, Reading::Strict, &mut bytes[1..]), Err(refusal));
}
