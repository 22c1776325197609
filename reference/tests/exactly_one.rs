//! Expression kind 6, "exactly one of a range of features is on": its sentences one
//! by one; generated cases against the same with kind 6 spelled out; and which stored
//! case tells which wrong program.

use std::collections::BTreeMap;

use crate::common::readings::{self, RIGHT, WRONG};
use crate::common::{
    checked, configured_with, find, made, paged_with, refused, source_room, written,
};
use reference::cases::{Aimed, FILES};
use reference::check::{shown, ROWS};
use reference::file::{print_file, read_file, write_file};
use reference::generate;
use reference::small::{self, Case};
use reference::{expression, Reading, Refusal, Tables};

/// So many features. Attribute 0 is listed where exactly one of the `count`
/// features from `first` on is on, and attribute 1 always.
fn ranged(features: u64, first: u16, count: u16) -> Tables {
    Tables {
        features,
        attributes: 2,
        model: 0,
        expressions: vec![1, 0, 0, 6, first, count],
        entries: vec![0, 1, 1, 0],
        relations: vec![0, 2],
        queries: vec![1, 0, 0, 0],
        ..Tables::default()
    }
    .of_moments()
}

/// The configurations at which attribute 0 is a column.
fn held(tables: &Tables) -> Result<Vec<u64>, Refusal> {
    let rows = checked(tables)?;
    let has = |c: &u64| shown(&rows, *c) & 1 == 1;
    Ok((0..1024).filter(has).collect())
}

fn permitted(tables: &Tables) -> Vec<u64> {
    let all = expression::permitted(tables);
    all.iter().map(|at| at.configuration).collect()
}

/// Features tidal 0, locked 1 and floating 2, of which exactly one is on;
/// attributes vessel 0, tide 1, lock 2 and pontoon 3. The report is a relation
/// that is always there.
fn quay() -> Tables {
    Tables {
        features: 3,
        attributes: 4,
        model: 0,
        expressions: vec![6, 0, 3, 2, 0, 0, 2, 1, 0, 2, 2, 0],
        entries: vec![0, 0, 1, 1, 2, 2, 3, 3],
        relations: vec![0, 4],
        queries: vec![1, 0, 0, 0],
        ..Tables::default()
    }
    .of_moments()
}

// "A quay is tidal, locked or floating, never two"

#[test]
fn a_quay_is_of_one_kind() {
    assert_eq!(permitted(&quay()), [1, 2, 4]);
    let rows = checked(&quay()).unwrap();
    assert_eq!([1, 2, 4].map(|c| shown(&rows, c)), [0b0011, 0b0101, 0b1001]);
    // None of them, two of them and all three are not permitted.
    for c in [0, 3, 5, 6, 7] {
        assert_eq!(shown(&rows, c), 0);
        let answer = configured_with(&quay(), c, source_room(&quay()));
        assert_eq!(answer, Err(refused(20, 0, 0, c)));
    }
}

#[test]
fn what_needs_two_kinds_of_quay_is_nowhere() {
    let mut tables = quay();
    tables.expressions.extend([4, 1, 2]);
    tables.entries[5] = 4;
    assert_eq!(checked(&tables), Err(refused(14, 0, 2, 0)));
    tables.relations[0] = 4;
    assert_eq!(checked(&tables), Err(refused(13, 0, 0, 0)));
    tables.model = 5;
    tables.expressions.extend([4, 0, 4]);
    assert_eq!(checked(&tables), Err(refused(12, 0, 0, 0)));
}

#[test]
fn the_file_of_a_quay() {
    let text = "(head 3 4 0)
(expression 6 0 3)
(expression 2 0 0)
(expression 2 1 0)
(expression 2 2 0)
(entry 0 0)
(entry 1 1)
(entry 2 2)
(entry 3 3)
(relation 0 4)
(query 1 0 0 0)
";
    assert_eq!(read_file(text.as_bytes()), Ok(quay()));
    assert_eq!(write_file(&quay()), text.as_bytes());
    let print = "(accepted)
(at 1 (has 0 1))
(at 2 (has 0 2))
(at 4 (has 0 3))
";
    assert_eq!(print_file(text.as_bytes()), print.as_bytes());
}

// "It holds when exactly one of them is on": "a is the first feature, b how many"

#[test]
fn it_holds_when_exactly_one_is_on() {
    let wanted: [(u64, [u16; 2], &[u64]); 12] = [
        (1, [0, 1], &[1]),
        (2, [0, 2], &[1, 2]),
        (2, [0, 1], &[1, 3]),
        (2, [1, 1], &[2, 3]),
        // At 7 three are on: an odd number, and not one.
        (3, [0, 3], &[1, 2, 4]),
        // Feature 2 does not matter, and then feature 0.
        (3, [0, 2], &[1, 2, 5, 6]),
        (3, [1, 2], &[2, 3, 4, 5]),
        (4, [0, 4], &[1, 2, 4, 8]),
        (4, [1, 2], &[2, 3, 4, 5, 10, 11, 12, 13]),
        (4, [1, 3], &[2, 3, 4, 5, 8, 9]),
        (4, [0, 1], &[1, 3, 5, 7, 9, 11, 13, 15]),
        (10, [0, 10], &[1, 2, 4, 8, 16, 32, 64, 128, 256, 512]),
    ];
    for (features, [first, count], at) in wanted {
        let tables = ranged(features, first, count);
        assert_eq!(held(&tables).as_deref(), Ok(at), "{first} {count}");
    }
}

/// Every range of every number of features: the bits of the range, taken alone,
/// are a power of two.
#[test]
fn every_range() {
    for n in 1..=10 {
        for first in 0..n {
            for count in 1..=n - first {
                let one = |c: &u64| (c >> first & ((1 << count) - 1)).is_power_of_two();
                let at: Vec<u64> = (0..1 << n).filter(one).collect();
                let tables = ranged(n, first as u16, count as u16);
                assert_eq!(held(&tables), Ok(at), "{n} {first} {count}");
            }
        }
    }
}

#[test]
fn one_of_one_feature_is_the_feature_itself() {
    for n in 1..=10 {
        for feature in 0..n as u16 {
            let one = ranged(n, feature, 1);
            let mut itself = one.clone();
            itself.expressions.splice(3..6, [2, feature, 0]);
            assert_eq!(checked(&one), checked(&itself), "{feature} of {n}");
        }
    }
}

/// The words are no numbers of forms: they may be as high as the form's own, and
/// higher.
#[test]
fn the_words_are_no_operands() {
    let mut tables = ranged(10, 9, 1);
    tables.expressions = vec![6, 9, 1, 6, 0, 10];
    assert_eq!(held(&tables), Ok(vec![512]));
}

// Under other forms, and shared

#[test]
fn under_not_and_or() {
    let mut tables = ranged(3, 0, 3);
    let mut holds = |form: [u16; 3]| {
        tables.expressions.truncate(6);
        tables.expressions.extend([3, 1, 0]);
        tables.expressions.extend(form);
        tables.entries[1] = 3;
        held(&tables)
    };
    let at = |configurations: &[u64]| Ok(configurations.to_vec());
    assert_eq!(holds([3, 1, 0]), at(&[0, 3, 5, 6, 7]));
    assert_eq!(holds([3, 2, 0]), at(&[1, 2, 4]));
    // Both operands of one form.
    assert_eq!(holds([4, 1, 1]), at(&[1, 2, 4]));
    assert_eq!(holds([5, 1, 1]), at(&[1, 2, 4]));
    assert_eq!(holds([5, 1, 2]), at(&[0, 1, 2, 3, 4, 5, 6, 7]));
    assert_eq!(holds([4, 1, 2]), Err(refused(14, 0, 0, 0)));
    // The same once more, and another range.
    assert_eq!(holds([6, 0, 3]), at(&[1, 2, 4]));
    assert_eq!(holds([6, 1, 2]), at(&[2, 3, 4, 5]));
}

/// One form is the condition of a relation, of an entry, of a choice and of a
/// choice of comparisons.
#[test]
fn shared_by_all_that_has_a_condition() {
    let mut tables = ranged(2, 0, 2);
    tables.relations[0] = 1;
    tables.comparisons = vec![2, 0, 0, 7, 0, 1, 0, 0, 0, 0, 7, 0, 1, 0, 1];
    tables.queries = vec![1, 0, 0, 0, 0, 0, 0, 0, 4, 1, 0, 1, 2, 2, 2, 0];
    let rows = checked(&tables).unwrap();
    assert_eq!([0, 1, 2, 3].map(|c| shown(&rows, c)), [0, 0b11, 0b11, 0]);
    // The alternatives exchanged, the relation is absent where it is reached.
    tables.queries[10..12].copy_from_slice(&[1, 0]);
    assert_eq!(checked(&tables), Err(refused(15, 0, 0, 0)));
}

// "A count outside 1 to 10 or a range that passes n is refusal 3"

#[test]
fn a_count_outside_1_to_10() {
    for n in 0..=10 {
        for first in [0, 1, n as u16, 10, 65525, 65535] {
            for count in [0, 11, 12, 256, 257, 32768, 65535] {
                let answer = checked(&ranged(n, first, count));
                assert_eq!(answer, Err(refused(3, 1, 0, 0)), "{n} {first} {count}");
            }
        }
    }
}

#[test]
fn a_range_that_passes_n() {
    for n in 0..=10 {
        for first in 0..=11 {
            for count in 1..=10 {
                let tables = ranged(n, first, count);
                let answer = checked(&tables).map(|_| ());
                let wanted = match u64::from(first + count) <= n {
                    true => Ok(()),
                    false => Err(refused(3, 1, 0, 0)),
                };
                assert_eq!(answer, wanted, "{n} {first} {count}");
            }
        }
    }
}

/// In 16 bits these ranges would end at 0 to 9.
#[test]
fn where_a_range_ends_is_not_cut_to_16_bits() {
    for n in [0, 1, 6, 7, 10] {
        for [first, count] in [
            [65535, 1],
            [65535, 2],
            [65530, 10],
            [65526, 10],
            [65535, 10],
        ] {
            let answer = checked(&ranged(n, first, count));
            assert_eq!(answer, Err(refused(3, 1, 0, 0)), "{n} {first} {count}");
        }
    }
}

#[test]
fn the_first_form_at_fault_is_named() {
    let mut tables = ranged(3, 0, 3);
    tables.expressions.extend([6, 2, 1, 6, 2, 2, 6, 0, 0]);
    assert_eq!(checked(&tables), Err(refused(3, 3, 0, 0)));
    tables.expressions[11] = 1;
    tables.model = 9;
    assert_eq!(checked(&tables), Err(refused(3, 4, 0, 0)));
}

#[test]
fn kind_7_and_over_is_unknown() {
    for kind in [7, 8, 9, 256 + 6, 32768 + 6, 65535] {
        for [a, b] in [[0, 0], [0, 1], [0, 3]] {
            let mut tables = ranged(3, a, b);
            tables.expressions[3] = kind;
            assert_eq!(checked(&tables), Err(refused(3, 1, 0, 0)), "{kind}");
        }
    }
}

// The other calls

/// What configuring writes, with its fixed head and expression, holds no kind 6.
#[test]
fn a_configured_quay_has_no_features() {
    let mut tables = quay();
    tables.expressions.extend([6, 0, 2]);
    tables.entries = vec![0, 0, 2, 4];
    tables.relations[1] = 2;
    for (c, entries) in [
        (1, vec![0, 0, 2, 0]),
        (2, vec![0, 0, 2, 0]),
        (4, vec![0, 0]),
    ] {
        let lent = configured_with(&tables, c, source_room(&tables)).unwrap();
        let plain = written(&tables, lent);
        assert_eq!(plain.entries, entries, "{c}");
        assert_eq!(plain.relations, [0, entries.len() as u16 / 2]);
        let rows = checked(&plain).unwrap();
        assert_eq!(shown(&rows, 0), shown(&checked(&tables).unwrap(), c));
    }
}

#[test]
fn found_where_exactly_one_is_on() {
    // Nothing: 0 is not permitted. Lock, pontoon, and both, which are never together.
    assert_eq!(find(&quay(), 0), Ok(Some(1)));
    assert_eq!(find(&quay(), 0b0100), Ok(Some(2)));
    assert_eq!(find(&quay(), 0b1001), Ok(Some(4)));
    assert_eq!(find(&quay(), 0b1100), Ok(None));
    // The last of ten, and one of nine with the tenth on.
    let mut tables = ranged(10, 0, 10);
    tables.model = 1;
    tables.expressions.extend([2, 9, 0]);
    tables.entries[1] = 2;
    assert_eq!(find(&tables, 0b01), Ok(Some(512)));
    tables.expressions[5] = 9;
    assert_eq!(find(&tables, 0b01), Ok(Some(513)));
}

#[test]
fn the_page_of_a_quay() {
    let page = [
        "   1 oo..............................................................  2\n",
        "   2 o.o.............................................................  2\n",
        "   4 o..o............................................................  2\n",
    ];
    let written = paged_with(&quay(), 219).unwrap();
    assert_eq!(String::from_utf8_lossy(&written), page.concat());
    assert_eq!(paged_with(&quay(), 218), Err(refused(23, 0, 0, 0)));
}

// Generated cases

/// Spelled out with features, not, and, or, the tables give the same answers.
#[test]
fn spelled_out_it_gives_the_same_answers() {
    let varied = (0..3000).map(made::case);
    let walls = (0..100).map(generate::wall);
    let full = (0..8).map(made::full);
    let checks = varied.chain(walls).chain(full);
    let checks = checks.map(|tables| Case::check(tables, Reading::Strict, ROWS));
    let mut compared = 0;
    for case in checks.chain((0..4000).map(small::case)) {
        if let Some(answer) = readings::answer(&case, &RIGHT) {
            compared += 1;
            assert_eq!(answer, small::answer(&case), "{case:?}");
        }
    }
    println!("{compared}");
    assert!(compared > 5000);
}

// Stored cases

/// The cases of `cases/exactly-one.txt`, with their numbers.
fn stored() -> Vec<(u64, Aimed)> {
    let mut files = FILES.iter();
    let file = files.find(|file| file.name == "exactly-one");
    file.expect("there is such a file").numbered()
}

/// For each wrong program the number of a case that tells it.
const TELLING: [(&str, u64); 13] = [
    ("at least one", 4002),
    ("at most one", 4002),
    ("an odd number", 4003),
    ("one feature more", 4004),
    ("one feature fewer", 4005),
    ("one feature later", 4005),
    ("features counted from the top", 4004),
    ("from feature a down", 4005),
    ("where the range ends in 16 bits", 4031),
    ("a range that ends with the last feature refused", 4003),
    ("no features let through", 4014),
    ("11 features let through, wherever they end", 4017),
    ("11 features let through, where they end in 16 bits", 4018),
];

#[test]
fn each_wrong_program_is_told_by_a_case() {
    let stored: BTreeMap<u64, Aimed> = stored().into_iter().collect();
    for (reading, (words, number)) in WRONG.iter().zip(TELLING) {
        assert_eq!(reading.words, words);
        let Aimed { case, answer, .. } = &stored[&number];
        let wrong = readings::answer(case, reading).expect("there is room");
        assert_ne!(&wrong, answer, "{words}");
    }
}

#[test]
fn the_stored_cases_spelled_out() {
    for (number, Aimed { case, answer, .. }) in stored() {
        assert_eq!(readings::answer(&case, &RIGHT), Some(answer), "{number}");
    }
}
