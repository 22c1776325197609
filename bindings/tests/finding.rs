//! Which configuration gives these columns? On H1 of docs/FORMAT.md, "Worked
//! examples", and reports like it: vessel, berth and ramp; features swaps and ramps.

mod common;

use common::{moments, raw_find, refused, shown, H1};
use gelvomas::{check, find, Reading, Refusal, Tables, ROWS};

const VESSEL: u64 = 1 << 0;
const BERTH: u64 = 1 << 1;
const RAMP: u64 = 1 << 2;
const ALL: u64 = VESSEL | BERTH | RAMP;

/// The numbers of H1's expressions for swaps and for ramps, as models.
const SWAPS: u64 = 1;
const RAMPS: u64 = 2;

fn expect_found(tables: &Tables, wanted: u64, configuration: u64) {
    assert_eq!(
        find(tables, Reading::Strict, wanted),
        Ok(Some(configuration)),
        "{wanted:b}"
    );
}

fn expect_none(tables: &Tables, wanted: u64) {
    assert_eq!(
        find(tables, Reading::Strict, wanted),
        Ok(None),
        "{wanted:b}"
    );
}

fn expect_refused(tables: &Tables, wanted: u64, refusal: Refusal) {
    assert_eq!(
        find(tables, Reading::Strict, wanted),
        Err(refusal),
        "{wanted:b}"
    );
}

#[test]
fn the_lowest_configuration_that_has_them_all_is_found() {
    expect_found(&H1, VESSEL, 0);
    // Configurations 2 and 3 have it, and vessel too.
    expect_found(&H1, RAMP, 2);
    // Configurations 0 and 1 have one of them.
    expect_found(&H1, VESSEL | RAMP, 2);
}

#[test]
fn none_is_an_answer() {
    // The relation has berth, and the report does not.
    for wanted in [BERTH, VESSEL | BERTH, BERTH | RAMP, ALL] {
        expect_none(&H1, wanted);
    }
}

#[test]
fn attributes_that_are_never_together_give_none() {
    // Vessel where ramps is on, and berth elsewhere.
    let apart = Tables {
        expressions: &[1, 0, 0, 2, 0, 0, 2, 1, 0, 3, 2, 0],
        entries: &[0, 2, 1, 3],
        relations: &[0, 2],
        queries: &[1, 0, 0, 0],
        ..H1
    };
    expect_found(&apart, VESSEL, 2);
    expect_found(&apart, BERTH, 0);
    expect_none(&apart, VESSEL | BERTH);
}

#[test]
fn only_permitted_configurations_are_found() {
    let with = |model| Tables { model, ..H1 };
    expect_found(&with(SWAPS), VESSEL, 1);
    expect_found(&with(SWAPS), RAMP, 3);
    expect_found(&with(RAMPS), VESSEL, 2);
    // The relation always has ramp, the report where ramps is on, and the model is
    // that it is off.
    let never = Tables {
        model: 3,
        expressions: &[1, 0, 0, 2, 0, 0, 2, 1, 0, 3, 2, 0],
        entries: &[0, 0, 1, 0, 2, 0, 0, 0, 2, 2],
        ..H1
    };
    expect_none(&never, RAMP);
    expect_found(&Tables { model: 0, ..never }, RAMP, 2);
}

#[test]
fn nothing_wanted_gives_the_lowest_permitted_configuration() {
    expect_found(&H1, 0, 0);
    expect_found(&Tables { model: SWAPS, ..H1 }, 0, 1);
    expect_found(&Tables { model: RAMPS, ..H1 }, 0, 2);
    let empty = Tables {
        entries: &[],
        relations: &[],
        queries: &[0, 0, 0, 0],
        ..H1
    };
    expect_found(&empty, 0, 0);
    expect_none(&empty, VESSEL);
}

#[test]
fn with_ten_features_all_1024_configurations_are_looked_at() {
    // Ramp where this feature is on.
    for feature in 1..10 {
        let with_ten = Tables {
            features: 10,
            expressions: &[1, 0, 0, 2, 0, 0, 2, feature, 0],
            ..H1
        };
        expect_found(&with_ten, RAMP, 1 << feature);
    }
    // Ramp where all ten are on, which is expression 19.
    let mut expressions = vec![1, 0, 0];
    expressions.extend((0..10).flat_map(|feature| [2, feature, 0]));
    expressions.extend([4, 1, 2]);
    expressions.extend((3..11).flat_map(|form| [4, form + 8, form]));
    let all_ten = Tables {
        features: 10,
        expressions: &expressions,
        entries: &[0, 0, 1, 0, 2, 19, 0, 0, 2, 19],
        ..H1
    };
    expect_found(&all_ten, RAMP, 1023);
}

#[test]
fn a_wanted_attribute_past_the_number_of_attributes_is_refused() {
    let refusal = refused(22, 0, 0, 0);
    for bit in 3..64 {
        expect_refused(&H1, 1 << bit, refusal);
        // Also beside attributes that are found, and beside one that is not.
        expect_refused(&H1, VESSEL | RAMP | 1 << bit, refusal);
        expect_refused(&H1, BERTH | 1 << bit, refusal);
    }
    expect_refused(&H1, u64::MAX, refusal);
    // With one attribute more it is below.
    expect_none(
        &Tables {
            attributes: 4,
            kinds: moments(4),
            ..H1
        },
        1 << 3,
    );
}

#[test]
fn a_report_may_have_no_attributes() {
    let none = Tables {
        attributes: 0,
        kinds: &[],
        entries: &[],
        relations: &[0, 0],
        queries: &[1, 0, 0, 0],
        ..H1
    };
    expect_found(&none, 0, 0);
    expect_refused(&none, VESSEL, refused(22, 0, 0, 0));
}

#[test]
fn of_64_attributes_all_may_be_wanted() {
    // The last where ramps is on, and all others always.
    let mut entries: Vec<u16> = (0..64).flat_map(|a| [a, 0]).collect();
    entries[127] = 2;
    let full = Tables {
        attributes: 64,
        kinds: moments(64),
        entries: &entries,
        relations: &[0, 64],
        queries: &[1, 0, 0, 0],
        ..H1
    };
    expect_found(&full, u64::MAX, 2);
    expect_found(&full, 1 << 63, 2);
    expect_found(&full, u64::MAX >> 1, 0);
    // With 63 attributes, of which H1's report has two.
    let fewer = Tables {
        attributes: 63,
        kinds: moments(63),
        ..H1
    };
    expect_none(&fewer, 1 << 62);
    expect_refused(&fewer, 1 << 63, refused(22, 0, 0, 0));
    expect_refused(&fewer, u64::MAX, refused(22, 0, 0, 0));
    expect_none(
        &Tables {
            attributes: 64,
            kinds: moments(64),
            ..H1
        },
        1 << 63,
    );
}

#[test]
fn the_report_is_checked_before_the_set() {
    let h2 = Tables {
        entries: &[0, 0, 1, 0, 2, 2, 0, 0, 2, 1],
        ..H1
    };
    let h8 = Tables {
        expressions: &[0, 0, 0, 2, 0, 0, 2, 1, 0],
        ..H1
    };
    let over = Tables {
        attributes: 65,
        ..H1
    };
    for wanted in [0, VESSEL, 1 << 3, u64::MAX] {
        expect_refused(&Tables::default(), wanted, refused(2, 0, 0, 0));
        expect_refused(&over, wanted, refused(1, 1, 0, 0));
        expect_refused(&h8, wanted, refused(12, 0, 0, 0));
        // It is refused for configuration 1, also where 0 has what is wanted.
        expect_refused(&h2, wanted, refused(17, 1, 2, 1));
    }
}

#[test]
fn what_is_found_is_what_the_rows_show() {
    let mut rows = [0; ROWS];
    assert_eq!(check(&H1, Reading::Strict, &mut rows), Ok(()));
    for wanted in 0..=ALL {
        let has_all = |&c: &usize| wanted & !shown(&rows, c) == 0;
        let lowest = (0..4).find(has_all).map(|c| c as u64);
        assert_eq!(find(&H1, Reading::Strict, wanted), Ok(lowest), "{wanted:b}");
    }
}

#[test]
fn all_four_words_of_the_answer_are_written() {
    assert_eq!(raw_find(&H1, Reading::Strict, VESSEL), (0, [0, 0, 0, 0]));
    assert_eq!(
        raw_find(&H1, Reading::Strict, VESSEL | RAMP),
        (0, [2, 0, 0, 0])
    );
    assert_eq!(raw_find(&H1, Reading::Strict, BERTH), (2, [0, 0, 0, 0]));
    assert_eq!(raw_find(&H1, Reading::Strict, 1 << 3), (1, [22, 0, 0, 0]));
    assert_eq!(
        raw_find(&Tables::default(), Reading::Strict, 0),
        (1, [2, 0, 0, 0])
    );
    let h2 = Tables {
        entries: &[0, 0, 1, 0, 2, 2, 0, 0, 2, 1],
        ..H1
    };
    assert_eq!(raw_find(&h2, Reading::Strict, 0), (1, [17, 1, 2, 1]));
}
