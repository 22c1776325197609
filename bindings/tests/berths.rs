//! H1 to H10 of docs/FORMAT.md, "Worked examples", except H3 (as H2) and
//! H4, which is configured (configuring.rs); and the words lent.

mod common;

use common::{raw_check, refused, H1};
use gelvomas::{check, Reading, Refusal, Tables, ROWS};

/// What the words are before a call.
const STALE: u64 = 0xABCD_EF01_2345_6789;

/// Refused so, with every word as it was.
fn expect_refused(tables: &Tables, wanted: Refusal) {
    let mut rows = [STALE; ROWS];
    assert_eq!(check(tables, Reading::Strict, &mut rows), Err(wanted));
    assert!(rows.iter().all(|&word| word == STALE));
}

/// Accepted, with these words at these places and 0 elsewhere.
fn expect_rows(tables: &Tables, wanted: &[(usize, u64)]) {
    let mut rows = [STALE; ROWS];
    assert_eq!(check(tables, Reading::Strict, &mut rows), Ok(()));
    for (index, &word) in rows.iter().enumerate() {
        let at = wanted.iter().find(|(place, _)| *place == index);
        assert_eq!(word, at.map_or(0, |&(_, word)| word), "word {index}");
    }
}

/// By the C function, which takes rows of any length: refused so, with every word
/// as it was.
fn expect_rows_refused(tables: &Tables, length: usize, wanted: Refusal) {
    let mut rows = vec![STALE; length];
    let (answer, refusal) = raw_check(tables, Reading::Strict, &mut rows);
    assert_eq!((answer, Refusal::from(refusal)), (1, wanted));
    assert!(rows.iter().all(|&word| word == STALE));
}

/// H1 without its last two entries, and with these queries.
fn without_list(queries: &[u16]) -> Tables<'_> {
    Tables {
        entries: &H1.entries[..6],
        queries,
        ..H1
    }
}

#[test]
fn h1_is_accepted() {
    expect_rows(&H1, &[(0, 0b1111), (32, 0b1100)]);
}

#[test]
fn h2_a_projected_attribute_is_missing() {
    let entries = [0, 0, 1, 0, 2, 2, 0, 0, 2, 1];
    let h2 = Tables {
        entries: &entries,
        ..H1
    };
    expect_refused(&h2, refused(17, 1, 2, 1));
}

#[test]
fn h5_a_product_shares() {
    let h5 = without_list(&[1, 0, 0, 0, 1, 0, 0, 0, 5, 0, 1, 0]);
    expect_refused(&h5, refused(18, 2, 0, 0));
}

#[test]
fn h6_an_operand_is_taken_twice() {
    let h6 = without_list(&[1, 0, 0, 0, 5, 0, 0, 0]);
    expect_refused(&h6, refused(8, 1, 0, 0));
}

#[test]
fn h7_empty_fits_no_other_set() {
    let h7 = without_list(&[0, 0, 0, 0, 1, 0, 0, 0, 6, 0, 1, 0]);
    expect_refused(&h7, refused(19, 2, 0, 0));
}

#[test]
fn h8_nothing_is_permitted() {
    let h8 = Tables {
        expressions: &[0, 0, 0, 2, 0, 0, 2, 1, 0],
        ..H1
    };
    expect_refused(&h8, refused(12, 0, 0, 0));
}

#[test]
fn h9_ten_features_and_no_more() {
    let with = |features| Tables { features, ..H1 };
    expect_refused(&with(11), refused(1, 0, 0, 0));
    // Attribute 0 everywhere, attribute 2 where feature 1 is on.
    let always = (0..16).map(|word| (word, u64::MAX));
    let ramps = (32..48).map(|word| (word, 0xCCCC_CCCC_CCCC_CCCC));
    expect_rows(&with(10), &always.chain(ramps).collect::<Vec<_>>());
}

#[test]
fn h10_a_choice_leads_to_empty() {
    let h10 = Tables {
        queries: &[1, 0, 0, 0, 0, 0, 0, 0, 4, 2, 0, 1, 3, 2, 2, 0],
        ..H1
    };
    expect_refused(&h10, refused(17, 3, 0, 0));
}

#[test]
fn rows_of_another_length_are_refused() {
    for length in [0, 1, 16, 1023, 1025, 2048, 70_000] {
        expect_rows_refused(&H1, length, refused(11, 0, 0, 0));
    }
}

#[test]
fn the_form_is_checked_before_the_rows() {
    expect_rows_refused(&Tables::default(), 3, refused(2, 0, 0, 0));
}

#[test]
fn numbers_of_64_bits_are_not_cut() {
    let features = 2 + (1 << 32);
    expect_refused(&Tables { features, ..H1 }, refused(1, 0, 0, 0));
    let attributes = 3 + (1 << 32);
    expect_refused(&Tables { attributes, ..H1 }, refused(1, 1, 0, 0));
    let model = 1 << 32;
    expect_refused(&Tables { model, ..H1 }, refused(4, 0, 0, 0));
}
