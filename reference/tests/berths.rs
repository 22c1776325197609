//! H1 to H10 of docs/FORMAT.md, "Worked examples".

use crate::common::{
    checked, configured_with, h1, h1_without_list, refused, source_room, LENT_WORD,
};
use reference::check::shown;
use reference::file::{print_file, write_file};
use reference::small::H1;

const H1_PRINT: &str = "(accepted)
(at 0 (has 0))
(at 1 (has 0))
(at 2 (has 0 2))
(at 3 (has 0 2))
";

#[test]
fn h1_prints_as_shown() {
    assert_eq!(print_file(H1.as_bytes()), H1_PRINT.as_bytes());
    assert_eq!(write_file(&h1()), H1.as_bytes());
}

#[test]
fn h1_has_these_rows_and_no_other_bit() {
    let rows = checked(&h1()).unwrap();
    for (index, &word) in rows.iter().enumerate() {
        let wanted = match index {
            0 => 0b1111,
            32 => 0b1100,
            _ => 0,
        };
        assert_eq!(word, wanted, "word {index}");
    }
    assert_eq!(shown(&rows, 3), 0b101);
}

#[test]
fn h2_h3_a_projected_attribute_is_missing() {
    let mut h2 = h1();
    h2.entries[9] = 1;
    assert_eq!(checked(&h2), Err(refused(17, 1, 2, 1)));
    let mut h3 = h1();
    h3.entries[9] = 0;
    assert_eq!(checked(&h3), Err(refused(17, 1, 2, 0)));
    assert_eq!(print_file(&write_file(&h2)), b"(refused 17 1 2 1)\n");
}

#[test]
fn h4_configured_at_0() {
    let (counts, out) = configured_with(&h1(), 0, source_room(&h1())).unwrap();
    let x = LENT_WORD;
    assert_eq!(counts, [3, 1, 0, 2]);
    assert_eq!(out[0], [0, 0, 1, 0, 0, 0, x, x, x, x]);
    assert_eq!(out[1], [0, 2]);
    assert_eq!(out[2], []);
    assert_eq!(out[3], [1, 0, 0, 0, 3, 1, 0, 0]);
}

#[test]
fn h5_a_product_shares() {
    let h5 = h1_without_list(&[1, 0, 0, 0, 1, 0, 0, 0, 5, 0, 1, 0]);
    assert_eq!(checked(&h5), Err(refused(18, 2, 0, 0)));
}

#[test]
fn h6_an_operand_is_taken_twice() {
    let h6 = h1_without_list(&[1, 0, 0, 0, 5, 0, 0, 0]);
    assert_eq!(checked(&h6), Err(refused(8, 1, 0, 0)));
}

#[test]
fn h7_empty_fits_no_other_set() {
    let h7 = h1_without_list(&[0, 0, 0, 0, 1, 0, 0, 0, 6, 0, 1, 0]);
    assert_eq!(checked(&h7), Err(refused(19, 2, 0, 0)));
}

#[test]
fn h8_nothing_is_permitted() {
    let mut h8 = h1();
    h8.expressions[0] = 0;
    assert_eq!(checked(&h8), Err(refused(12, 0, 0, 0)));
}

#[test]
fn h9_11_features_are_too_many_and_10_are_not() {
    let mut h9 = h1();
    h9.features = 11;
    assert_eq!(checked(&h9), Err(refused(1, 0, 0, 0)));
    h9.features = 10;
    let rows = checked(&h9).unwrap();
    for c in 0..1024 {
        let wanted = if c & 2 == 2 { 0b101 } else { 0b001 };
        assert_eq!(shown(&rows, c), wanted, "configuration {c}");
    }
}

#[test]
fn h10_a_project_over_a_choice() {
    let mut h10 = h1();
    h10.queries = vec![1, 0, 0, 0, 0, 0, 0, 0, 4, 2, 0, 1, 3, 2, 2, 0];
    assert_eq!(checked(&h10), Err(refused(17, 3, 0, 0)));
}
