//! Four wrong programs: the right answer on a case that the
//! wrong program gets wrong. And some more traps of the same sort.

use crate::common::{
    checked, checked_with, configured_with, h1, h1_without_list, refused, source_room,
};
use reference::check::shown;
use reference::Tables;

/// Two features, three attributes, true, feature 0, feature 1, not feature 1.
fn yard() -> Tables {
    Tables {
        features: 2,
        attributes: 3,
        model: 0,
        expressions: vec![1, 0, 0, 2, 0, 0, 2, 1, 0, 3, 2, 0],
        ..Tables::default()
    }
    .of_moments()
}

#[test]
fn alternatives_are_checked_only_where_taken() {
    // Relation 0 exists with feature 1 only, and the choice asks for feature 1.
    let mut tables = yard();
    tables.entries = vec![0, 0, 1, 0];
    tables.relations = vec![2, 2];
    tables.queries = vec![1, 0, 0, 0, 0, 0, 0, 0, 4, 2, 0, 1];
    let rows = checked(&tables).unwrap();
    assert_eq!([0, 1, 2, 3].map(|c| shown(&rows, c)), [0, 0, 3, 3]);
    // The alternatives exchanged, it is absent where it is reached.
    tables.queries = vec![1, 0, 0, 0, 0, 0, 0, 0, 4, 2, 1, 0];
    assert_eq!(checked(&tables), Err(refused(15, 0, 0, 0)));
}

#[test]
fn every_configuration_has_to_fit() {
    let mut h2 = h1();
    h2.entries[9] = 1;
    assert_eq!(checked(&h2), Err(refused(17, 1, 2, 1)));
}

#[test]
fn an_entry_holds_together_with_its_relation() {
    // The entry holds without feature 1, the relation with it.
    let mut tables = yard();
    tables.entries = vec![0, 0, 2, 3];
    tables.relations = vec![2, 2];
    tables.queries = vec![0, 0, 0, 0];
    assert_eq!(checked(&tables), Err(refused(14, 0, 2, 0)));
    // Relation and entry meet only where the model forbids it.
    tables.entries = vec![0, 0, 2, 1];
    tables.model = 3;
    tables.relations = vec![0, 2];
    tables.expressions.extend([4, 3, 2]);
    tables.entries[3] = 4;
    assert_eq!(checked(&tables), Err(refused(14, 0, 2, 0)));
}

#[test]
fn empty_is_no_joker() {
    for kind in [6, 7] {
        let tables = h1_without_list(&[0, 0, 0, 0, 1, 0, 0, 0, kind, 0, 1, 0]);
        assert_eq!(checked(&tables), Err(refused(19, 2, 0, 0)));
        let tables = h1_without_list(&[0, 0, 0, 0, 0, 0, 0, 0, kind, 0, 1, 0]);
        assert!(checked(&tables).is_ok());
    }
}

#[test]
fn the_lowest_form_comes_before_the_lowest_configuration() {
    // Form 1 projects attribute 2 away from feature 1, where it is missing at
    // configuration 2 first; form 3 fails at 0 already.
    let mut tables = yard();
    tables.entries = vec![0, 0, 2, 3, 2, 2, 0, 0];
    tables.relations = vec![0, 2];
    tables.queries = vec![1, 0, 0, 0, 3, 1, 0, 0, 0, 0, 0, 0, 3, 1, 2, 0, 5, 1, 3, 0];
    assert_eq!(checked(&tables), Err(refused(17, 1, 2, 2)));
    // Alone, the higher form fails at 0.
    tables.entries[5] = 3;
    assert_eq!(checked(&tables), Err(refused(17, 3, 0, 0)));
}

#[test]
fn the_walk_order_does_not_choose_the_fault() {
    // Form 4 takes 3 before 2: the walk meets form 3's fault first.
    let mut tables = yard();
    tables.entries = vec![0, 0, 1, 0, 2, 0, 2, 0];
    tables.relations = vec![0, 2];
    tables.queries = vec![1, 0, 0, 0, 1, 0, 0, 0, 3, 1, 1, 0, 3, 1, 0, 0, 6, 3, 2, 0];
    assert_eq!(checked(&tables), Err(refused(17, 2, 2, 0)));
}

#[test]
fn choices_of_comparisons_are_taken_and_constants_name_too() {
    let mut tables = yard();
    tables.entries = vec![0, 0, 2, 2];
    tables.relations = vec![0, 2];
    tables.comparisons = vec![1, 0, 0, 0, 0, 2, 0, 2, 9, 0, 7, 0, 2, 1, 0];
    tables.queries = vec![1, 0, 0, 0, 2, 2, 0, 0];
    assert!(checked(&tables).is_ok());
    // Elsewhere and there exchanged: named where feature 1 is off.
    tables.comparisons[13..].copy_from_slice(&[0, 1]);
    assert_eq!(checked(&tables), Err(refused(16, 1, 2, 0)));
    // A constant of another kind: 16 comes first while the attribute is missing.
    tables.comparisons[9] = 2;
    assert_eq!(checked(&tables), Err(refused(16, 1, 2, 0)));
    tables.comparisons[13..].copy_from_slice(&[1, 0]);
    assert_eq!(checked(&tables), Err(refused(25, 1, 2, 2)));
    tables.comparisons[9] = 0;
    // "Always or x" names x whatever its truth.
    tables.comparisons[10..].copy_from_slice(&[6, 0, 0, 1, 0]);
    assert_eq!(checked(&tables), Err(refused(16, 1, 2, 0)));
}

#[test]
fn the_order_of_the_checks() {
    // Lengths before contents; 5 before 6; 9 before 10; 11 before 12.
    let mut tables = h1();
    tables.expressions[0] = 9;
    tables.queries.pop();
    assert_eq!(checked(&tables), Err(refused(2, 4, 0, 0)));
    let mut tables = h1();
    tables.relations = vec![9, 900];
    tables.entries[8] = 3;
    assert_eq!(checked(&tables), Err(refused(5, 4, 0, 0)));
    let mut tables = h1();
    tables.queries = vec![1, 0, 0, 0, 0, 0, 0, 0];
    assert_eq!(checked(&tables), Err(refused(9, 0, 0, 0)));
    tables.queries.truncate(4);
    assert_eq!(checked(&tables), Err(refused(10, 3, 0, 0)));
    let mut tables = h1();
    tables.expressions[0] = 0;
    for room in [0, 1023, 1025, 4096] {
        assert_eq!(checked_with(&tables, room), Err(refused(11, 0, 0, 0)));
    }
    // 10 before 24; 24 before 11 and 12.
    tables.kinds[1] = 3;
    assert_eq!(checked_with(&tables, 0), Err(refused(24, 1, 0, 0)));
    tables.queries.truncate(4);
    assert_eq!(checked_with(&tables, 0), Err(refused(10, 3, 0, 0)));
    // 14 of relation 0 before 13 of relation 1; 14 in the order of the list.
    let mut tables = yard();
    tables.expressions.extend([0, 0, 0]);
    tables.entries = vec![2, 4, 0, 4];
    tables.relations = vec![0, 2, 4, 0];
    tables.queries = vec![0, 0, 0, 0];
    assert_eq!(checked(&tables), Err(refused(14, 0, 2, 0)));
}

#[test]
fn configuring_checks_typing_then_20_then_21() {
    let mut h2 = h1();
    h2.entries[9] = 1;
    assert_eq!(
        configured_with(&h2, u64::MAX, [0; 4]),
        Err(refused(17, 1, 2, 1))
    );
    for c in [4, 1024, 65536, 1 << 32, u64::MAX] {
        assert_eq!(configured_with(&h1(), c, [0; 4]), Err(refused(20, 0, 0, c)));
    }
    let mut guarded = h1();
    guarded.model = 1;
    assert_eq!(
        configured_with(&guarded, 2, [0; 4]),
        Err(refused(20, 0, 0, 2))
    );
    for table in [1, 2, 4] {
        let mut room = source_room(&h1());
        room[table - 1] -= 1;
        let wanted = refused(21, table as u64, 0, 0);
        assert_eq!(configured_with(&h1(), 0, room), Err(wanted));
    }
}

#[test]
fn sharing_takes_no_time() {
    // 256 expressions and comparisons, each taking the one before it twice.
    let mut tables = h1();
    for last in 2..255 {
        tables.expressions.extend([4, last, last]);
    }
    tables.comparisons = vec![2, 0, 2, 0, 0];
    for last in 0..254 {
        tables.comparisons.extend([5, 0, last, last, 0]);
    }
    tables.comparisons.extend([7, 0, 255, 254, 254]);
    tables.queries = vec![1, 0, 0, 0, 3, 2, 0, 0, 2, 255, 1, 0];
    assert_eq!(checked(&tables), Err(refused(16, 2, 2, 0)));
    tables.comparisons[2] = 0;
    assert!(checked(&tables).is_ok());
}
