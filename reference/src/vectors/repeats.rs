//! Attributes more than once in a list, by hand.

use super::Vector;
use crate::file::write_file;
use crate::tables::Tables;

pub fn cases() -> Vec<Vector> {
    let mut cases = accepted();
    cases.extend(refused());
    let named = cases.into_iter();
    named
        .map(|(name, tables)| Vector::new(name, write_file(&tables)))
        .collect()
}

const TRUE: u16 = 0;
const SWAPS: u16 = 1;
const GATES: u16 = 2;
const NO_SWAPS: u16 = 3;
const FALSE: u16 = 4;

/// Features swaps 0 and gates 1, three attributes. One relation, always there,
/// is the report.
fn yard(entries: &[[u16; 2]]) -> Tables {
    let expressions = [[1, 0, 0], [2, 0, 0], [2, 1, 0], [3, SWAPS, 0], [0, 0, 0]];
    Tables {
        features: 2,
        attributes: 3,
        model: u64::from(TRUE),
        expressions: expressions.concat(),
        entries: entries.concat(),
        relations: vec![TRUE, entries.len() as u16],
        queries: vec![1, 0, 0, 0],
        ..Tables::default()
    }
    .of_moments()
}

/// A project over the yard's relation.
fn projected(entries: &[[u16; 2]], list: &[[u16; 2]]) -> Tables {
    let mut tables = yard(entries);
    tables.entries.extend(list.concat());
    tables.queries.extend([3, list.len() as u16, 0, 0]);
    tables
}

/// Two relations under a product, union or intersection.
fn paired(kind: u16, first: &[[u16; 2]], second: &[[u16; 2]]) -> Tables {
    let mut tables = yard(&[first, second].concat());
    tables.relations = vec![TRUE, first.len() as u16, TRUE, second.len() as u16];
    tables.queries = vec![1, 0, 0, 0, 1, 1, 0, 0, kind, 0, 1, 0];
    tables
}

/// A relation that is there with swaps, and asked for there only.
fn with_swaps(entries: &[[u16; 2]]) -> Tables {
    let mut tables = yard(entries);
    tables.relations[0] = SWAPS;
    tables.queries.extend([0, 0, 0, 0, 4, SWAPS, 0, 1]);
    tables
}

/// The yard selected by attribute 2.
fn selected(entries: &[[u16; 2]]) -> Tables {
    let mut tables = yard(entries);
    tables.comparisons = vec![2, 0, 2, 7, 0];
    tables.queries.extend([2, 0, 0, 0]);
    tables
}

/// 512 entries of attribute 2 with swaps, but for the last.
fn long(last: u16) -> Tables {
    let mut entries = vec![[2, SWAPS]; 511];
    entries.push([2, last]);
    yard(&entries)
}

fn accepted() -> Vec<(&'static str, Tables)> {
    let either = [[0, TRUE], [2, SWAPS], [2, GATES]];
    let always = [[2, SWAPS], [2, NO_SWAPS]];
    vec![
        ("two-reasons-in-a-relation", yard(&either)),
        ("two-reasons-in-a-project", projected(&either, &either)),
        ("twice-for-the-same-reason", yard(&[[2, GATES], [2, GATES]])),
        (
            "three-reasons-at-a-distance",
            yard(&[[2, SWAPS], [0, TRUE], [2, GATES], [1, TRUE], [2, NO_SWAPS]]),
        ),
        (
            "two-reasons-make-an-always-in-a-union",
            paired(6, &always, &[[2, TRUE]]),
        ),
        (
            "a-repeat-that-holds-with-its-relation",
            with_swaps(&[[2, TRUE], [2, GATES]]),
        ),
        (
            "a-repeat-in-a-project-that-holds-nowhere",
            projected(&either, &[[0, TRUE], [0, FALSE]]),
        ),
        ("512-entries-of-one-attribute", long(GATES)),
    ]
}

fn refused() -> Vec<(&'static str, Tables)> {
    let either = [[2, SWAPS], [2, GATES]];
    vec![
        ("second-entry-holds-nowhere", yard(&[[2, TRUE], [2, FALSE]])),
        ("first-entry-holds-nowhere", yard(&[[2, FALSE], [2, TRUE]])),
        (
            "second-entry-holds-only-where-its-relation-is-absent",
            with_swaps(&[[2, TRUE], [2, NO_SWAPS]]),
        ),
        ("last-of-512-entries-holds-nowhere", long(FALSE)),
        (
            "compared-attribute-there-for-two-reasons-but-not-at-1",
            selected(&[[2, NO_SWAPS], [2, GATES]]),
        ),
        (
            "projected-attribute-missing-by-its-second-entry",
            projected(&[[2, SWAPS]], &either),
        ),
        (
            "projected-attribute-missing-by-its-first-entry",
            projected(&[[2, GATES]], &either),
        ),
        (
            "product-shares-by-a-second-entry",
            paired(5, &either, &[[0, TRUE], [2, GATES]]),
        ),
        (
            "intersection-of-two-reasons-and-always",
            paired(7, &either, &[[2, TRUE]]),
        ),
    ]
}
