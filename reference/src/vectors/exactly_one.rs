//! Expression kind 6, by hand: where it holds, where it is refused, and as the model.

use super::Vector;
use crate::cases::exactly_one::{chosen, modelled, quay, ranged, selected, shared, three_quays};
use crate::file::write_file;
use crate::tables::Tables;

pub fn cases() -> Vec<Vector> {
    let mut cases = accepted();
    cases.extend(models());
    cases.extend(refused());
    let named = cases.into_iter();
    named
        .map(|(name, tables)| Vector::new(name, write_file(&tables)))
        .collect()
}

fn accepted() -> Vec<(&'static str, Tables)> {
    vec![
        ("exactly-one-of-one-feature", ranged(1, [0, 1])),
        ("exactly-one-of-three", ranged(3, [0, 3])),
        ("exactly-one-of-the-first-two-of-three", ranged(3, [0, 2])),
        ("exactly-one-of-the-middle-two-of-four", ranged(4, [1, 2])),
        ("exactly-one-of-six", ranged(6, [0, 6])),
        ("exactly-one-of-the-last-two-of-seven", ranged(7, [5, 2])),
        ("exactly-one-chooses-a-relation", chosen()),
        ("exactly-one-chooses-a-comparison", selected([0, 1])),
        ("exactly-one-for-everything", shared()),
    ]
}

fn models() -> Vec<(&'static str, Tables)> {
    let mut otherwise = quay(&[[3, 0, 0]]);
    otherwise.model = 4;
    otherwise.relations[0] = 4;
    otherwise.entries[1] = 4;
    vec![
        ("quay-of-one-kind", quay(&[])),
        ("quay-of-no-kind-or-two-or-three", otherwise),
        ("three-quays-one-of-which-is-there", three_quays()),
        ("exactly-one-of-ten-permitted", modelled(10, [0, 10])),
        (
            "exactly-one-of-the-first-nine-permitted",
            modelled(10, [0, 9]),
        ),
        (
            "exactly-one-of-the-last-nine-permitted",
            modelled(10, [1, 9]),
        ),
    ]
}

fn refused() -> Vec<(&'static str, Tables)> {
    let mut unknown = ranged(3, [0, 3]);
    unknown.expressions[3] = 7;
    vec![
        ("exactly-one-of-no-features", ranged(3, [0, 0])),
        ("exactly-one-of-eleven", ranged(10, [0, 11])),
        ("exactly-one-of-features-past-the-last", ranged(3, [2, 2])),
        ("exactly-one-of-two-from-65535-on", ranged(3, [65535, 2])),
        ("expression-of-kind-7", unknown),
    ]
}
