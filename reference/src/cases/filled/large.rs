//! Many configurations: what is found at the last of them alone.

use super::{both, choice, configure, filled, find, joined, project, relation, set, with_forms};
use super::{Entry, Form, NOTHING};
use crate::cases::Aimed;
use crate::tables::Tables;

const TRUE: u16 = 0;

/// The last bit of a word.
const LAST: u64 = 1 << 63;

/// The number of the expression that holds with all features on alone, and of its negation.
fn last(features: u16) -> u16 {
    2 * features - 1
}

fn not_last(features: u16) -> u16 {
    2 * features
}

/// True is 0, feature f is 1 + f. Then all of them, and not all.
fn harbour(features: u16, relations: &[(u16, &[Entry])], forms: &[Form]) -> Tables {
    let mut expressions = vec![[1, 0, 0]];
    expressions.extend((0..features).map(|feature| [2, feature, 0]));
    for feature in 1..features {
        let before = match feature {
            1 => 1,
            _ => features + feature - 1,
        };
        expressions.push([4, before, 1 + feature]);
    }
    expressions.push([3, last(features), 0]);
    Tables {
        features: features.into(),
        attributes: 2,
        expressions: expressions.concat(),
        ..with_forms(relations, forms)
    }
    .of_moments()
}

/// The highest 65 of 128 are permitted: from 63 on.
fn from_63(mut tables: Tables) -> Tables {
    // 63 and above, with feature 6 (its expression is 7) or with all lower ones.
    let lower = tables.add_expression([4, 1, 2]);
    let lower = (3..=6).fold(lower, |all, on| tables.add_expression([4, all, on]));
    let model = tables.add_expression([5, lower, 7]);
    Tables {
        model: model.into(),
        ..tables
    }
}

/// A relation that is present at the last configuration alone is the report.
fn present_at_last(features: u16) -> Tables {
    let list = [[0, TRUE]];
    harbour(features, &[(last(features), &list)], &[relation(0)])
}

/// The same, reached everywhere but there.
fn absent_everywhere(features: u16) -> Tables {
    let list = [[0, TRUE]];
    let forms = [relation(0), NOTHING, choice(last(features), 1, 0)];
    harbour(features, &[(last(features), &list)], &forms)
}

/// An attribute that is there at the last configuration alone is projected always, or
/// everywhere but there.
fn projected(features: u16, listed: u16) -> Tables {
    let list = [[0, last(features)], [1, TRUE]];
    let projected = [[1, TRUE], [0, listed]];
    let forms = [relation(0), project(&projected, 0)];
    harbour(features, &[(TRUE, &list)], &forms)
}

/// The rows of attribute 0 at the last configuration, and of attribute 1 at all permitted
/// ones, in so many words.
fn rows_of_both(words: usize) -> String {
    let of_1 = (0..words).map(|word| format!(" {}:{}", 16 + word, u64::MAX));
    format!("rows {}:{LAST}{}", words - 1, of_1.collect::<String>())
}

pub fn cases() -> Vec<Aimed> {
    joined([of_1024(), of_64(), of_65()])
}

fn of_1024() -> Vec<Aimed> {
    let written = "written E 1 0 0 R 1 0 1 C 0 Q 1 1 0 0 0";
    let calls = [
        configure("1,024, at the last", written, present_at_last(10), 1023),
        configure(
            "1,024, 0 is dropped at the last but one",
            "written E 2 1 0 1 0 R 1 0 1 C 0 Q 2 1 0 0 0 3 1 0 0",
            projected(10, TRUE),
            1022,
        ),
        find(
            "1,024, 0 and 1",
            "found 1023",
            projected(10, TRUE),
            set(&[0, 1]),
        ),
    ];
    joined([
        both(
            "1,024, the relation present at the last alone",
            "refused 15 0 0 0",
            format!("rows 15:{LAST}"),
            present_at_last(10),
        ),
        both(
            "1,024, the relation present at the last alone, and reached elsewhere",
            "refused 15 0 0 0",
            "refused 15 0 0 0",
            absent_everywhere(10),
        ),
        both(
            "1,024, 0 projected always and there at the last alone",
            "refused 17 1 0 0",
            rows_of_both(16),
            projected(10, TRUE),
        ),
        both(
            "1,024, 0 projected everywhere but at the last, where it is there",
            "refused 17 1 0 0",
            "refused 17 1 0 0",
            projected(10, not_last(10)),
        ),
        calls.into_iter().map(filled).collect(),
    ])
}

fn of_64() -> Vec<Aimed> {
    joined([
        both(
            "64, the relation present at the last alone",
            "refused 15 0 0 0",
            format!("rows 0:{LAST}"),
            present_at_last(6),
        ),
        both(
            "64, the relation present at the last alone, and reached elsewhere",
            "refused 15 0 0 0",
            "refused 15 0 0 0",
            absent_everywhere(6),
        ),
        both(
            "64, 0 projected always and there at the last alone",
            "refused 17 1 0 0",
            rows_of_both(1),
            projected(6, TRUE),
        ),
        both(
            "64, 0 projected everywhere but at the last, where it is there",
            "refused 17 1 0 0",
            "refused 17 1 0 0",
            projected(6, not_last(6)),
        ),
    ])
}

fn of_65() -> Vec<Aimed> {
    joined([
        both(
            "65, from 63 on, the relation present at the last alone",
            "refused 15 0 0 63",
            format!("rows 1:{LAST}"),
            from_63(present_at_last(7)),
        ),
        both(
            "65, from 63 on, the relation present at the last alone, and reached elsewhere",
            "refused 15 0 0 63",
            "refused 15 0 0 63",
            from_63(absent_everywhere(7)),
        ),
        both(
            "65, from 63 on, 0 projected always and there at the last alone",
            "refused 17 1 0 63",
            format!("rows 1:{LAST} 16:{LAST} 17:{}", u64::MAX),
            from_63(projected(7, TRUE)),
        ),
        both(
            "65, from 63 on, 0 projected everywhere but at the last, where it is there",
            "refused 17 1 0 63",
            "refused 17 1 0 63",
            from_63(projected(7, not_last(7))),
        ),
    ])
}
