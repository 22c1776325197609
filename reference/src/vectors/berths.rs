//! The worked examples of docs/FORMAT.md, as far as a file can give them; cases
//! that a wrong program gets wrong; and the longest print.

use super::Vector;
use crate::configure;
use crate::file::{read_file, write_file};
use crate::reading::Reading;
use crate::small::H1;
use crate::tables::{Tables, WIDTHS};

pub fn cases() -> Vec<Vector> {
    let mut cases = berths();
    cases.extend(ships());
    let named = cases.into_iter();
    named
        .map(|(name, tables)| Vector::new(name, write_file(&tables)))
        .collect()
}

/// H1 to H10.
pub fn berths() -> Vec<(&'static str, Tables)> {
    let relation = [1, 0, 0, 0];
    let empty = [0; 4];
    let h10 = [relation, empty, [4, 2, 0, 1], [3, 2, 2, 0]].concat();
    vec![
        ("h1", h1()),
        ("h2", h1_with(|t| t.entries[9] = 1)),
        ("h3", h1_with(|t| t.entries[9] = 0)),
        ("h4-the-configured-tables", h4()),
        ("h5", schema_with(&[relation, relation, [5, 0, 1, 0]])),
        ("h6", schema_with(&[relation, [5, 0, 0, 0]])),
        ("h7", schema_with(&[empty, relation, [6, 0, 1, 0]])),
        (
            "h7-intersection",
            schema_with(&[empty, relation, [7, 0, 1, 0]]),
        ),
        ("h8", h1_with(|t| t.expressions[0] = 0)),
        ("h9-11-features", h1_with(|t| t.features = 11)),
        ("h9-10-features", h1_with(|t| t.features = 10)),
        ("h10", h1_with(|t| t.queries = h10.clone())),
        ("65-attributes", h1_with(|t| t.attributes = 65)),
        ("64-attributes", h1_with(|t| t.attributes = 64)),
    ]
}

/// Cases that a wrong program gets wrong; the least report and the largest print.
fn ships() -> Vec<(&'static str, Tables)> {
    let absent = "entry-holds-only-where-its-relation-is-absent";
    vec![
        ("relation-guarded-by-its-own-feature", guarded([0, 1])),
        ("relation-guarded-by-the-other-alternative", guarded([1, 0])),
        (absent, entry_apart()),
        ("lowest-form-before-lowest-configuration", lowest_form()),
        ("walk-order-does-not-choose-the-fault", walk_order()),
        ("shared-chains", shared_chains()),
        ("one-permitted-configuration", one_permitted()),
        ("nothing-but-empty", nothing()),
        ("largest-print", largest_print()),
    ]
}

fn h1() -> Tables {
    read_file(H1.as_bytes()).expect("H1 is a harbour file")
}

fn h1_with(change: impl Fn(&mut Tables)) -> Tables {
    let mut tables = h1();
    change(&mut tables);
    tables.of_moments()
}

/// H1 without the list of its project form, with other queries.
fn schema_with(queries: &[[u16; 4]]) -> Tables {
    h1_with(|tables| {
        tables.entries.truncate(6);
        tables.queries = queries.concat();
    })
}

/// What configuring H1 at 0 writes, as tables of their own.
fn h4() -> Tables {
    let source = h1();
    let mut out = [1, 2, 3, 4].map(|table| vec![0; source.words(table).len()]);
    let counts = configure(
        &source,
        Reading::Strict,
        0,
        out.each_mut().map(Vec::as_mut_slice),
    )
    .expect("H1 is accepted, and 0 is permitted");
    for (table, words) in out.iter_mut().enumerate() {
        words.truncate(counts[table] * WIDTHS[table + 1]);
    }
    let [entries, relations, comparisons, queries] = out;
    Tables {
        features: 0,
        attributes: source.attributes,
        model: 0,
        expressions: vec![1, 0, 0],
        entries,
        relations,
        comparisons,
        queries,
        kinds: source.kinds,
    }
}

/// Two features, three attributes; true, feature 0, feature 1, not feature 1.
fn yard() -> Tables {
    Tables {
        features: 2,
        attributes: 3,
        model: 0,
        expressions: vec![1, 0, 0, 2, 0, 0, 2, 1, 0, 3, 2, 0],
        ..Tables::default()
    }
    .of_moments()
}

/// A relation that is present with feature 1 only, and a choice on feature 1.
fn guarded([there, elsewhere]: [u16; 2]) -> Tables {
    Tables {
        entries: vec![0, 0, 1, 0],
        relations: vec![2, 2],
        queries: [[1, 0, 0, 0], [0; 4], [4, 2, there, elsewhere]].concat(),
        ..yard()
    }
}

fn entry_apart() -> Tables {
    Tables {
        entries: vec![0, 0, 2, 3],
        relations: vec![2, 2],
        queries: vec![0; 4],
        ..yard()
    }
}

/// Form 1 fails at configuration 2 first, form 3 at 0.
fn lowest_form() -> Tables {
    let queries = [
        [1, 0, 0, 0],
        [3, 1, 0, 0],
        [0; 4],
        [3, 1, 2, 0],
        [5, 1, 3, 0],
    ];
    Tables {
        entries: vec![0, 0, 2, 3, 2, 2, 0, 0],
        relations: vec![0, 2],
        queries: queries.concat(),
        ..yard()
    }
}

/// A walk from the report meets the fault of form 3 first, and 2 is lower.
fn walk_order() -> Tables {
    let queries = [
        [1, 0, 0, 0],
        [1, 0, 0, 0],
        [3, 1, 1, 0],
        [3, 1, 0, 0],
        [6, 3, 2, 0],
    ];
    Tables {
        entries: vec![0, 0, 1, 0, 2, 0, 2, 0],
        relations: vec![0, 2],
        queries: queries.concat(),
        ..yard()
    }
}

/// 256 expressions and 256 comparisons, each taking the one before it twice.
fn shared_chains() -> Tables {
    let mut tables = h1();
    for last in 2..255 {
        tables.expressions.extend([4, last, last]);
    }
    tables.comparisons = vec![2, 0, 0, 0, 0];
    for last in 0..254 {
        tables.comparisons.extend([5, 0, last, last, 0]);
    }
    tables.comparisons.extend([7, 0, 255, 254, 254]);
    tables.queries.extend([2, 255, 1, 0]);
    tables
}

/// H1 where both features have to be on.
fn one_permitted() -> Tables {
    h1_with(|tables| {
        tables.expressions.extend([4, 1, 2]);
        tables.model = 3;
    })
}

/// The least report: no feature, no attribute, no relation.
fn nothing() -> Tables {
    Tables {
        expressions: vec![1, 0, 0],
        queries: vec![0; 4],
        ..Tables::default()
    }
}

/// 10 features, all configurations permitted, 64 attributes: 201,653 bytes.
fn largest_print() -> Tables {
    Tables {
        features: 10,
        attributes: 64,
        model: 0,
        expressions: vec![1, 0, 0],
        entries: (0..64).flat_map(|attribute| [attribute, 0]).collect(),
        relations: vec![0, 64],
        queries: vec![1, 0, 0, 0],
        ..Tables::default()
    }
    .of_moments()
}
