//! Files aimed at the limits of the wall page, by hand.

use super::Vector;
use crate::cases::page::{all_but_0, alone, growing, listing, permitting, ten};
use crate::file::write_file;
use crate::generate::DIGITS;
use crate::tables::Tables;

pub fn cases() -> Vec<Vector> {
    let mut cases: Vec<Vector> = marks().into_iter().map(vector).collect();
    for configuration in DIGITS {
        let name = format!("configuration-{configuration}-alone");
        cases.push(Vector::new(&name, write_file(&alone(configuration))));
    }
    cases.extend(lines().into_iter().map(vector));
    cases
}

fn vector((name, tables): (&str, Tables)) -> Vector {
    Vector::new(name, write_file(&tables))
}

/// A line or two: which marks there are, and how many columns.
fn marks() -> Vec<(&'static str, Tables)> {
    vec![
        ("no-column-of-64", listing(64, 0..0)),
        ("attribute-0-of-1", listing(1, 0..1)),
        ("attribute-0-of-64", listing(64, 0..1)),
        ("attribute-63-of-64", listing(64, 63..64)),
        ("attribute-62-of-63", listing(63, 62..63)),
        (
            "attributes-0-and-1-and-62-of-64",
            listing(64, [0, 1, 62].into_iter()),
        ),
        ("63-columns-of-63", listing(63, 0..63)),
        ("64-columns-of-64", listing(64, 0..64)),
        ("9-columns-or-10", growing(10, 9, 10)),
        ("no-columns-or-64", growing(64, 0, 64)),
        ("63-columns-or-64", growing(64, 63, 64)),
    ]
}

/// More than one line, far apart or many.
fn lines() -> Vec<(&'static str, Tables)> {
    vec![
        (
            "configurations-of-one-to-four-digits",
            permitting(&DIGITS, ten()),
        ),
        ("1023-lines", all_but_0()),
        ("1024-lines", ten()),
    ]
}
