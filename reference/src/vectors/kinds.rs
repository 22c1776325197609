//! Kinds, by hand: where they differ, and kind lines right and wrong.

use super::Vector;
use crate::cases::kinds::{below, carrying, chained, chosen, compared, ferry, kinds_of, twice};
use crate::cases::kinds::{ALWAYS, ARRIVAL, ARRIVAL_DEPARTURE, ARRIVAL_PASSENGERS};
use crate::cases::kinds::{NOT_BOTH, NO_SWAPS, PASSENGERS, SWAPS, TRUE};
use crate::file::write_file;
use crate::small::H1;
use crate::tables::{Tables, COUNT, MOMENT};

pub fn cases() -> Vec<Vector> {
    let tables = reports().into_iter().chain(tables_of_kinds());
    let files = tables.map(|(name, tables)| Vector::new(name, write_file(&tables)));
    let texts = lines().into_iter().chain(orders());
    let texts = texts.map(|(name, text)| Vector::new(name, text));
    files.chain(texts).collect()
}

/// Reports that compare: of one kind, of two where that is no fault, and refused.
fn reports() -> Vec<(&'static str, Tables)> {
    let clash = ARRIVAL_PASSENGERS;
    let both = [
        below(ARRIVAL, COUNT),
        below(PASSENGERS, COUNT),
        [5, 0, 0, 1, 0],
    ];
    vec![
        ("arrival-below-departure", ferry(&[ARRIVAL_DEPARTURE])),
        ("arrival-below-passengers", ferry(&[clash])),
        ("passengers-below-a-count", ferry(&[both[1]])),
        (
            "passengers-below-a-moment",
            ferry(&[below(PASSENGERS, MOMENT)]),
        ),
        (
            "kinds-differ-with-swaps",
            ferry(&[clash, ALWAYS, [7, 0, SWAPS, 0, 1]]),
        ),
        (
            "kinds-differ-in-an-alternative-never-taken",
            ferry(&[ALWAYS, clash, [7, 0, TRUE, 0, 1]]),
        ),
        (
            "kinds-differ-where-the-select-is-not-reached",
            chosen(SWAPS, &[ALWAYS, clash, [7, 0, SWAPS, 0, 1]]),
        ),
        (
            "kinds-differ-and-an-attribute-is-missing-later",
            carrying(NOT_BOTH, &both),
        ),
        (
            "kinds-differ-below-a-missing-attribute",
            twice(NO_SWAPS, &both[..2]),
        ),
        ("kinds-differ-under-256-comparisons", chained(clash, 256)),
        (
            "one-kind-under-256-comparisons",
            chained(ARRIVAL_DEPARTURE, 256),
        ),
    ]
}

/// Kind tables and constants, sound and not.
fn tables_of_kinds() -> Vec<(&'static str, Tables)> {
    let by_turns: Vec<u16> = (0..64).map(|attribute| attribute % 3).collect();
    let mut last = by_turns.clone();
    last[63] = 3;
    vec![
        ("64-kinds", kinds_of(64, &by_turns)),
        ("64-kinds-the-last-3", kinds_of(64, &last)),
        ("one-kind-with-no-attributes", kinds_of(0, &[0])),
        ("constant-of-kind-3", ferry(&[below(PASSENGERS, 3)])),
        (
            "constant-of-kind-65535-never-taken",
            ferry(&[ALWAYS, below(PASSENGERS, 65535), [7, 0, TRUE, 0, 1]]),
        ),
    ]
}

/// H1, which has three attributes, and more lines.
fn lines() -> Vec<(&'static str, String)> {
    let kinds = |lines: &str| format!("{H1}{lines}");
    vec![
        ("three-kinds", kinds("(kind 2)\n(kind 0)\n(kind 1)\n")),
        ("two-kinds-of-three", kinds("(kind 0)\n(kind 0)\n")),
        ("four-kinds-of-three", kinds(&"(kind 0)\n".repeat(4))),
        ("kind-of-65535", kinds("(kind 0)\n(kind 65535)\n(kind 3)\n")),
        ("kind-of-65536", kinds("(kind 65536)\n")),
        ("kind-of-00", kinds("(kind 00)\n")),
        ("kind-without-a-number", kinds("(kind)\n")),
        ("kind-of-two-numbers", kinds("(kind 0 0)\n")),
        (
            "kind-without-a-line-feed",
            kinds("(kind 0)\n(kind 0)\n(kind 0)"),
        ),
        ("65-kinds", kinds(&"(kind 0)\n".repeat(65))),
        (
            "65-kinds-and-65-attributes",
            kinds(&"(kind 0)\n".repeat(65)).replace("(head 2 3 0)", "(head 2 65 0)"),
        ),
        ("two-attributes-compared-without-kinds", compared("")),
        (
            "two-attributes-compared-of-two-kinds",
            compared("(kind 0)\n(kind 1)\n"),
        ),
    ]
}

/// Kinds elsewhere than at the end.
fn orders() -> Vec<(&'static str, String)> {
    let kinds = "(kind 0)\n(kind 0)\n(kind 0)\n";
    let before = |line: &str| H1.replacen(line, &format!("{kinds}{line}"), 1);
    vec![
        ("kinds-before-the-head", before("(head")),
        ("kinds-before-the-queries", before("(query")),
        (
            "query-after-the-kinds",
            format!("{H1}{kinds}(query 0 0 0 0)\n"),
        ),
        (
            "kinds-and-no-queries",
            format!("(head 0 3 0)\n(expression 1 0 0)\n{kinds}"),
        ),
    ]
}
