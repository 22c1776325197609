//! What `Display` says of each refusal of docs/FORMAT.md's table, and that the numbers
//! of the package are those of the header.

mod common;

use std::collections::BTreeMap;
use std::error::Error;

use common::{refused, H1};
use gelvomas::{configure, Lent, Reading};

fn said(number: u64, place: u64, item: u64, configuration: u64) -> String {
    refused(number, place, item, configuration).to_string()
}

#[test]
fn each_refusal_is_said_in_words() {
    for (refusal, wanted) in [
        ([1, 0, 0, 0], "the head has over 10 features"),
        ([1, 1, 0, 0], "the head has over 64 attributes"),
        ([2, 3, 0, 0], "table 3 has words that make no whole forms, or has too few or too many forms"),
        ([3, 4, 0, 0], "expression 4 has an unknown kind, an unused word that is not 0, a feature or a range of features past the head's number, a range that is not of 1 to 10 features, or an operand that is not lower"),
        ([4, 0, 0, 0], "the model is not in table 0"),
        ([5, 6, 0, 0], "entry 6 has an attribute past the head's number, or an expression that is not in table 0"),
        ([6, 7, 0, 0], "relation 7 has an expression that is not in table 0, or a list past table 1"),
        ([7, 8, 0, 0], "comparison 8 has an unknown kind, an unused word that is not 0, an operand that is not lower, an operator over 5, an attribute past the head's number, or an expression that is not in table 0"),
        ([8, 1, 0, 0], "form 1 has an unknown kind, an unused word that is not 0, an operand that is not lower or is already taken, a relation, comparison or expression that is not in its table, or a list past table 1"),
        ([9, 2, 0, 0], "form 2 is an operand of no form, and is not the last"),
        ([10, 5, 0, 0], "entry 5 is the first that belongs to no list"),
        ([11, 0, 0, 0], "the rows lent are not 1024 words"),
        ([12, 0, 0, 0], "the model permits no configuration"),
        ([13, 3, 0, 0], "relation 3 is present at no permitted configuration"),
        ([14, 3, 9, 0], "relation 3 and its entry of attribute 9 hold together at no permitted configuration"),
        ([15, 1, 3, 6], "form 1 names relation 3, which is absent at configuration 6"),
        ([16, 1, 2, 0], "form 1 compares attribute 2, which is missing at configuration 0"),
        ([17, 1, 2, 1], "form 1 projects attribute 2, which is missing at configuration 1"),
        ([18, 2, 4, 5], "form 2 is a product, and both its operands have attribute 4 at configuration 5"),
        ([19, 2, 3, 7], "form 2 is a union or an intersection, and only one of its operands has attribute 3 at configuration 7"),
        ([20, 0, 0, u64::MAX], "configuration 18446744073709551615 is 2^features or more, or is not permitted"),
        ([21, 4, 0, 0], "table 4 lent for writing is shorter than its source"),
        ([22, 0, 0, 0], "a wanted attribute is past the head's number"),
        ([23, 0, 0, 0], "the page lent has fewer than 73 bytes for each permitted configuration"),
        ([24, 0, 0, 0], "the kind table has not one word for each attribute, or a kind over 2 stands in its word 0 or in comparison 0"),
        ([24, 5, 0, 0], "a kind over 2 stands in word 5 of the kind table or in comparison 5"),
        ([25, 1, 2, 3], "form 1 compares attribute 2 with something of another kind at configuration 3"),
    ] {
        let [number, place, item, configuration] = refusal;
        assert_eq!(said(number, place, item, configuration), wanted);
    }
}

#[test]
fn other_numbers_are_given_as_they_are() {
    assert_eq!(said(0, 0, 0, 0), "refused 0 0 0 0");
    assert_eq!(said(1, 2, 0, 0), "refused 1 2 0 0");
    assert_eq!(said(26, 1, 2, 3), "refused 26 1 2 3");
    assert_eq!(
        said(u64::MAX, 1, 2, 3),
        "refused 18446744073709551615 1 2 3"
    );
}

#[test]
fn a_refusal_is_an_error() {
    fn without_room() -> Result<(), Box<dyn Error>> {
        let lent = Lent {
            entries: &mut [],
            relations: &mut [],
            comparisons: &mut [],
            queries: &mut [],
        };
        configure(&H1, Reading::Strict, 0, lent)?;
        Ok(())
    }
    let error = without_room().expect_err("no words are lent");
    assert_eq!(error.to_string(), said(21, 1, 0, 0));
}

/// The numbers of the package by their names in the header: `pub const NAME: .. = 7;`
/// in the module `query` is GELVOMAS_QUERY_NAME.
fn numbers_of_package() -> BTreeMap<String, u64> {
    let sources = [
        include_str!("../src/lib.rs"),
        include_str!("../src/kinds.rs"),
        include_str!("../src/refusal.rs"),
    ];
    let mut group = String::new();
    let mut numbers = BTreeMap::new();
    for line in sources.iter().flat_map(|source| source.lines()) {
        if let Some(module) = line.strip_prefix("pub mod ") {
            group = module.trim_end_matches(" {").to_uppercase() + "_";
        } else if line == "impl Refusal {" {
            group = "REFUSED_".to_string();
        } else if line == "}" {
            group.clear();
        } else if let Some(constant) = line.trim_start().strip_prefix("pub const ") {
            let (name, number) = constant.split_once(": ").expect("a type");
            let (_, number) = number.split_once(" = ").expect("a number");
            let number = number.trim_end_matches(';').replace('_', "");
            let number = number.parse().expect("a number");
            numbers.insert(format!("GELVOMAS_{group}{name}"), number);
        }
    }
    numbers
}

/// The numbers of the header, those of its version left out.
fn numbers_of_header() -> BTreeMap<String, u64> {
    let mut numbers = BTreeMap::new();
    for line in include_str!("../../include/gelvomas.h").lines() {
        let line = line.trim_start().trim_start_matches("#define ");
        let words: Vec<&str> = line
            .split([' ', '=', ','])
            .filter(|word| !word.is_empty())
            .collect();
        let [name, number, ..] = words[..] else {
            continue;
        };
        if let (true, Ok(number)) = (name.starts_with("GELVOMAS_"), number.parse()) {
            numbers.insert(name.to_string(), number);
        }
    }
    numbers.retain(|name, _| !name.starts_with("GELVOMAS_VERSION"));
    numbers
}

#[test]
fn the_numbers_are_those_of_the_header() {
    let numbers = numbers_of_header();
    assert_eq!(numbers.get("GELVOMAS_REFUSED_KINDS_DIFFER"), Some(&25));
    assert_eq!(numbers.get("GELVOMAS_MAX_PAGE"), Some(&74_752));
    assert_eq!(numbers_of_package(), numbers);
}

#[test]
fn the_version_is_that_of_the_header() {
    let version = env!("CARGO_PKG_VERSION");
    let [major, minor, patch] = version.split('.').collect::<Vec<_>>()[..] else {
        panic!("three numbers: {version}");
    };
    let header = include_str!("../../include/gelvomas.h");
    for (name, wanted) in [
        ("_MAJOR", major),
        ("_MINOR", minor),
        ("_PATCH", patch),
        ("", &format!("\"{version}\"")),
    ] {
        let line = format!("#define GELVOMAS_VERSION{name} {wanted}");
        assert!(header.lines().any(|found| found == line), "{line}");
    }
}
