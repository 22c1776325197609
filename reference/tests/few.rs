//! Few permitted configurations and many: which case of `cases/few.txt` tells which wrong
//! program, and how many generated ones do.

use std::collections::BTreeMap;
use std::slice;

use crate::common::few_readings::{answers, RIGHT, WRONG};
use crate::common::{checked, made};
use reference::cases::{Aimed, FILES};
use reference::check::ROWS;
use reference::small::Case;
use reference::Tables;

/// The tables of the checks in `cases/few.txt`, but for those that 11 refuses, by their
/// numbers.
fn stored() -> BTreeMap<u64, Tables> {
    let mut files = FILES.iter();
    let file = files.find(|file| file.name == "few");
    let cases = file.expect("there is such a file").numbered();
    let check = |(number, aimed): (u64, Aimed)| match aimed.case {
        Case::Check {
            tables, room: ROWS, ..
        } => Some((number, tables)),
        _ => None,
    };
    cases.into_iter().filter_map(check).collect()
}

/// For each wrong program the number of a case that tells it.
const TELLING: [(&str, u64); 28] = [
    ("the first 8 permitted ones alone", 6006),
    ("the first 16 permitted ones alone", 6009),
    ("the first 32 permitted ones alone", 6012),
    ("the first 64 permitted ones alone", 6015),
    ("the first 128 permitted ones alone", 6018),
    ("the first word of configurations alone", 6034),
    ("all permitted ones but the last", 6026),
    ("all permitted ones but the first", 6001),
    ("configurations that are not permitted too", 6002),
    ("expressions from 16 on are false", 6103),
    ("expressions from 32 on are false", 6106),
    ("expressions from 64 on are false", 6108),
    ("expressions from 128 on are false", 6109),
    ("faults in forms below 16 alone", 6119),
    ("faults in forms below 32 alone", 6122),
    ("faults in forms below 64 alone", 6124),
    ("faults in forms below 128 alone", 6125),
    ("items below 32 alone", 6020),
    ("items below m alone", 6139),
    ("attributes below 32 alone", 6001),
    ("an absent relation where it is not reached too", 6089),
    ("the lowest configuration, then the lowest form", 6060),
    (
        "in one form the lowest configuration first, whether 16 or 25",
        6069,
    ),
    ("25 after all other typing faults", 6076),
    ("the highest configuration of the form", 6051),
    ("the lowest item of the form", 6082),
    ("the highest form", 6061),
    (
        "the place among the permitted ones for the configuration",
        6060,
    ),
];

#[test]
fn each_wrong_program_is_told_by_a_case() {
    let stored = stored();
    for (reading, (words, number)) in WRONG.iter().zip(TELLING) {
        assert_eq!(reading.words, words);
        let tables = &stored[&number];
        let right = checked(tables);
        let wrong = answers(tables, &right, slice::from_ref(reading));
        assert_ne!(wrong, [right], "{words}");
    }
}

#[test]
fn the_stored_cases_in_another_way() {
    for (number, tables) in stored() {
        let right = checked(&tables);
        assert_eq!(answers(&tables, &right, &[RIGHT]), [right], "{number}");
    }
}

/// Generated cases, of which each wrong program is told by some.
#[test]
fn generated_cases_tell_each_wrong_program() {
    let mut told: BTreeMap<&str, u64> = BTreeMap::new();
    let not_large = |tables: &Tables| tables.count(4) << tables.features < 70_000;
    for tables in (0..1600).map(made::few).filter(not_large) {
        let right = checked(&tables);
        assert_eq!(answers(&tables, &right, &[RIGHT])[0], right, "{tables:?}");
        for (reading, wrong) in WRONG.iter().zip(answers(&tables, &right, &WRONG)) {
            *told.entry(reading.words).or_default() += u64::from(wrong != right);
        }
    }
    println!("{told:#?}");
    assert!(told.values().all(|&times| times >= 5), "{told:?}");
}
