//! The email product line of ../../examples/email in both readings: each report against
//! the table of its README, and its columns at all 256 configurations.

mod common;

use std::collections::BTreeMap;
use std::fs;
use std::path::PathBuf;

use common::shown;
use gelvomas::Reading::{Filled, Strict};
use gelvomas::{check, Reading, Tables, ROWS};

const CONFIGURATIONS: usize = 256;

/// Features, as sets of them, and columns that the reports below are said to have.
const FORWARDMESSAGES: usize = 1 << 4;
const FILTERMESSAGES: usize = 1 << 6;
const SENDER: u64 = 1 << 9;
const SUBJECT: u64 = 1 << 12;
const BODY: u64 = 1 << 13;
const IS_SYSTEM_NOTIFICATION: u64 = 1 << 15;
const RVALUE: u64 = 1 << 23;
const FORWARDADDR: u64 = 1 << 25;
const SUFFIX: u64 = 1 << 30;

/// Reports without the schema's conditions, and those that repeat them: read as filled,
/// the first have the columns that the second have in either reading.
const SHORT_AND_REPEATED: [[&str; 2]; 4] = [
    ["bf-short", "bf"],
    ["sig", "sig-annotated"],
    ["sf-short", "sf-mended"],
    ["ef-prime-short", "ef-prime-mended"],
];

fn file(name: &str) -> String {
    let folder = PathBuf::from(env!("CARGO_MANIFEST_DIR")).join("../examples/email");
    let text = fs::read_to_string(folder.join(name));
    text.unwrap_or_else(|error| panic!("{name}: {error}"))
}

/// A harbour file that can be read: the head, tables 0 to 4 and the kinds, by the words of
/// its lines.
fn read(text: &str) -> BTreeMap<&str, Vec<u16>> {
    let mut groups: BTreeMap<&str, Vec<u16>> = BTreeMap::new();
    for line in text.lines() {
        let line = line
            .strip_prefix('(')
            .and_then(|line| line.strip_suffix(')'));
        let mut words = line.expect("brackets").split(' ');
        let group = groups.entry(words.next().expect("a word")).or_default();
        group.extend(words.map(|word| word.parse::<u16>().expect("a number")));
    }
    groups
}

/// The sets of columns at all configurations, or the refusal as a print has it.
fn columns(name: &str, reading: Reading) -> Result<Vec<u64>, String> {
    let text = file(&format!("{name}.harbour"));
    let groups = read(&text);
    let group = |word: &str| groups.get(word).map_or(&[][..], Vec::as_slice);
    let &[features, attributes, model] = group("head") else {
        panic!("a head has three numbers");
    };
    let tables = Tables {
        features: features.into(),
        attributes: attributes.into(),
        model: model.into(),
        expressions: group("expression"),
        entries: group("entry"),
        relations: group("relation"),
        comparisons: group("comparison"),
        queries: group("query"),
        // No file has kind lines: all kinds are 0.
        kinds: &vec![0; attributes.into()],
    };
    let mut rows = [0; ROWS];
    match check(&tables, reading, &mut rows) {
        Ok(()) => Ok((0..CONFIGURATIONS).map(|c| shown(&rows, c)).collect()),
        Err(r) => Err(format!(
            "(refused {} {} {} {})",
            r.number, r.place, r.item, r.configuration
        )),
    }
}

/// As the table of the README has it.
fn outcome(name: &str, reading: Reading) -> String {
    match columns(name, reading) {
        Ok(_) => "accepted".to_string(),
        Err(refusal) => format!("`{refusal}`"),
    }
}

/// The names of the reports, each with its outcomes, from the table of the README.
fn reports() -> Vec<(String, [String; 2])> {
    let readme = file("README.md");
    let mut reports = Vec::new();
    for line in readme.lines() {
        let cells: Vec<&str> = line.split('|').map(str::trim).collect();
        if let ["", name, _, strict, filled, ""] = cells[..] {
            if let Some(name) = name.strip_prefix('`').and_then(|n| n.strip_suffix('`')) {
                reports.push((name.to_string(), [strict.into(), filled.into()]));
            }
        }
    }
    reports
}

#[test]
fn the_outcomes_are_those_of_the_readme() {
    let reports = reports();
    assert_eq!(reports.len(), 20);
    for (name, outcomes) in reports {
        let found = [Strict, Filled].map(|reading| outcome(&name, reading));
        assert_eq!(found, outcomes, "{name}");
    }
}

#[test]
fn the_strict_columns_are_those_of_the_print() {
    for (name, _) in reports() {
        let print = match columns(&name, Strict) {
            Ok(sets) => {
                let has = |set: u64| (0..64).filter(move |a| set >> a & 1 == 1);
                let list = |set| has(set).map(|a| format!(" {a}")).collect::<String>();
                let lines = (0..)
                    .zip(sets)
                    .map(|(c, set)| format!("(at {c} (has{}))\n", list(set)));
                format!("(accepted)\n{}", lines.collect::<String>())
            }
            Err(refusal) => format!("{refusal}\n"),
        };
        assert!(print == file(&format!("{name}.print")), "{name}");
    }
}

#[test]
fn what_strict_accepts_has_the_same_columns_filled() {
    let accepted = |name: &String| columns(name, Strict).is_ok();
    let names = reports().into_iter().map(|(name, _)| name);
    let accepted: Vec<String> = names.filter(accepted).collect();
    assert_eq!(accepted.len(), 6);
    for name in accepted {
        assert_eq!(columns(&name, Strict), columns(&name, Filled), "{name}");
    }
}

#[test]
fn a_report_without_the_conditions_has_the_columns_of_one_that_repeats_them() {
    for [short, repeated] in SHORT_AND_REPEATED {
        assert!(columns(short, Strict).is_err(), "{short}");
        assert_eq!(columns(short, Filled), columns(repeated, Strict), "{short}");
    }
}

/// Those that no other report repeats: some columns everywhere, one with a feature.
#[test]
fn a_column_of_a_relation_that_may_be_absent_is_there_with_its_feature() {
    let forward = RVALUE | SUBJECT | BODY;
    let filter = SENDER | RVALUE | IS_SYSTEM_NOTIFICATION | SUBJECT | BODY;
    for (name, always, feature, column) in [
        ("forward-short", forward, FORWARDMESSAGES, FORWARDADDR),
        ("filter-prime-short", filter, FILTERMESSAGES, SUFFIX),
    ] {
        let at = |c: usize| {
            if c & feature == 0 {
                always
            } else {
                always | column
            }
        };
        let wanted: Vec<u64> = (0..CONFIGURATIONS).map(at).collect();
        assert_eq!(columns(name, Filled), Ok(wanted), "{name}");
    }
}
