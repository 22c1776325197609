//! The cases of `cases/kinds.txt`: the kinds of attributes and of constants, 24 and 25.
//! `tests/kinds.rs` says which wrong program is told by which case.

use super::page::lines;
use super::{
    aimed, asking, check, configure, configure_with, find, harbour, page, set, under, Aimed,
};
use crate::reading::Reading;
use crate::small::{Case, H1};
use crate::tables::{Tables, COUNT, MOMENT, NAME};

/// All cases, in the order of their numbers.
pub fn cases() -> Vec<Aimed> {
    let groups = [
        lengths(),
        kinds_over_2(),
        constants_over_2(),
        word_c(),
        after_10(),
        before_11(),
        two_attributes(),
        constants(),
        under_other_forms(),
        items(),
        chains(),
        comparisons_not_reached(),
        choices_of_comparisons(),
        choices_of_queries(),
        models(),
        many_configurations(),
        with_16_in_the_form(),
        in_other_forms(),
        configured(),
        refused_configuring(),
        finding(),
        paging(),
        kind_lines(),
        wrong_kind_lines(),
    ];
    groups.into_iter().flatten().collect()
}

// Steps, some of which the stored cases of `vectors` take too.

/// Attributes of a ferry, and the kinds of all.
pub const ARRIVAL: u16 = 0;
pub const DEPARTURE: u16 = 1;
pub const PASSENGERS: u16 = 2;
pub const VESSEL: u16 = 3;
const KINDS: [u16; 4] = [MOMENT, MOMENT, COUNT, NAME];

/// Expressions of a ferry.
pub const TRUE: u16 = 0;
pub const SWAPS: u16 = 1;
pub const GATES: u16 = 2;
pub const BOTH: u16 = 3;
pub const NOT_BOTH: u16 = 4;
pub const NO_SWAPS: u16 = 5;

/// Comparisons.
pub const ALWAYS: [u16; 5] = [1, 0, 0, 0, 0];
pub const ARRIVAL_PASSENGERS: [u16; 5] = [3, 0, ARRIVAL, PASSENGERS, 0];
pub const ARRIVAL_DEPARTURE: [u16; 5] = [3, 0, ARRIVAL, DEPARTURE, 0];

/// An attribute below a constant of the kind.
pub fn below(attribute: u16, kind: u16) -> [u16; 5] {
    [2, 0, attribute, 500, kind]
}

/// Features swaps 0 and gates 1; a relation, always there, lists the four attributes,
/// passengers under the expression. The report selects by the last comparison. The
/// answer is, where all four are there, the same word in all four rows.
pub fn carrying(passengers: u16, comparisons: &[[u16; 5]]) -> Tables {
    let more = [[4, SWAPS, GATES], [3, BOTH, 0], [3, SWAPS, 0]];
    let entries = [
        [ARRIVAL, TRUE],
        [DEPARTURE, TRUE],
        [PASSENGERS, passengers],
        [VESSEL, TRUE],
    ];
    let mut tables = harbour(2, 4, &more, &entries);
    tables.comparisons = comparisons.concat();
    tables.kinds = KINDS.to_vec();
    let last = comparisons.len() as u16 - 1;
    asking(&[[1, 0, 0, 0], [2, last, 0, 0]], tables)
}

/// The same with passengers always.
pub fn ferry(comparisons: &[[u16; 5]]) -> Tables {
    carrying(TRUE, comparisons)
}

/// The rows of a ferry that is accepted, where all configurations are permitted.
const ALL: &str = "rows 0:15 16:15 32:15 48:15";

/// No features, m attributes of the given kinds, and a report without columns.
pub fn kinds_of(attributes: u64, kinds: &[u16]) -> Tables {
    with_kinds(kinds, harbour(0, attributes, &[], &[]))
}

/// Other kinds.
pub fn with_kinds(kinds: &[u16], tables: Tables) -> Tables {
    let kinds = kinds.to_vec();
    Tables { kinds, ..tables }
}

/// A check with so many words of rows.
fn check_with(note: &'static str, answer: &'static str, tables: Tables, room: usize) -> Aimed {
    aimed(note, answer, Case::check(tables, Reading::Strict, room))
}

/// A text, and what is printed for it.
fn text(note: &'static str, print: &str, text: impl Into<String>) -> Aimed {
    let bytes = print.bytes().map(|byte| format!(" {byte}"));
    let answer = format!("print{}", bytes.collect::<String>());
    aimed(note, answer, Case::Text(text.into().into_bytes()))
}

// 24: the kind table

fn lengths() -> Vec<Aimed> {
    let by_turns: Vec<u16> = (0..66).map(|attribute| attribute % 3).collect();
    vec![
        check("m = 0, no kinds", "rows", kinds_of(0, &[])),
        check("m = 0, one kind", "refused 24 0 0 0", kinds_of(0, &[0])),
        check("m = 1, one kind", "rows", kinds_of(1, &[2])),
        check("m = 1, no kinds", "refused 24 0 0 0", kinds_of(1, &[])),
        check("m = 1, two kinds", "refused 24 0 0 0", kinds_of(1, &[0, 0])),
        check(
            "m = 4, three kinds",
            "refused 24 0 0 0",
            kinds_of(4, &by_turns[..3]),
        ),
        check(
            "m = 4, five kinds",
            "refused 24 0 0 0",
            kinds_of(4, &by_turns[..5]),
        ),
        check(
            "m = 4, 64 kinds",
            "refused 24 0 0 0",
            kinds_of(4, &by_turns[..64]),
        ),
        check("m = 64, 64 kinds", "rows", kinds_of(64, &by_turns[..64])),
        check(
            "m = 64, 63 kinds",
            "refused 24 0 0 0",
            kinds_of(64, &by_turns[..63]),
        ),
        check(
            "m = 64, 65 kinds",
            "refused 24 0 0 0",
            kinds_of(64, &by_turns[..65]),
        ),
        check(
            "m = 65, 65 kinds, 1 comes first",
            "refused 1 1 0 0",
            kinds_of(65, &by_turns[..65]),
        ),
        check(
            "m = 4, three kinds, the second 3, the length comes first",
            "refused 24 0 0 0",
            kinds_of(4, &[0, 3, 0]),
        ),
        check(
            "m = 4, five kinds, the last 3, the length comes first",
            "refused 24 0 0 0",
            kinds_of(4, &[0, 0, 0, 0, 3]),
        ),
    ]
}

fn kinds_over_2() -> Vec<Aimed> {
    let mut last = vec![2; 64];
    last[63] = 3;
    vec![
        check("kinds 0, 1 and 2", "rows", kinds_of(3, &[0, 1, 2])),
        check(
            "kind 3 in word 0",
            "refused 24 0 0 0",
            kinds_of(4, &[3, 0, 0, 0]),
        ),
        check(
            "kind 3 in word 1",
            "refused 24 1 0 0",
            kinds_of(4, &[2, 3, 0, 0]),
        ),
        check(
            "kind 3 in the last word",
            "refused 24 3 0 0",
            kinds_of(4, &[2, 0, 1, 3]),
        ),
        check(
            "kind 65535 in word 2",
            "refused 24 2 0 0",
            kinds_of(4, &[0, 0, 65535, 0]),
        ),
        check(
            "kind 258, in 8 bits kind 2",
            "refused 24 1 0 0",
            kinds_of(4, &[0, 258, 0, 0]),
        ),
        check(
            "kinds over 2 in words 1 and 3",
            "refused 24 1 0 0",
            kinds_of(4, &[0, 9, 0, 4]),
        ),
        check(
            "m = 64, kind 3 in word 63",
            "refused 24 63 0 0",
            kinds_of(64, &last),
        ),
    ]
}

// 24: constants

fn constants_over_2() -> Vec<Aimed> {
    let unselected = asking(
        &[[1, 0, 0, 0], [2, 0, 0, 0]],
        ferry(&[ALWAYS, below(PASSENGERS, 3)]),
    );
    let both = with_kinds(&[0, 0, 1, 3], ferry(&[below(PASSENGERS, 3)]));
    vec![
        check(
            "a constant of kind 3 in form 1",
            "refused 24 1 0 0",
            ferry(&[ALWAYS, below(PASSENGERS, 3)]),
        ),
        check(
            "a constant of kind 65535",
            "refused 24 1 0 0",
            ferry(&[ALWAYS, below(PASSENGERS, 65535)]),
        ),
        check(
            "a constant of kind 257, in 8 bits kind 1 as passengers",
            "refused 24 1 0 0",
            ferry(&[ALWAYS, below(PASSENGERS, 257)]),
        ),
        check(
            "a constant of kind 3 in form 1, which no query names",
            "refused 24 1 0 0",
            unselected,
        ),
        check(
            "a constant of kind 3 in form 1, in an alternative never taken",
            "refused 24 1 0 0",
            ferry(&[ALWAYS, below(PASSENGERS, 3), [7, 0, TRUE, 0, 1]]),
        ),
        check(
            "constants of kind 3 in forms 1 and 2",
            "refused 24 1 0 0",
            ferry(&[ALWAYS, below(VESSEL, 3), below(ARRIVAL, 4)]),
        ),
        check(
            "kind 3 in word 3 of the table and in form 0, the table comes first",
            "refused 24 3 0 0",
            both,
        ),
    ]
}

/// What word c is in other comparisons.
fn word_c() -> Vec<Aimed> {
    vec![
        check(
            "two attributes with word c 1",
            "refused 7 0 0 0",
            ferry(&[[3, 0, ARRIVAL, DEPARTURE, 1]]),
        ),
        check(
            "not with word c 2",
            "refused 7 1 0 0",
            ferry(&[ALWAYS, [4, 0, 0, 0, 2]]),
        ),
        check(
            "a choice with word c 3, which is a form and no kind",
            ALL,
            ferry(&[ALWAYS, ALWAYS, ALWAYS, ALWAYS, [7, 0, SWAPS, 0, 3]]),
        ),
        check(
            "attribute m with a constant of kind 3, 7 comes first",
            "refused 7 0 0 0",
            ferry(&[below(4, 3)]),
        ),
    ]
}

// 24: its place among the checks

fn after_10() -> Vec<Aimed> {
    let mut left = ferry(&[below(PASSENGERS, 3)]);
    left.entries.extend([0, 0]);
    let never_taken = asking(
        &[[1, 0, 0, 0], [1, 0, 0, 0]],
        with_kinds(&[], ferry(&[ALWAYS])),
    );
    vec![
        check(
            "entry 4 is left, and a constant of kind 3, 10 comes first",
            "refused 10 4 0 0",
            left,
        ),
        check(
            "form 0 never taken, and no kinds, 9 comes first",
            "refused 9 0 0 0",
            never_taken,
        ),
    ]
}

fn before_11() -> Vec<Aimed> {
    let mut nowhere = kinds_of(4, &[0, 0, 0, 9]);
    nowhere.expressions.extend([0, 0, 0]);
    nowhere.relations[0] = 1;
    let mut missing = ferry(&[below(PASSENGERS, 3)]);
    missing.entries[4] = ARRIVAL;
    vec![
        check_with(
            "rows of 1,023 words, and three kinds, 24 comes first",
            "refused 24 0 0 0",
            kinds_of(4, &[0, 0, 0]),
            1023,
        ),
        check_with(
            "no rows, and a constant of kind 3, 24 comes first",
            "refused 24 0 0 0",
            ferry(&[below(PASSENGERS, 3)]),
            0,
        ),
        check_with(
            "rows of 1,025 words, and kinds that differ, 11 comes first",
            "refused 11 0 0 0",
            ferry(&[ARRIVAL_PASSENGERS]),
            1025,
        ),
        check(
            "no configuration permitted, and kind 9 in word 3, 24 comes first",
            "refused 24 3 0 0",
            under(1, nowhere.clone()),
        ),
        check(
            "a relation present nowhere, and kind 9 in word 3, 24 comes first",
            "refused 24 3 0 0",
            nowhere,
        ),
        check(
            "passengers compared and missing, and a constant of kind 3, 24 comes first",
            "refused 24 0 0 0",
            missing,
        ),
    ]
}

// 25: two sides

fn two_attributes() -> Vec<Aimed> {
    let mut highest = harbour(0, 64, &[], &[[62, 0], [63, 0]]);
    highest.kinds[62] = NAME;
    highest.comparisons = vec![3, 2, 63, 62, 0];
    let highest = asking(&[[1, 0, 0, 0], [2, 0, 0, 0]], highest);
    vec![
        check(
            "arrival below passengers, a moment and a count",
            "refused 25 1 0 0",
            ferry(&[ARRIVAL_PASSENGERS]),
        ),
        check(
            "passengers below arrival, the left one is the item",
            "refused 25 1 2 0",
            ferry(&[[3, 0, PASSENGERS, ARRIVAL, 0]]),
        ),
        check(
            "arrival not equal to vessel, whatever the operator",
            "refused 25 1 0 0",
            ferry(&[[3, 3, ARRIVAL, VESSEL, 0]]),
        ),
        check(
            "arrival below departure, both moments",
            ALL,
            ferry(&[ARRIVAL_DEPARTURE]),
        ),
        check(
            "vessel with itself, both names",
            ALL,
            ferry(&[[3, 2, VESSEL, VESSEL, 0]]),
        ),
        check(
            "m = 64, attribute 63 a moment, with attribute 62 a name",
            "refused 25 1 63 0",
            highest,
        ),
        check(
            "arrival below passengers, where all kinds are 0",
            ALL,
            ferry(&[ARRIVAL_PASSENGERS]).of_moments(),
        ),
        check(
            "arrival below passengers, where all kinds are 2",
            ALL,
            with_kinds(&[NAME; 4], ferry(&[ARRIVAL_PASSENGERS])),
        ),
    ]
}

fn constants() -> Vec<Aimed> {
    vec![
        check(
            "passengers below a count",
            ALL,
            ferry(&[below(PASSENGERS, COUNT)]),
        ),
        check("vessel below a name", ALL, ferry(&[below(VESSEL, NAME)])),
        check(
            "passengers below a moment",
            "refused 25 1 2 0",
            ferry(&[below(PASSENGERS, MOMENT)]),
        ),
        check(
            "arrival below a name",
            "refused 25 1 0 0",
            ferry(&[below(ARRIVAL, NAME)]),
        ),
        check(
            "arrival with the constant 2, a moment: the constant is no kind",
            ALL,
            ferry(&[[2, 0, ARRIVAL, 2, MOMENT]]),
        ),
    ]
}

// 25: what a select reaches

fn under_other_forms() -> Vec<Aimed> {
    let clash = ARRIVAL_PASSENGERS;
    vec![
        check(
            "not arrival below passengers",
            "refused 25 1 0 0",
            ferry(&[clash, [4, 0, 0, 0, 0]]),
        ),
        check(
            "and, kinds differ in b",
            "refused 25 1 0 0",
            ferry(&[ALWAYS, clash, [5, 0, 0, 1, 0]]),
        ),
        check(
            "or, kinds differ in a",
            "refused 25 1 0 0",
            ferry(&[ALWAYS, clash, [6, 0, 1, 0, 0]]),
        ),
        check(
            "never and, whatever its truth",
            "refused 25 1 0 0",
            ferry(&[[0; 5], clash, [5, 0, 0, 1, 0]]),
        ),
    ]
}

fn items() -> Vec<Aimed> {
    vec![
        check(
            "vessel below a moment, and passengers below a moment, the lower is the item",
            "refused 25 1 2 0",
            ferry(&[below(VESSEL, 0), below(PASSENGERS, 0), [5, 0, 0, 1, 0]]),
        ),
        check(
            "vessel below arrival, the right side is no item",
            "refused 25 1 3 0",
            ferry(&[[3, 0, VESSEL, ARRIVAL, 0]]),
        ),
        check(
            "arrival below departure, and vessel below passengers, one kind is no fault",
            "refused 25 1 3 0",
            ferry(&[
                ARRIVAL_DEPARTURE,
                [3, 0, VESSEL, PASSENGERS, 0],
                [6, 0, 0, 1, 0],
            ]),
        ),
        check(
            "kinds differ in comparison 2, the place is the select",
            "refused 25 1 0 0",
            ferry(&[ALWAYS, ALWAYS, ARRIVAL_PASSENGERS]),
        ),
    ]
}

/// So many comparisons, each but the first taking the one before it twice.
pub fn chained(first: [u16; 5], count: u16) -> Tables {
    let mut comparisons = vec![first];
    comparisons.extend((0..count - 1).map(|last| [5, 0, last, last, 0]));
    ferry(&comparisons)
}

fn chains() -> Vec<Aimed> {
    vec![
        check(
            "a chain of 256 comparisons joined twice, kinds differ in the first",
            "refused 25 1 0 0",
            chained(ARRIVAL_PASSENGERS, 256),
        ),
        check(
            "the same with one kind",
            ALL,
            chained(ARRIVAL_DEPARTURE, 256),
        ),
    ]
}

fn comparisons_not_reached() -> Vec<Aimed> {
    let clash = ARRIVAL_PASSENGERS;
    let unselected = asking(&[[1, 0, 0, 0], [2, 0, 0, 0]], ferry(&[ALWAYS, clash]));
    let unasked = asking(&[[1, 0, 0, 0]], ferry(&[clash]));
    vec![
        check("kinds differ where no select is", ALL, unasked),
        check(
            "kinds differ in a comparison that no select names",
            ALL,
            unselected,
        ),
        check(
            "kinds differ in the alternative of true that is never taken",
            ALL,
            ferry(&[ALWAYS, clash, [7, 0, TRUE, 0, 1]]),
        ),
    ]
}

// 25: configurations

fn choices_of_comparisons() -> Vec<Aimed> {
    let clash = ARRIVAL_PASSENGERS;
    let choice = |expression: u16| [7, 0, expression, 0, 1];
    vec![
        check(
            "kinds differ with swaps, at 1 first",
            "refused 25 1 0 1",
            ferry(&[clash, ALWAYS, choice(SWAPS)]),
        ),
        check(
            "kinds differ without swaps, at 0 first",
            "refused 25 1 0 0",
            ferry(&[ALWAYS, clash, choice(SWAPS)]),
        ),
        check(
            "kinds differ with gates, at 2 first",
            "refused 25 1 0 2",
            ferry(&[clash, ALWAYS, choice(GATES)]),
        ),
        check(
            "kinds differ with both, at 3 alone",
            "refused 25 1 0 3",
            ferry(&[clash, ALWAYS, choice(BOTH)]),
        ),
        check(
            "vessel without swaps, arrival with swaps, the lowest configuration's is the item",
            "refused 25 1 3 0",
            ferry(&[clash, below(VESSEL, 0), choice(SWAPS)]),
        ),
        check(
            "swaps, and under it gates, so kinds differ at 3 alone",
            "refused 25 1 0 3",
            ferry(&[clash, ALWAYS, choice(GATES), [7, 0, SWAPS, 2, 1]]),
        ),
        check(
            "swaps, and under it no swaps, so kinds never differ",
            ALL,
            ferry(&[clash, ALWAYS, choice(NO_SWAPS), [7, 0, SWAPS, 2, 1]]),
        ),
    ]
}

/// The report is the select of the ferry where the expression holds, and else empty.
pub fn chosen(expression: u16, comparisons: &[[u16; 5]]) -> Tables {
    let mut tables = ferry(comparisons);
    tables.queries.extend([0, 0, 0, 0, 4, expression, 1, 2]);
    tables
}

fn choices_of_queries() -> Vec<Aimed> {
    let clash = ARRIVAL_PASSENGERS;
    let never = |expression: u16| {
        let mut tables = chosen(expression, &[clash]);
        tables.queries[14..].copy_from_slice(&[2, 1]);
        tables
    };
    vec![
        check(
            "the select is reached with swaps",
            "refused 25 1 0 1",
            chosen(SWAPS, &[clash]),
        ),
        check("the select is reached nowhere", "rows", never(TRUE)),
        check(
            "the select is reached with swaps, kinds differ without",
            "rows 0:10 16:10 32:10 48:10",
            chosen(SWAPS, &[ALWAYS, clash, [7, 0, SWAPS, 0, 1]]),
        ),
        check(
            "the select is reached with swaps, kinds differ with gates, so at 3",
            "refused 25 1 0 3",
            chosen(SWAPS, &[clash, ALWAYS, [7, 0, GATES, 0, 1]]),
        ),
    ]
}

fn models() -> Vec<Aimed> {
    let with = |expression: u16| ferry(&[ARRIVAL_PASSENGERS, ALWAYS, [7, 0, expression, 0, 1]]);
    vec![
        check(
            "kinds differ with swaps, the model is no swaps",
            "rows 0:5 16:5 32:5 48:5",
            under(NO_SWAPS.into(), with(SWAPS)),
        ),
        check(
            "kinds differ with gates, the model is swaps, so at 3",
            "refused 25 1 0 3",
            under(SWAPS.into(), with(GATES)),
        ),
    ]
}

/// Ten features; kinds differ where all are on. Expressions 1 to 10 are the features,
/// and 11 to 19 join them.
fn at_1023(attributes: u64) -> Tables {
    let mut all = vec![[4, 1, 2]];
    all.extend((3..=10).map(|feature| [4, feature + 8, feature]));
    let mut tables = harbour(10, attributes, &all, &[[0, 0], [1, 0]]);
    tables.kinds[1] = COUNT;
    tables.comparisons = [[3, 0, 1, 0, 0], ALWAYS, [7, 0, 19, 0, 1]].concat();
    asking(&[[1, 0, 0, 0], [2, 2, 0, 0]], tables)
}

fn many_configurations() -> Vec<Aimed> {
    vec![
        check(
            "ten features, kinds differ where all are on",
            "refused 25 1 1 1023",
            at_1023(2),
        ),
        check(
            "the same with 64 attributes and two kinds",
            "refused 24 0 0 0",
            with_kinds(&[0, 1], at_1023(64)),
        ),
    ]
}

// 25 and other faults

fn with_16_in_the_form() -> Vec<Aimed> {
    let both = [
        below(ARRIVAL, COUNT),
        below(PASSENGERS, COUNT),
        [5, 0, 0, 1, 0],
    ];
    vec![
        check(
            "arrival below a count from 0 on, and passengers missing at 3, 16 comes first",
            "refused 16 1 2 3",
            carrying(NOT_BOTH, &both),
        ),
        check(
            "the same with passengers always there",
            "refused 25 1 0 0",
            ferry(&both),
        ),
        check(
            "arrival below passengers, which are missing at 3",
            "refused 16 1 2 3",
            carrying(NOT_BOTH, &[ARRIVAL_PASSENGERS]),
        ),
        check(
            "passengers below a moment, and missing with swaps",
            "refused 16 1 2 1",
            carrying(NO_SWAPS, &[below(PASSENGERS, MOMENT)]),
        ),
        check(
            "passengers below a moment with gates, and missing where both are not permitted",
            "refused 25 1 2 2",
            under(
                NOT_BOTH.into(),
                carrying(
                    NOT_BOTH,
                    &[below(PASSENGERS, MOMENT), ALWAYS, [7, 0, GATES, 0, 1]],
                ),
            ),
        ),
    ]
}

/// Two selects: form 1 by comparison 0, form 2 by the last one.
pub fn twice(passengers: u16, comparisons: &[[u16; 5]]) -> Tables {
    let last = comparisons.len() as u16 - 1;
    let queries = [[1, 0, 0, 0], [2, 0, 0, 0], [2, last, 1, 0]];
    asking(&queries, carrying(passengers, comparisons))
}

fn in_other_forms() -> Vec<Aimed> {
    let late = [7, 0, BOTH, 1, 2];
    let mut lower = ferry(&[ALWAYS, ARRIVAL_PASSENGERS, ALWAYS, late, ARRIVAL_PASSENGERS]);
    lower.queries[5] = 3;
    lower.queries.extend([2, 4, 1, 0]);
    let projected = |queries: &[[u16; 4]]| {
        let mut tables = carrying(NO_SWAPS, &[ARRIVAL_DEPARTURE, below(ARRIVAL, COUNT)]);
        tables.entries.extend([PASSENGERS, TRUE, ARRIVAL, TRUE]);
        asking(queries, tables)
    };
    vec![
        check(
            "kinds differ in form 1, and passengers are missing in form 2",
            "refused 25 1 0 0",
            twice(NO_SWAPS, &[below(ARRIVAL, COUNT), below(PASSENGERS, COUNT)]),
        ),
        check(
            "passengers are missing in form 1 at 1, and kinds differ in form 2 at 0",
            "refused 16 1 2 1",
            twice(NO_SWAPS, &[below(PASSENGERS, COUNT), below(ARRIVAL, COUNT)]),
        ),
        check(
            "kinds differ in form 1 at 3, and in form 2 at 0",
            "refused 25 1 0 3",
            lower,
        ),
        check(
            "kinds differ in form 1, and a project lacks passengers in form 2",
            "refused 25 1 0 0",
            projected(&[[1, 0, 0, 0], [2, 1, 0, 0], [3, 2, 1, 0]]),
        ),
        check(
            "a project lacks passengers in form 1 at 1, and kinds differ in form 2 at 0",
            "refused 17 1 2 1",
            projected(&[[1, 0, 0, 0], [3, 2, 0, 0], [2, 1, 1, 0]]),
        ),
    ]
}

// Other calls

fn configured() -> Vec<Aimed> {
    let names = [below(PASSENGERS, COUNT), below(VESSEL, NAME)];
    let choice = |clash: [u16; 5]| ferry(&[names[0], clash, [7, 0, SWAPS, 0, 1]]);
    vec![
        configure(
            "constants keep their kinds",
            "written E 4 0 0 1 0 2 0 3 0 R 1 0 4 C 2 2 0 2 500 1 2 0 3 500 2 Q 2 1 0 0 0 2 0 0 0",
            choice(names[1]),
            1,
        ),
        configure(
            "the same elsewhere",
            "written E 4 0 0 1 0 2 0 3 0 R 1 0 4 C 2 2 0 2 500 1 2 0 3 500 2 Q 2 1 0 0 0 2 1 0 0",
            choice(names[1]),
            0,
        ),
        configure(
            "kinds differ in a comparison that is kept and not reached",
            "written E 4 0 0 1 0 2 0 3 0 R 1 0 4 C 2 2 0 2 500 1 3 0 0 2 0 Q 2 1 0 0 0 2 0 0 0",
            ferry(&[names[0], ARRIVAL_PASSENGERS, [7, 0, TRUE, 0, 1]]),
            3,
        ),
    ]
}

fn refused_configuring() -> Vec<Aimed> {
    let at_9 = |note, answer, tables| {
        let room = [0; 4];
        configure_with(note, answer, tables, 9, room)
    };
    vec![
        at_9(
            "kinds differ, 25 comes before 20 and 21",
            "refused 25 1 0 0",
            ferry(&[ARRIVAL_PASSENGERS]),
        ),
        at_9(
            "a constant of kind 3, 24 comes before 20 and 21",
            "refused 24 0 0 0",
            ferry(&[below(PASSENGERS, 3)]),
        ),
        at_9(
            "one kind, so 20",
            "refused 20 0 0 9",
            ferry(&[ARRIVAL_DEPARTURE]),
        ),
        configure(
            "kinds differ at 1, configured at 0",
            "refused 25 1 0 1",
            ferry(&[ARRIVAL_PASSENGERS, ALWAYS, [7, 0, SWAPS, 0, 1]]),
            0,
        ),
    ]
}

fn finding() -> Vec<Aimed> {
    vec![
        find(
            "passengers wanted, there at 0",
            "found 0",
            ferry(&[below(PASSENGERS, COUNT)]),
            set(&[2]),
        ),
        find(
            "kinds differ at 3, 25 comes before 22",
            "refused 25 1 0 3",
            ferry(&[ARRIVAL_PASSENGERS, ALWAYS, [7, 0, BOTH, 0, 1]]),
            set(&[4]),
        ),
        find(
            "five kinds, 24 comes before 22",
            "refused 24 0 0 0",
            with_kinds(&[0; 5], ferry(&[ALWAYS])),
            set(&[4]),
        ),
    ]
}

fn paging() -> Vec<Aimed> {
    let at_3 = || under(BOTH.into(), ferry(&[below(VESSEL, NAME)]));
    let line = || lines(&[["   3", "oooo", " 4"]]);
    vec![
        page("both features, all columns", line(), at_3(), 73),
        page("the same, too short", "refused 23 0 0 0", at_3(), 72),
        page(
            "kinds differ, no bytes, 25 comes before 23",
            "refused 25 1 0 0",
            ferry(&[ARRIVAL_PASSENGERS]),
            0,
        ),
        page(
            "a kind of 3 in word 2, no bytes, 24 comes before 23",
            "refused 24 2 0 0",
            with_kinds(&[0, 0, 3, 0], ferry(&[ALWAYS])),
            0,
        ),
    ]
}

// Texts

/// H1, which has three attributes and 12 lines, and more lines.
fn h1_and(more: &str) -> String {
    format!("{H1}{more}")
}

fn kind_lines() -> Vec<Aimed> {
    let accepted =
        "(accepted)\n(at 0 (has 0))\n(at 1 (has 0))\n(at 2 (has 0 2))\n(at 3 (has 0 2))\n";
    vec![
        text(
            "H1 with three kinds: accepted",
            accepted,
            h1_and("(kind 2)\n(kind 0)\n(kind 1)\n"),
        ),
        text(
            "H1 with two kinds: 24 0",
            "(refused 24 0 0 0)\n",
            h1_and("(kind 0)\n(kind 0)\n"),
        ),
        text(
            "H1 with four kinds: 24 0",
            "(refused 24 0 0 0)\n",
            h1_and(&"(kind 0)\n".repeat(4)),
        ),
        text(
            "H1 with a kind of 65535 last: 24 2",
            "(refused 24 2 0 0)\n",
            h1_and("(kind 0)\n(kind 2)\n(kind 65535)\n"),
        ),
        text(
            "no attributes and one kind: 24 0",
            "(refused 24 0 0 0)\n",
            "(head 0 0 0)\n(expression 1 0 0)\n(query 0 0 0 0)\n(kind 0)\n",
        ),
        text(
            "no queries, and kinds: 2 4",
            "(refused 2 4 0 0)\n",
            "(head 0 1 0)\n(expression 1 0 0)\n(kind 0)\n",
        ),
        text(
            "two attributes compared, no kinds: accepted",
            "(accepted)\n(at 0 (has 0 1))\n",
            compared(""),
        ),
        text(
            "two attributes compared, of two kinds: 25",
            "(refused 25 1 1 0)\n",
            compared("(kind 0)\n(kind 1)\n"),
        ),
    ]
}

/// Attribute 1 below attribute 0, and more lines.
pub fn compared(more: &str) -> String {
    let lines = [
        "(head 0 2 0)\n(expression 1 0 0)\n(entry 0 0)\n(entry 1 0)\n(relation 0 2)\n",
        "(comparison 3 0 1 0 0)\n(query 1 0 0 0)\n(query 2 0 0 0)\n",
        more,
    ];
    lines.concat()
}

fn wrong_kind_lines() -> Vec<Aimed> {
    let unread = |note, more: &str| text(note, "(unread 13)\n", h1_and(more));
    vec![
        unread("a kind of 65536: unread 13", "(kind 65536)\n"),
        unread("a kind with a leading zero: unread 13", "(kind 01)\n"),
        unread("a kind without a number: unread 13", "(kind)\n"),
        unread("a kind of two numbers: unread 13", "(kind 0 0)\n"),
        unread("a word that goes on: unread 13", "(kinds 0)\n"),
        text(
            "a query after a kind: unread 14",
            "(unread 14)\n",
            h1_and("(kind 0)\n(query 0 0 0 0)\n"),
        ),
        text(
            "65 kinds: unread 77, the 65th",
            "(unread 77)\n",
            h1_and(&"(kind 0)\n".repeat(65)),
        ),
    ]
}
