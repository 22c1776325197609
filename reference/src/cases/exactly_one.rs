//! The cases of `cases/exactly-one.txt`: expression kind 6, which holds when exactly
//! one of a range of features is on. `tests/exactly_one.rs` says which wrong program
//! is told by which case.

use super::page::lines;
use super::{asking, check, configure, find, harbour, page, set, under, Aimed};
use crate::tables::{Tables, EXACTLY_ONE};

/// All cases, in the order of their numbers.
pub fn cases() -> Vec<Aimed> {
    let groups = [
        few_features(),
        features_past_a_word(),
        counts_refused(),
        ranges_past_n(),
        ends_past_65535(),
        kinds_and_places(),
        the_model(),
        permitted_nowhere(),
        under_other_forms(),
        conditions_of_relations(),
        conditions_of_entries(),
        conditions_of_choices(),
        configured(),
        configured_choices(),
        finding(),
        paging(),
    ];
    groups.into_iter().flatten().collect()
}

// Steps, some of which the stored cases of `vectors` take too. In rows a word has
// bit c for configuration c: with two features 6 is one of both (1 and 2), 8 is both
// (3), 14 is either (1, 2 and 3).

/// Expression 0 is true, and 1 is a range of so many features. One relation, always
/// there, is the report: it lists attribute 0 under the range.
pub fn ranged(features: u64, [first, count]: [u16; 2]) -> Tables {
    Tables {
        features,
        attributes: 1,
        model: 0,
        expressions: vec![1, 0, 0, EXACTLY_ONE, first, count],
        entries: vec![0, 1],
        relations: vec![0, 1],
        queries: vec![1, 0, 0, 0],
        ..Tables::default()
    }
    .of_moments()
}

/// The only expression is a range of so many features: the model, and the condition
/// of the report's relation and of attribute 0.
pub fn modelled(features: u64, [first, count]: [u16; 2]) -> Tables {
    Tables {
        expressions: vec![EXACTLY_ONE, first, count],
        entries: vec![0, 0],
        ..ranged(features, [first, count])
    }
}

/// Expressions of a quay.
const TIDAL: u16 = 1;
const LOCKED: u16 = 2;
const FLOATING: u16 = 3;

/// Features tidal 0, locked 1 and floating 2, of which exactly one is on;
/// attributes vessel 0, tide 1, lock 2, pontoon 3. One relation, always there, is
/// the report. More expressions follow from 4 on.
pub fn quay(more: &[[u16; 3]]) -> Tables {
    let kinds = [[EXACTLY_ONE, 0, 3], [2, 0, 0], [2, 1, 0], [2, 2, 0]];
    Tables {
        features: 3,
        attributes: 4,
        model: 0,
        expressions: [&kinds, more].concat().concat(),
        entries: vec![0, 0, 1, TIDAL, 2, LOCKED, 3, FLOATING],
        relations: vec![0, 4],
        queries: vec![1, 0, 0, 0],
        ..Tables::default()
    }
    .of_moments()
}

/// A relation for each kind of quay, with vessel and what that kind has. The report
/// is the tidal one where tidal is on, elsewhere the locked one where locked is on,
/// and else the floating one.
pub fn three_quays() -> Tables {
    let mut tables = quay(&[]);
    tables.entries = vec![0, 0, 1, 0, 0, 0, 2, 0, 0, 0, 3, 0];
    tables.relations = vec![TIDAL, 2, LOCKED, 2, FLOATING, 2];
    let relations = [[1, 0, 0, 0], [1, 1, 0, 0], [1, 2, 0, 0]];
    let choices = [[4, LOCKED, 1, 2], [4, TIDAL, 0, 3]];
    asking(&[&relations[..], &choices].concat(), tables)
}

/// Expressions of a yard. The fourth is exactly one of both features.
const TRUE: u16 = 0;
const SWAPS: u16 = 1;
const GATES: u16 = 2;
const ONE: u16 = 3;
const NOT_ONE: u16 = 4;
const BOTH: u16 = 5;
const EITHER: u16 = 6;

/// Features swaps 0 and gates 1, two attributes. One relation, always there, is the
/// report.
fn yard(entries: &[[u16; 2]]) -> Tables {
    let more = [
        [EXACTLY_ONE, 0, 2],
        [3, ONE, 0],
        [4, SWAPS, GATES],
        [5, SWAPS, GATES],
    ];
    harbour(2, 2, &more, entries)
}

/// The yard's relation, and a project over it.
fn projected(entries: &[[u16; 2]], list: &[[u16; 2]]) -> Tables {
    let mut tables = yard(entries);
    tables.entries.extend(list.concat());
    asking(&[[1, 0, 0, 0], [3, list.len() as u16, 0, 0]], tables)
}

/// Two relations that list attribute 0, under a product, union or intersection.
fn paired(kind: u16, first: u16, second: u16) -> Tables {
    let mut tables = yard(&[[0, first], [0, second]]);
    tables.relations = vec![TRUE, 1, TRUE, 1];
    asking(&[[1, 0, 0, 0], [1, 1, 0, 0], [kind, 0, 1, 0]], tables)
}

/// One relation is there where exactly one feature is on, and lists attribute 0; the
/// other elsewhere, and lists attribute 1. The report is the one that is there.
pub fn chosen() -> Tables {
    let mut tables = yard(&[[0, TRUE], [1, TRUE]]);
    tables.relations = vec![ONE, 1, NOT_ONE, 1];
    asking(&[[1, 0, 0, 0], [1, 1, 0, 0], [4, ONE, 0, 1]], tables)
}

/// The relation lists attribute 0 where exactly one feature is on, and attribute 1
/// always. Selected where attribute 0 is below 7 by one alternative of a choice, and
/// always by the other.
pub fn selected([there, elsewhere]: [u16; 2]) -> Tables {
    let mut tables = yard(&[[0, ONE], [1, TRUE]]);
    let comparisons = [
        [2, 0, 0, 7, 0],
        [1, 0, 0, 0, 0],
        [7, 0, ONE, there, elsewhere],
    ];
    tables.comparisons = comparisons.concat();
    asking(&[[1, 0, 0, 0], [2, 2, 0, 0]], tables)
}

/// One form is the condition of the relation, of its entry, of the choice that names
/// it, and of the choice of comparisons by which that is selected.
pub fn shared() -> Tables {
    let mut tables = selected([0, 1]);
    tables.relations[0] = ONE;
    asking(
        &[[1, 0, 0, 0], [0; 4], [4, ONE, 0, 1], [2, 2, 2, 0]],
        tables,
    )
}

/// Expression 4 is one of three features, and more follow. Attribute 0 is listed
/// under the last.
fn built(more: &[[u16; 3]]) -> Tables {
    let mut tables = harbour(3, 1, &[&[[EXACTLY_ONE, 0, 3]], more].concat(), &[[0, 0]]);
    tables.entries[1] = tables.count(0) as u16 - 1;
    tables
}

// Where it holds

fn few_features() -> Vec<Aimed> {
    vec![
        check(
            "n = 1, one of feature 0, which is the feature itself, at 1",
            "rows 0:2",
            ranged(1, [0, 1]),
        ),
        check(
            "n = 2, one of both features, at 1 and 2, not at 0 and 3",
            "rows 0:6",
            ranged(2, [0, 2]),
        ),
        check(
            "n = 3, one of all three, at 1, 2 and 4, not at 7, where three are on",
            "rows 0:22",
            ranged(3, [0, 3]),
        ),
        check(
            "n = 3, one of features 0 and 1, whatever 2 is, at 1, 2, 5 and 6",
            "rows 0:102",
            ranged(3, [0, 2]),
        ),
        check(
            "n = 3, one of features 1 and 2, whatever 0 is, at 2 to 5",
            "rows 0:60",
            ranged(3, [1, 2]),
        ),
        check(
            "n = 4, one of features 1 and 2, at 2 to 5 and 10 to 13",
            "rows 0:15420",
            ranged(4, [1, 2]),
        ),
        check(
            "n = 5, one of all five, at 1, 2, 4, 8 and 16",
            "rows 0:65814",
            ranged(5, [0, 5]),
        ),
    ]
}

fn features_past_a_word() -> Vec<Aimed> {
    vec![
        check(
            "n = 6, one of all six, at 1, 2, 4, 8, 16 and 32",
            "rows 0:4295033110",
            ranged(6, [0, 6]),
        ),
        check(
            "n = 7, one of all seven, 64 is bit 0 of word 1",
            "rows 0:4295033110 1:1",
            ranged(7, [0, 7]),
        ),
        check(
            "n = 7, one of features 5 and 6, at 32 to 95",
            "rows 0:18446744069414584320 1:4294967295",
            ranged(7, [5, 2]),
        ),
        check(
            "n = 10, one of all ten, at 1, 2, 4 and so on to 512",
            "rows 0:4295033110 1:1 2:1 4:1 8:1",
            ranged(10, [0, 10]),
        ),
        check(
            "n = 10, one of features 0 to 8, and the same with feature 9 on, from 512 on",
            "rows 0:4295033110 1:1 2:1 4:1 8:4295033110 9:1 10:1 12:1",
            ranged(10, [0, 9]),
        ),
        check(
            "n = 10, one of features 1 to 9, at 2, 3, 4, 5, 8, 9, 16, 17 and so on to 513",
            "rows 0:12885099324 1:3 2:3 4:3 8:3",
            ranged(10, [1, 9]),
        ),
    ]
}

// Check 3

/// Refused where the range stands, in form 1.
fn refused(note: &'static str, features: u64, range: [u16; 2]) -> Aimed {
    check(note, "refused 3 1 0 0", ranged(features, range))
}

fn counts_refused() -> Vec<Aimed> {
    vec![
        refused("n = 3, no features from 0 on", 3, [0, 0]),
        refused("n = 3, no features from 3 on, up to n", 3, [3, 0]),
        refused("n = 0, no features from 0 on, up to n", 0, [0, 0]),
        refused("n = 10, 11 features from 0 on", 10, [0, 11]),
        refused(
            "n = 10, 11 features from 65535 on, in 16 bits up to n",
            10,
            [65535, 11],
        ),
        refused("n = 3, 257 features from 0 on, in 8 bits one", 3, [0, 257]),
        refused(
            "n = 3, 65535 features from 1 on, in 16 bits up to 0",
            3,
            [1, 65535],
        ),
    ]
}

fn ranges_past_n() -> Vec<Aimed> {
    vec![
        refused("n = 0, one feature from 0 on, there is none", 0, [0, 1]),
        refused("n = 1, two features from 0 on, past n by one", 1, [0, 2]),
        refused("n = 3, two features from 2 on, past n by one", 3, [2, 2]),
        refused("n = 3, one feature from 256 on, in 8 bits 0", 3, [256, 1]),
        refused("n = 6, seven features from 0 on, past n by one", 6, [0, 7]),
        refused("n = 7, one feature from 7 on, which is n", 7, [7, 1]),
        refused("n = 10, ten features from 1 on, past n by one", 10, [1, 10]),
        refused("n = 10, one feature from 10 on, which is n", 10, [10, 1]),
    ]
}

fn ends_past_65535() -> Vec<Aimed> {
    vec![
        refused(
            "n = 3, one feature from 65535 on, in 16 bits up to 0",
            3,
            [65535, 1],
        ),
        refused(
            "n = 3, two features from 65535 on, in 16 bits up to 1",
            3,
            [65535, 2],
        ),
        refused(
            "n = 10, ten features from 65530 on, in 16 bits up to 4",
            10,
            [65530, 10],
        ),
    ]
}

fn kinds_and_places() -> Vec<Aimed> {
    let of_kind = |kind: u16| {
        let mut tables = ranged(3, [0, 3]);
        tables.expressions[3] = kind;
        tables
    };
    let mut three = ranged(3, [0, 3]);
    let more = [[EXACTLY_ONE, 1, 3], [EXACTLY_ONE, 0, 0]];
    three.expressions.extend(more.concat());
    vec![
        check(
            "kind 7 with the words of a range",
            "refused 3 1 0 0",
            of_kind(7),
        ),
        check(
            "kind 262, in 8 bits kind 6",
            "refused 3 1 0 0",
            of_kind(262),
        ),
        check(
            "three ranges, the second past n, the third of no features",
            "refused 3 2 0 0",
            three,
        ),
        check(
            "form 0 has the words 2 and 1, which are no operands, feature 2 is the model",
            "rows 0:240",
            modelled(3, [2, 1]),
        ),
    ]
}

// As the model

fn the_model() -> Vec<Aimed> {
    vec![
        check(
            "a quay is tidal, locked or floating, never two, so 1, 2 and 4 are permitted",
            "rows 0:22 16:2 32:4 48:16",
            quay(&[]),
        ),
        check(
            "n = 1, the model is one of feature 0, so 0 is not permitted",
            "rows 0:2",
            modelled(1, [0, 1]),
        ),
        check(
            "the model is not one of both features, so 0 and 3 are permitted",
            "rows 0:9",
            under(NOT_ONE.into(), yard(&[[0, TRUE]])),
        ),
        check(
            "a floating quay is named where it is neither tidal nor locked, and has to be there",
            "rows 0:22 16:2 32:4 48:16",
            three_quays(),
        ),
    ]
}

fn permitted_nowhere() -> Vec<Aimed> {
    let two_kinds = || quay(&[[4, TIDAL, LOCKED], [4, 0, 4]]);
    let mut relation = two_kinds();
    relation.relations[0] = 4;
    let mut entry = two_kinds();
    entry.entries[5] = 4;
    let mut everywhere = three_quays();
    everywhere.model = everywhere.add_expression([1, 0, 0]).into();
    vec![
        check(
            "the model is one of three kinds, and two of them",
            "refused 12 0 0 0",
            under(5, two_kinds()),
        ),
        check(
            "one of three kinds, a relation with two of them",
            "refused 13 0 0 0",
            relation,
        ),
        check(
            "one of three kinds, the lock with two of them",
            "refused 14 0 2 0",
            entry,
        ),
        check(
            "a floating quay is named where it is neither tidal nor locked, and at 0 it is not there",
            "refused 15 2 2 0",
            everywhere,
        ),
    ]
}

// Under other forms, shared

fn under_other_forms() -> Vec<Aimed> {
    vec![
        check(
            "not one of three, at 0, 3, 5, 6 and 7",
            "rows 0:233",
            built(&[[3, 4, 0]]),
        ),
        check(
            "one of three, both operands of an and",
            "rows 0:22",
            built(&[[4, 4, 4]]),
        ),
        check(
            "one of features 0 and 1, and one of features 1 and 2, at 2 and 5",
            "rows 0:36",
            built(&[[EXACTLY_ONE, 0, 2], [EXACTLY_ONE, 1, 2], [4, 5, 6]]),
        ),
    ]
}

fn conditions_of_relations() -> Vec<Aimed> {
    let always_named = |model: u16| {
        let mut tables = yard(&[[0, TRUE]]);
        tables.relations[0] = ONE;
        under(model.into(), tables)
    };
    vec![
        check(
            "a relation with one of both features, and another elsewhere, named by a choice on it",
            "rows 0:6 16:9",
            chosen(),
        ),
        check(
            "a relation with one of both features, always named, at 0 none is on",
            "refused 15 0 0 0",
            always_named(TRUE),
        ),
        check(
            "the same where either feature is on, at 3 two are",
            "refused 15 0 0 3",
            always_named(EITHER),
        ),
    ]
}

fn conditions_of_entries() -> Vec<Aimed> {
    vec![
        check(
            "listed with one of both features, projected with feature 0, at 3 it is missing",
            "refused 17 1 0 3",
            projected(&[[0, ONE]], &[[0, SWAPS]]),
        ),
        check(
            "listed always, projected with one of both features",
            "rows 0:6",
            projected(&[[0, TRUE]], &[[0, ONE]]),
        ),
        check(
            "listed with one of both features, and again with both, so with either",
            "rows 0:14",
            yard(&[[0, ONE], [0, BOTH]]),
        ),
        check(
            "a product of attribute 0 with one of both features and with both, never together",
            "rows 0:14",
            paired(5, ONE, BOTH),
        ),
        check(
            "a union of attribute 0 with one of both features and with either, at 3 unequal",
            "refused 19 2 0 3",
            paired(6, ONE, EITHER),
        ),
    ]
}

fn conditions_of_choices() -> Vec<Aimed> {
    vec![
        check(
            "attribute 0 with one of both features, compared by a choice on it",
            "rows 0:6 16:15",
            selected([0, 1]),
        ),
        check(
            "the same with the alternatives exchanged, at 0 it is missing",
            "refused 16 1 0 0",
            selected([1, 0]),
        ),
        check(
            "one form is the condition of a relation, an entry, a choice and a choice of comparisons",
            "rows 0:6 16:6",
            shared(),
        ),
    ]
}

// Other calls

fn configured() -> Vec<Aimed> {
    vec![
        configure(
            "a quay at 2, locked, has vessel and lock",
            "written E 2 0 0 2 0 R 1 0 2 C 0 Q 1 1 0 0 0",
            quay(&[]),
            2,
        ),
        configure(
            "three quays at 4, floating, the third relation alone is there",
            "written E 2 0 0 3 0 R 1 0 2 C 0 Q 1 1 0 0 0",
            three_quays(),
            4,
        ),
        configure(
            "a quay at 0, of no kind, not permitted",
            "refused 20 0 0 0",
            quay(&[]),
            0,
        ),
        configure(
            "a quay at 6, of two kinds, not permitted",
            "refused 20 0 0 6",
            quay(&[]),
            6,
        ),
    ]
}

fn configured_choices() -> Vec<Aimed> {
    vec![
        configure(
            "a choice on one of both features, at 1 the first relation is there and named",
            "written E 1 0 0 R 1 0 1 C 0 Q 1 1 0 0 0",
            chosen(),
            1,
        ),
        configure(
            "the same at 3, the second relation",
            "written E 1 1 0 R 1 0 1 C 0 Q 1 1 0 0 0",
            chosen(),
            3,
        ),
        configure(
            "a choice of comparisons on one of both features, at 2 the first",
            "written E 2 0 0 1 0 R 1 0 2 C 2 2 0 0 7 0 1 0 0 0 0 Q 2 1 0 0 0 2 0 0 0",
            selected([0, 1]),
            2,
        ),
    ]
}

fn finding() -> Vec<Aimed> {
    let mut last_of_ten = modelled(10, [0, 10]);
    last_of_ten.entries[1] = last_of_ten.add_expression([2, 9, 0]);
    let mut seventh = modelled(7, [0, 6]);
    seventh.entries[1] = seventh.add_expression([2, 6, 0]);
    vec![
        find(
            "a quay, nothing wanted, 0 is not permitted",
            "found 1",
            quay(&[]),
            0,
        ),
        find("a quay, pontoon wanted", "found 4", quay(&[]), set(&[3])),
        find(
            "a quay, tide and lock wanted, never two",
            "none",
            quay(&[]),
            set(&[1, 2]),
        ),
        find(
            "not one of both features where either is on, so both",
            "found 3",
            under(EITHER.into(), yard(&[[0, NOT_ONE]])),
            set(&[0]),
        ),
        find(
            "n = 10, the model is one of all ten, attribute 0 with feature 9",
            "found 512",
            last_of_ten,
            set(&[0]),
        ),
        find(
            "n = 7, the model is one of the first six, attribute 0 with feature 6, 64 + 1",
            "found 65",
            seventh,
            set(&[0]),
        ),
    ]
}

fn paging() -> Vec<Aimed> {
    let kinds = [
        ["   1", "oo", " 2"],
        ["   2", "o.o", " 2"],
        ["   4", "o..o", " 2"],
    ];
    let powers = [
        "   1", "   2", "   4", "   8", "  16", "  32", "  64", " 128", " 256", " 512",
    ];
    vec![
        page(
            "a quay, three lines, 219 bytes",
            lines(&kinds),
            quay(&[]),
            219,
        ),
        page(
            "a quay, 218 bytes, one too few",
            "refused 23 0 0 0",
            quay(&[]),
            218,
        ),
        page(
            "n = 10, the model is one of all ten, ten lines, 730 bytes",
            lines(&powers.map(|configuration| [configuration, "o", " 1"])),
            modelled(10, [0, 10]),
            730,
        ),
    ]
}
