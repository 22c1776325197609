//! The cases of `cases/find.txt`: calls of `find`.

use super::{asking, find, h1, h1_with, harbour, set, under, Aimed};
use crate::tables::Tables;

/// All cases, in the order of their numbers.
pub fn cases() -> Vec<Aimed> {
    let groups = [
        nothing_wanted(),
        of_h1(),
        few_and_many_attributes(),
        together(),
        permitted(),
        few_and_many_features(),
        queries(),
        refused_earlier(),
    ];
    groups.into_iter().flatten().collect()
}

// Steps

/// A harbour of 64 attributes, of which those below `end` are listed, one of
/// them under another expression than true.
fn listing(end: u16, one: u16, expression: u16) -> Tables {
    let condition = |a: u16| if a == one { expression } else { 0 };
    let entries: Vec<[u16; 2]> = (0..end).map(|a| [a, condition(a)]).collect();
    harbour(2, 64, &[], &entries)
}

/// Ten features, and attribute 0 where all the given ones are on. That
/// expression is the last one.
fn ten(on: &[u16]) -> Tables {
    let mut tables = harbour(10, 1, &[], &[[0, 0]]);
    let mut all = on[0] + 1;
    for feature in &on[1..] {
        tables.expressions.extend([4, all, feature + 1]);
        all = tables.count(0) as u16 - 1;
    }
    tables.entries[1] = all;
    tables
}

// Cases

fn nothing_wanted() -> Vec<Aimed> {
    let both = |tables: &mut Tables| {
        tables.expressions.extend([4, 1, 2]);
        tables.model = 3;
    };
    let empty = || asking(&[[0; 4]], under(1, harbour(2, 3, &[], &[])));
    vec![
        find("H1, nothing wanted, 0 is permitted", "found 0", h1(), 0),
        find(
            "H1 under feature 1, nothing wanted, 2 is the lowest permitted",
            "found 2",
            h1_with(|tables| tables.model = 2),
            0,
        ),
        find(
            "H1 under both features, nothing wanted, 3 alone is permitted",
            "found 3",
            h1_with(both),
            0,
        ),
        find(
            "the empty report under feature 0, nothing wanted, 1 is the lowest permitted",
            "found 1",
            empty(),
            0,
        ),
        find(
            "the empty report, attribute 0 of 3, all sets are empty",
            "none",
            empty(),
            set(&[0]),
        ),
    ]
}

fn of_h1() -> Vec<Aimed> {
    vec![
        find(
            "H1, attribute 0, which is all that configuration 0 has",
            "found 0",
            h1(),
            set(&[0]),
        ),
        find(
            "H1, attribute 2, m - 1, configurations 0 and 1 lack it, 2 and 3 have it and more",
            "found 2",
            h1(),
            set(&[2]),
        ),
        find(
            "H1, attributes 0 and 2, configurations 0 and 1 have one of them, 2 and 3 both",
            "found 2",
            h1(),
            set(&[0, 2]),
        ),
        find(
            "H1, attribute 1, which the relation has and the report leaves out",
            "none",
            h1(),
            set(&[1]),
        ),
        find(
            "H1, all three attributes, no set has attribute 1",
            "none",
            h1(),
            set(&[0, 1, 2]),
        ),
        find("H1, bit 3, which is m", "refused 22 0 0 0", h1(), set(&[3])),
        find(
            "H1, attributes 0 and 2, which configuration 2 has, and bit 3, m",
            "refused 22 0 0 0",
            h1(),
            set(&[0, 2, 3]),
        ),
        find(
            "H1, attribute 1, which no set has, and bit 3, m",
            "refused 22 0 0 0",
            h1(),
            set(&[1, 3]),
        ),
        find(
            "H1 with m = 4, bit 3 is m - 1 now, no set has it",
            "none",
            h1_with(|tables| tables.attributes = 4),
            set(&[3]),
        ),
        find("H1, all 64 bits", "refused 22 0 0 0", h1(), u64::MAX),
    ]
}

fn few_and_many_attributes() -> Vec<Aimed> {
    let none = || harbour(0, 0, &[], &[]);
    let highest = |attributes: u64| {
        let last = attributes as u16 - 1;
        harbour(1, attributes, &[], &[[0, 0], [last, 1]])
    };
    vec![
        find(
            "m = 0, nothing wanted, 0 is permitted",
            "found 0",
            none(),
            0,
        ),
        find("m = 0, bit 0 is m", "refused 22 0 0 0", none(), set(&[0])),
        find(
            "m = 63, bit 62 is m - 1, listed under feature 0",
            "found 1",
            highest(63),
            set(&[62]),
        ),
        find(
            "m = 63, bit 63 is m",
            "refused 22 0 0 0",
            highest(63),
            set(&[63]),
        ),
        find(
            "m = 64, bit 63 is m - 1, listed under feature 0",
            "found 1",
            highest(64),
            set(&[63]),
        ),
        find(
            "m = 64, attributes 0 to 62 listed, bit 63 is m - 1, no set has it",
            "none",
            listing(63, 0, 0),
            set(&[63]),
        ),
        find(
            "m = 64, all listed, all 64 bits",
            "found 0",
            listing(64, 0, 0),
            u64::MAX,
        ),
        find(
            "m = 64, all listed, 17 under feature 1, all 64 bits, configurations 0 and 1 lack 17",
            "found 2",
            listing(64, 17, 2),
            u64::MAX,
        ),
        find(
            "m = 64, attributes 0 to 62 listed, all 64 bits, no set has 63",
            "none",
            listing(63, 0, 0),
            u64::MAX,
        ),
        find(
            "m = 64, attribute 31 under feature 0, 32 under feature 1, both wanted, configurations 1 and 2 have one",
            "found 3",
            harbour(2, 64, &[], &[[31, 1], [32, 2]]),
            set(&[31, 32]),
        ),
    ]
}

fn together() -> Vec<Aimed> {
    // 3: either feature; 4: both; 5: not both; 6: one alone.
    let alone = [[5, 1, 2], [4, 1, 2], [3, 4, 0], [4, 3, 5]];
    let pairs = || harbour(2, 3, &alone, &[[0, 6], [1, 2], [2, 1]]);
    vec![
        find(
            "attribute 0 under feature 0, 1 under its negation, both wanted, never together",
            "none",
            harbour(2, 2, &[[3, 1, 0]], &[[0, 1], [1, 3]]),
            set(&[0, 1]),
        ),
        find(
            "attribute 0 at 1 and 2, attribute 1 at 2 and 3, attribute 2 at 1 and 3, all wanted, two at a time",
            "none",
            pairs(),
            set(&[0, 1, 2]),
        ),
        find(
            "the same, attributes 1 and 2 wanted, configuration 1 lacks 1, configuration 2 lacks 2, 3 has both",
            "found 3",
            pairs(),
            set(&[1, 2]),
        ),
        find(
            "attribute 0 under feature 0, 1 under feature 1, both wanted, configurations 1 and 2 have one, 3 both",
            "found 3",
            harbour(2, 2, &[], &[[0, 1], [1, 2]]),
            set(&[0, 1]),
        ),
    ]
}

fn permitted() -> Vec<Aimed> {
    // Listed always, projected under feature 0, of which 3 is the negation.
    let projected = || {
        let mut tables = harbour(2, 1, &[[3, 1, 0]], &[[0, 0]]);
        tables.entries.extend([0, 1]);
        asking(&[[1, 0, 0, 0], [3, 1, 0, 0]], tables)
    };
    vec![
        find(
            "attribute 0 under feature 0, the model is feature 1, configuration 1 is not permitted, 3 is",
            "found 3",
            under(2, harbour(2, 1, &[], &[[0, 1]])),
            set(&[0]),
        ),
        find(
            "attribute 0 projected under feature 0, the model is its negation, so 1 and 3 are not permitted",
            "none",
            under(3, projected()),
            set(&[0]),
        ),
        find(
            "the same with the model true, configuration 1 is permitted",
            "found 1",
            projected(),
            set(&[0]),
        ),
    ]
}

fn few_and_many_features() -> Vec<Aimed> {
    let all: Vec<u16> = (0..10).collect();
    vec![
        find(
            "n = 0, attribute 1 listed and wanted, 0 is the only configuration",
            "found 0",
            harbour(0, 2, &[], &[[1, 0]]),
            set(&[1]),
        ),
        find(
            "n = 0, attribute 1 listed, 0 wanted",
            "none",
            harbour(0, 2, &[], &[[1, 0]]),
            set(&[0]),
        ),
        find(
            "n = 10, attribute 0 where all features are on, which is 1023 alone",
            "found 1023",
            ten(&all),
            set(&[0]),
        ),
        find(
            "n = 10, nothing wanted, the model is that all features are on, 1023 alone is permitted",
            "found 1023",
            under(19, ten(&all)),
            0,
        ),
        find(
            "n = 10, attribute 0 under feature 6, 64 is the lowest with bit 6",
            "found 64",
            ten(&[6]),
            set(&[0]),
        ),
        find(
            "n = 10, attribute 0 where features 0 to 5 are on, 63 is their sum",
            "found 63",
            ten(&[0, 1, 2, 3, 4, 5]),
            set(&[0]),
        ),
        find(
            "n = 10, attribute 0 where features 0 to 5 and 9 are on, 512 + 63",
            "found 575",
            ten(&[0, 1, 2, 3, 4, 5, 9]),
            set(&[0]),
        ),
        find(
            "n = 10, attribute 0 under feature 9, 1 under its negation, both wanted, never together",
            "none",
            harbour(10, 2, &[[3, 10, 0]], &[[0, 10], [1, 11]]),
            set(&[0, 1]),
        ),
    ]
}

fn queries() -> Vec<Aimed> {
    // Relation 0 lists 0 and 1, relation 1 lists 2.
    let two = || {
        let mut tables = harbour(1, 3, &[], &[[0, 0], [1, 0], [2, 0]]);
        tables.relations = vec![0, 2, 0, 1];
        asking(&[[1, 0, 0, 0], [1, 1, 0, 0], [4, 1, 0, 1]], tables)
    };
    let guarded = || {
        let mut tables = harbour(2, 1, &[], &[[0, 0]]);
        tables.relations[0] = 2;
        asking(&[[1, 0, 0, 0], [0, 0, 0, 0], [4, 2, 0, 1]], tables)
    };
    vec![
        find(
            "feature 0 chooses a relation with attributes 0 and 1, else one with 2, attribute 0 wanted",
            "found 1",
            two(),
            set(&[0]),
        ),
        find(
            "the same, attribute 2 wanted",
            "found 0",
            two(),
            set(&[2]),
        ),
        find(
            "the same, attributes 0 and 2 wanted, of two alternatives",
            "none",
            two(),
            set(&[0, 2]),
        ),
        find(
            "feature 1 chooses a relation that is present with it, else empty, its attribute wanted",
            "found 2",
            guarded(),
            set(&[0]),
        ),
    ]
}

fn refused_earlier() -> Vec<Aimed> {
    let h2 = || h1_with(|tables| tables.entries[9] = 1);
    let without_list = |queries: &[[u16; 4]]| {
        let mut tables = asking(queries, h1());
        tables.entries.truncate(6);
        tables
    };
    vec![
        find(
            "H8, nothing is permitted, bit 3 is m, 12 comes first",
            "refused 12 0 0 0",
            h1_with(|tables| tables.expressions[0] = 0),
            set(&[3]),
        ),
        find(
            "H2, bit 3 is m, 17 comes first",
            "refused 17 1 2 1",
            h2(),
            set(&[3]),
        ),
        find(
            "H2, nothing wanted, typing fails at 1 and not at 0",
            "refused 17 1 2 1",
            h2(),
            0,
        ),
        find(
            "H7, all 64 bits, 19 comes first",
            "refused 19 2 0 0",
            without_list(&[[0, 0, 0, 0], [1, 0, 0, 0], [6, 0, 1, 0]]),
            u64::MAX,
        ),
        find(
            "H9, 11 features, bit 3 is m, 1 comes first",
            "refused 1 0 0 0",
            h1_with(|tables| tables.features = 11),
            set(&[3]),
        ),
        find(
            "H1 with 65 attributes, all 64 bits, which are below 65",
            "refused 1 1 0 0",
            h1_with(|tables| tables.attributes = 65),
            u64::MAX,
        ),
        find(
            "H1, table 4 a word short, bit 3 is m, 2 comes first",
            "refused 2 4 0 0",
            h1_with(|tables| tables.queries.truncate(7)),
            set(&[3]),
        ),
        find(
            "H1 with m = 2, entry 2 has attribute 2, bit 2 is m, 5 comes first",
            "refused 5 2 0 0",
            h1_with(|tables| tables.attributes = 2),
            set(&[2]),
        ),
        find(
            "H6, an operand taken twice, bit 3 is m, 8 comes first",
            "refused 8 1 0 0",
            without_list(&[[1, 0, 0, 0], [5, 0, 0, 0]]),
            set(&[3]),
        ),
    ]
}
