//! The cases of `cases/page.txt`: calls of `page`.

use std::ops::Range;

use super::{asking, h1, h1_with, harbour, page, under, Aimed};
use crate::tables::Tables;

/// All cases, in the order of their numbers.
pub fn cases() -> Vec<Aimed> {
    let groups = [
        of_h1(),
        too_short_for_h1(),
        long_enough_for_h1(),
        fewer_permitted(),
        one_line(),
        few_attributes(),
        one_attribute_of_64(),
        many_attributes(),
        digits_of_the_number_of_columns(),
        lists(),
        queries(),
        one_configuration(),
        digits_of_configurations(),
        many_lines(),
        many_lines_too_few_bytes(),
        refused_in_form(),
        refused_in_lists_and_queries(),
        refused_in_the_schema(),
        refused_by_typing(),
        refused_with_room(),
    ];
    groups.into_iter().flatten().collect()
}

/// The page is not long enough.
fn short(note: &'static str, tables: Tables, room: usize) -> Aimed {
    page(note, "refused 23 0 0 0", tables, room)
}

/// No page is lent: what comes before 23 is told.
fn no_bytes(note: &'static str, answer: &'static str, tables: Tables) -> Aimed {
    page(note, answer, tables, 0)
}

// Answers

/// H1 has attribute 0 always, and attribute 2 with feature 1.
const PAGE_OF_H1: &str = "page 4
line    0 o...............................................................  1
line    1 o...............................................................  1
line    2 o.o.............................................................  2
line    3 o.o.............................................................  2";

/// A page of the given lines: the configuration in its 4 places; the marks, of
/// which `.` at the end are left out; the number of columns in its 2 places.
pub fn lines(all: &[[&str; 3]]) -> String {
    let mut answer = format!("page {}", all.len());
    for [configuration, marks, columns] in all {
        answer += &format!("\nline {configuration} {marks:.<64} {columns}");
    }
    answer
}

/// A page with a line for configuration 0 only.
fn line_of_0(marks: &str, columns: &str) -> String {
    lines(&[["   0", marks, columns]])
}

/// The page of these configurations, where the report has attribute i with
/// feature i: the marks are the bits of the configuration.
fn features_as_marks(configurations: Range<u16>) -> String {
    let mut answer = format!("page {}", configurations.len());
    for c in configurations {
        let mark = |feature: u16| if c >> feature & 1 == 1 { 'o' } else { '.' };
        let marks: String = (0..10).map(mark).collect();
        answer += &format!("\nline {c:4} {marks:.<64} {:2}", c.count_ones());
    }
    answer
}

// Steps, some of which the stored cases of `vectors` take too.

/// No features, and a relation that lists the given attributes.
pub fn listing(attributes: u64, listed: impl Iterator<Item = u16>) -> Tables {
    let entries: Vec<[u16; 2]> = listed.map(|attribute| [attribute, 0]).collect();
    harbour(0, attributes, &[], &entries)
}

/// One feature; a relation lists the attributes below `always`, and with the
/// feature those below `with_feature`.
pub fn growing(attributes: u64, always: u16, with_feature: u16) -> Tables {
    let condition = |attribute: u16| u16::from(attribute >= always);
    let entries: Vec<[u16; 2]> = (0..with_feature).map(|a| [a, condition(a)]).collect();
    harbour(1, attributes, &[], &entries)
}

/// Ten features, and attribute i with feature i.
pub fn ten() -> Tables {
    let entries: Vec<[u16; 2]> = (0..10).map(|feature| [feature, feature + 1]).collect();
    harbour(10, 10, &[], &entries)
}

/// The tables under the model that permits the given configurations alone.
pub fn permitting(configurations: &[u16], mut tables: Tables) -> Tables {
    let mut any = tables.add_expression([0, 0, 0]);
    for c in configurations {
        let mut all = 0;
        for feature in 0..tables.features as u16 {
            let mut literal = feature + 1;
            if c >> feature & 1 == 0 {
                literal = tables.add_expression([3, literal, 0]);
            }
            all = tables.add_expression([4, all, literal]);
        }
        any = tables.add_expression([5, any, all]);
    }
    under(u64::from(any), tables)
}

/// Ten features, one permitted configuration, and attribute 0 always.
pub fn alone(configuration: u16) -> Tables {
    permitting(&[configuration], harbour(10, 1, &[], &[[0, 0]]))
}

/// Ten features, any of which has to be on: 0 is not permitted.
pub fn all_but_0() -> Tables {
    let mut tables = ten();
    let mut any = 1;
    for feature in 1..10 {
        any = tables.add_expression([5, any, feature + 1]);
    }
    under(u64::from(any), tables)
}

/// H1 without the list of its project, with other queries.
fn schema_of_h1(queries: &[[u16; 4]]) -> Tables {
    let mut tables = asking(queries, h1());
    tables.entries.truncate(6);
    tables
}

/// H1 with one more expression, false, which has number 3.
fn h1_and_false(change: fn(&mut Tables)) -> Tables {
    let mut tables = h1_with(change);
    tables.add_expression([0, 0, 0]);
    tables
}

// Cases

fn of_h1() -> Vec<Aimed> {
    vec![
        page(
            "H1, four lines, 292 bytes are exactly enough",
            PAGE_OF_H1,
            h1(),
            292,
        ),
        page(
            "H1 with m = 64, the marks from m on are the same",
            PAGE_OF_H1,
            h1_with(|tables| tables.attributes = 64),
            292,
        ),
    ]
}

fn too_short_for_h1() -> Vec<Aimed> {
    vec![
        short("H1, 291 bytes, one too few", h1(), 291),
        short("H1, 288 bytes, the lines without line feeds", h1(), 288),
        short("H1, 219 bytes, three lines of four", h1(), 219),
        short("H1, 220 bytes, three lines and a byte", h1(), 220),
        short("H1, 73 bytes, one line of four", h1(), 73),
        short("H1, 72 bytes", h1(), 72),
        short("H1, 4 bytes, as many as lines", h1(), 4),
        short("H1, a byte", h1(), 1),
        short("H1, no bytes", h1(), 0),
    ]
}

fn long_enough_for_h1() -> Vec<Aimed> {
    vec![
        page("H1, a byte more", PAGE_OF_H1, h1(), 293),
        page("H1, 72 bytes more", PAGE_OF_H1, h1(), 364),
        page("H1, a line more", PAGE_OF_H1, h1(), 365),
        page(
            "H1, 74,751 bytes, one fewer than for 1,024 lines",
            PAGE_OF_H1,
            h1(),
            74_751,
        ),
        page(
            "H1, 74,752 bytes, for 1,024 lines",
            PAGE_OF_H1,
            h1(),
            74_752,
        ),
        page("H1, more than any page has", PAGE_OF_H1, h1(), 74_753),
    ]
}

fn fewer_permitted() -> Vec<Aimed> {
    let ramps = || h1_with(|tables| tables.model = 2);
    let two = || lines(&[["   2", "o.o", " 2"], ["   3", "o.o", " 2"]]);
    let ends = || permitting(&[3, 0], h1());
    vec![
        page(
            "H1 under feature 1, 2 and 3 are permitted, 0 is not, 146 bytes",
            two(),
            ramps(),
            146,
        ),
        page(
            "H1 under feature 1, 291 bytes, one fewer than for all four configurations",
            two(),
            ramps(),
            291,
        ),
        short("H1 under feature 1, 145 bytes, one too few", ramps(), 145),
        page(
            "H1 where both features are on or off, lines for 0 and 3, ascending",
            lines(&[["   0", "o", " 1"], ["   3", "o.o", " 2"]]),
            ends(),
            146,
        ),
    ]
}

fn one_line() -> Vec<Aimed> {
    let empty = || asking(&[[0; 4]], harbour(0, 0, &[], &[]));
    vec![
        page(
            "n = 0, m = 0, the empty report, one line of no columns",
            line_of_0("", " 0"),
            empty(),
            73,
        ),
        page(
            "the same, 145 bytes, one fewer than for two lines",
            line_of_0("", " 0"),
            empty(),
            145,
        ),
        short("the same, 72 bytes, no room for the line feed", empty(), 72),
        short("the same, no bytes, one line", empty(), 0),
    ]
}

fn few_attributes() -> Vec<Aimed> {
    vec![
        page(
            "m = 1, attribute 0 listed",
            line_of_0("o", " 1"),
            listing(1, 0..1),
            73,
        ),
        page(
            "m = 1, none listed",
            line_of_0("", " 0"),
            listing(1, 0..0),
            73,
        ),
        page(
            "m = 2, attribute 1 listed",
            line_of_0(".o", " 1"),
            listing(2, 1..2),
            73,
        ),
        page(
            "m = 3, all listed",
            line_of_0("ooo", " 3"),
            listing(3, 0..3),
            73,
        ),
        page(
            "m = 64, none listed, no columns",
            "page 1
line    0 ................................................................  0",
            listing(64, 0..0),
            73,
        ),
    ]
}

fn one_attribute_of_64() -> Vec<Aimed> {
    vec![
        page(
            "m = 64, attribute 0 alone, the first mark",
            "page 1
line    0 o...............................................................  1",
            listing(64, 0..1),
            73,
        ),
        page(
            "m = 64, attribute 63 alone, the last mark",
            "page 1
line    0 ...............................................................o  1",
            listing(64, 63..64),
            73,
        ),
        page(
            "m = 64, attributes 31 and 32, the two in the middle",
            "page 1
line    0 ...............................oo...............................  2",
            listing(64, 31..33),
            73,
        ),
        page(
            "m = 64, attributes 0, 1 and 62, otherwise from the other end",
            "page 1
line    0 oo............................................................o.  3",
            listing(64, [0, 1, 62].into_iter()),
            73,
        ),
    ]
}

fn many_attributes() -> Vec<Aimed> {
    vec![
        page(
            "m = 64, all listed, 64 columns",
            "page 1
line    0 oooooooooooooooooooooooooooooooooooooooooooooooooooooooooooooooo 64",
            listing(64, 0..64),
            73,
        ),
        page(
            "m = 64, all but 63",
            line_of_0(&"o".repeat(63), "63"),
            listing(64, 0..63),
            73,
        ),
        page(
            "m = 64, all but 0",
            line_of_0(&(".".to_string() + &"o".repeat(63)), "63"),
            listing(64, 1..64),
            73,
        ),
        page(
            "m = 63, all listed, attribute 63 is none and its mark is absent",
            line_of_0(&"o".repeat(63), "63"),
            listing(63, 0..63),
            73,
        ),
        page(
            "m = 63, attribute 62 alone",
            line_of_0(&(".".repeat(62) + "o"), " 1"),
            listing(63, 62..63),
            73,
        ),
    ]
}

fn digits_of_the_number_of_columns() -> Vec<Aimed> {
    let nine = "ooooooooo";
    let ten = "oooooooooo";
    vec![
        page("9 columns", line_of_0(nine, " 9"), listing(64, 0..9), 73),
        page("10 columns", line_of_0(ten, "10"), listing(64, 0..10), 73),
        page(
            "9 columns, with feature 0 one more",
            lines(&[["   0", nine, " 9"], ["   1", ten, "10"]]),
            growing(10, 9, 10),
            146,
        ),
        page(
            "no columns, with feature 0 all 64",
            lines(&[["   0", "", " 0"], ["   1", &"o".repeat(64), "64"]]),
            growing(64, 0, 64),
            146,
        ),
        page(
            "63 columns, with feature 0 attribute 63 too",
            lines(&[
                ["   0", &"o".repeat(63), "63"],
                ["   1", &"o".repeat(64), "64"],
            ]),
            growing(64, 63, 64),
            146,
        ),
    ]
}

fn lists() -> Vec<Aimed> {
    vec![
        page(
            "attribute 0 with feature 0, 1 with feature 1, each line has its own configuration's marks",
            lines(&[
                ["   0", "", " 0"],
                ["   1", "o", " 1"],
                ["   2", ".o", " 1"],
                ["   3", "oo", " 2"],
            ]),
            harbour(2, 2, &[], &[[0, 1], [1, 2]]),
            292,
        ),
        page(
            "attribute 5 without feature 0, 3 with it, listed in descending order",
            lines(&[["   0", ".....o", " 1"], ["   1", "...o", " 1"]]),
            harbour(1, 6, &[[3, 1, 0]], &[[5, 2], [3, 1]]),
            146,
        ),
        page(
            "attribute 2 twice in the list, one mark and one column",
            line_of_0("..o", " 1"),
            listing(3, [2, 2].into_iter()),
            73,
        ),
        page(
            "attribute 0 with feature 0 and again with feature 1, there with either",
            lines(&[
                ["   0", "", " 0"],
                ["   1", "o", " 1"],
                ["   2", "o", " 1"],
                ["   3", "o", " 1"],
            ]),
            harbour(2, 1, &[], &[[0, 1], [0, 2]]),
            292,
        ),
    ]
}

fn queries() -> Vec<Aimed> {
    // Relation 0 lists 0 and 1, relation 1 lists 2.
    let two = |last: [u16; 4]| {
        let mut tables = harbour(1, 3, &[], &[[0, 0], [1, 0], [2, 0]]);
        tables.relations = vec![0, 2, 0, 1];
        asking(&[[1, 0, 0, 0], [1, 1, 0, 0], last], tables)
    };
    let guarded = || {
        let mut tables = harbour(1, 64, &[], &[[63, 0]]);
        tables.relations[0] = 1;
        asking(&[[1, 0, 0, 0], [0; 4], [4, 1, 0, 1]], tables)
    };
    vec![
        page(
            "feature 0 chooses a relation with attributes 0 and 1, else one with 2",
            lines(&[["   0", "..o", " 1"], ["   1", "oo", " 2"]]),
            two([4, 1, 0, 1]),
            146,
        ),
        page(
            "the product of the two, both together",
            lines(&[["   0", "ooo", " 3"], ["   1", "ooo", " 3"]]),
            two([5, 0, 1, 0]),
            146,
        ),
        page(
            "feature 0 chooses a relation that is there with it, else empty",
            lines(&[["   0", "", " 0"], ["   1", &(".".repeat(63) + "o"), " 1"]]),
            guarded(),
            146,
        ),
    ]
}

fn one_configuration() -> Vec<Aimed> {
    let one = |note: &'static str, configuration: &str, tables: Tables| {
        page(note, lines(&[[configuration, "o", " 1"]]), tables, 73)
    };
    vec![
        one("n = 10, 0 alone is permitted", "   0", alone(0)),
        one("n = 10, 9 alone is permitted", "   9", alone(9)),
        one("n = 10, 10 alone is permitted", "  10", alone(10)),
        one("n = 10, 99 alone is permitted", "  99", alone(99)),
        one("n = 10, 100 alone is permitted", " 100", alone(100)),
        one("n = 10, 999 alone is permitted", " 999", alone(999)),
        one("n = 10, 1000 alone is permitted", "1000", alone(1000)),
        one("n = 10, 1023 alone is permitted", "1023", alone(1023)),
        short("n = 10, 1023 alone is permitted, 72 bytes", alone(1023), 72),
        short("n = 10, 1023 alone is permitted, no bytes", alone(1023), 0),
    ]
}

fn digits_of_configurations() -> Vec<Aimed> {
    // A longer model would be too long to compute with the definitions.
    let four = || permitting(&[9, 99, 100, 1023], ten());
    let marks = [
        ["   9", "o..o", " 2"],
        ["  99", "oo...oo", " 4"],
        [" 100", "..o..oo", " 3"],
        ["1023", "oooooooooo", "10"],
    ];
    vec![
        page(
            "n = 4, 9 and 10 are permitted, attribute 3 with feature 3, which both have",
            lines(&[["   9", "...o", " 1"], ["  10", "...o", " 1"]]),
            permitting(&[9, 10], harbour(4, 4, &[], &[[3, 4]])),
            146,
        ),
        page(
            "n = 10, attribute i with feature i, permitted configurations of one to four digits",
            lines(&marks),
            four(),
            292,
        ),
        short("the same, 291 bytes, one too few", four(), 291),
    ]
}

fn many_lines() -> Vec<Aimed> {
    vec![
        page(
            "n = 10, attribute i with feature i, all 1,024 are permitted, 74,752 bytes",
            features_as_marks(0..1024),
            ten(),
            74_752,
        ),
        page(
            "the same where some feature is on, 1,023 lines, 74,679 bytes",
            features_as_marks(1..1024),
            all_but_0(),
            74_679,
        ),
    ]
}

fn many_lines_too_few_bytes() -> Vec<Aimed> {
    let h9 = || h1_with(|tables| tables.features = 10);
    vec![
        short("1,024 lines, 74,751 bytes, one too few", ten(), 74_751),
        short(
            "1,023 lines, 74,678 bytes, one too few",
            all_but_0(),
            74_678,
        ),
        short("1,024 lines, 74,679 bytes, for 1,023", ten(), 74_679),
        short("H9 with 10 features, 74,751 bytes", h9(), 74_751),
        short("H9 with 10 features, 65,536 bytes", h9(), 65_536),
        short(
            "H9 with 10 features, 9,216 bytes, which is 74,752 without 65,536",
            h9(),
            9_216,
        ),
        short("H9 with 10 features, 292 bytes, for four lines", h9(), 292),
        short("H9 with 10 features, no bytes", h9(), 0),
    ]
}

fn refused_in_form() -> Vec<Aimed> {
    vec![
        no_bytes(
            "H9, 11 features, no bytes, 1 comes first",
            "refused 1 0 0 0",
            h1_with(|tables| tables.features = 11),
        ),
        no_bytes(
            "H1 with 65 attributes, no bytes",
            "refused 1 1 0 0",
            h1_with(|tables| tables.attributes = 65),
        ),
        no_bytes(
            "H1 without expressions, no bytes",
            "refused 2 0 0 0",
            h1_with(|tables| tables.expressions.clear()),
        ),
        no_bytes(
            "H1, table 4 a word short, no bytes",
            "refused 2 4 0 0",
            h1_with(|tables| tables.queries.truncate(7)),
        ),
        no_bytes(
            "H1, expression 2 is feature 2 of two, no bytes",
            "refused 3 2 0 0",
            h1_with(|tables| tables.expressions[7] = 2),
        ),
        no_bytes(
            "H1, the model is 3 of three, no bytes",
            "refused 4 0 0 0",
            h1_with(|tables| tables.model = 3),
        ),
    ]
}

fn refused_in_lists_and_queries() -> Vec<Aimed> {
    vec![
        no_bytes(
            "H1 with m = 2, entry 2 has attribute 2, no bytes",
            "refused 5 2 0 0",
            h1_with(|tables| tables.attributes = 2),
        ),
        no_bytes(
            "H1, the relation has six entries of five, no bytes",
            "refused 6 0 0 0",
            h1_with(|tables| tables.relations[1] = 6),
        ),
        no_bytes(
            "H1 with a comparison of kind 8, no bytes",
            "refused 7 0 0 0",
            h1_with(|tables| tables.comparisons = vec![8, 0, 0, 0, 0]),
        ),
        no_bytes(
            "H6, an operand taken twice, no bytes",
            "refused 8 1 0 0",
            schema_of_h1(&[[1, 0, 0, 0], [5, 0, 0, 0]]),
        ),
        no_bytes(
            "H1's relation, which nothing takes, and the empty report, no bytes",
            "refused 9 0 0 0",
            schema_of_h1(&[[1, 0, 0, 0], [0, 0, 0, 0]]),
        ),
        no_bytes(
            "H1 without its project, entries 3 and 4 are left, no bytes",
            "refused 10 3 0 0",
            h1_with(|tables| tables.queries.truncate(4)),
        ),
    ]
}

fn refused_in_the_schema() -> Vec<Aimed> {
    vec![
        no_bytes(
            "H8, nothing is permitted, no bytes, which no lines would need, 12 comes first",
            "refused 12 0 0 0",
            h1_with(|tables| tables.expressions[0] = 0),
        ),
        no_bytes(
            "H1, the relation under false, no bytes",
            "refused 13 0 0 0",
            h1_and_false(|tables| tables.relations[0] = 3),
        ),
        no_bytes(
            "H1, the relation's attribute 2 under false, no bytes",
            "refused 14 0 2 0",
            h1_and_false(|tables| tables.entries[5] = 3),
        ),
    ]
}

fn refused_by_typing() -> Vec<Aimed> {
    let relation = [1, 0, 0, 0];
    let selected = || {
        let mut tables = schema_of_h1(&[relation, [2, 0, 0, 0]]);
        tables.comparisons = vec![2, 0, 2, 7, 0];
        tables
    };
    vec![
        no_bytes(
            "H1, the relation with feature 0 only, no bytes",
            "refused 15 0 0 0",
            h1_with(|tables| tables.relations[0] = 1),
        ),
        no_bytes(
            "H1's relation where attribute 2 is below 7, configuration 0 lacks it, no bytes",
            "refused 16 1 2 0",
            selected(),
        ),
        no_bytes(
            "H2, no bytes, 17 comes first",
            "refused 17 1 2 1",
            h1_with(|tables| tables.entries[9] = 1),
        ),
        no_bytes(
            "H5, no bytes",
            "refused 18 2 0 0",
            schema_of_h1(&[relation, relation, [5, 0, 1, 0]]),
        ),
        no_bytes(
            "H7, no bytes",
            "refused 19 2 0 0",
            schema_of_h1(&[[0; 4], relation, [6, 0, 1, 0]]),
        ),
    ]
}

fn refused_with_room() -> Vec<Aimed> {
    let h2 = || h1_with(|tables| tables.entries[9] = 1);
    vec![
        page(
            "H2, 292 bytes, exactly enough for its four configurations",
            "refused 17 1 2 1",
            h2(),
            292,
        ),
        page(
            "H2, 73 bytes, configuration 0 would fit",
            "refused 17 1 2 1",
            h2(),
            73,
        ),
        page(
            "H8, 74,752 bytes, no configuration is permitted",
            "refused 12 0 0 0",
            h1_with(|tables| tables.expressions[0] = 0),
            74_752,
        ),
        page(
            "H9, 11 features, 149,504 bytes, for 2,048 lines",
            "refused 1 0 0 0",
            h1_with(|tables| tables.features = 11),
            149_504,
        ),
    ]
}
