//! Generated reports: accepted ones with the properties that matter, and
//! refused ones, one for each limit of each check and larger ones.

use std::ops::RangeInclusive;

use super::{Vector, SEED};
use crate::expression;
use crate::file::{print_file, print_tables, write_file};
use crate::generate::{self, text_of, Family, Kept, LIMITS, NUMBERS};
use crate::random::Random;
use crate::refusal::{is_of_typing, TYPING};
use crate::tables::{self, Tables, CHOICE, COMPARISON_CHOICE, SELECT, WITH_CONSTANT};
use crate::typing;

/// The numbers of the refusals that a file can give. The program lends rows of
/// the right length, and configures nothing.
pub const REFUSALS: [u64; 20] = NUMBERS;

/// The most bytes of a file and of its print, where little is enough, and for
/// a few large cases.
const LITTLE: [usize; 2] = [4_000, 6_000];
const MUCH: [usize; 2] = [30_000, 120_000];

/// So many seeds are tried for a case, and no more.
const SEEDS: u64 = 20_000;

/// Cases of each property, of each refusal at larger size, of several faults (and
/// of one attribute over and over), of full size, and of no property in
/// particular.
const EACH: usize = 3;
const SEVERAL: usize = 12;
const FULL: usize = 3;
const ANY: usize = 20;

pub fn cases() -> Vec<Vector> {
    let mut cases = Vec::new();
    for (name, size, property) in PROPERTIES {
        let texts = (SEED..SEED + SEEDS).map(generate::accepted);
        let texts = texts.filter(|t| generate::outcome(t) == 0 && property(t));
        cases.extend(named(&format!("accepted-{name}"), EACH, *size, texts));
    }
    let any = (SEED + SEEDS..).map(generate::accepted);
    cases.extend(named("accepted-any", ANY, LITTLE, any));
    cases.extend(limits());
    for number in REFUSALS {
        let faulty = (SEED..SEED + SEEDS).map(move |seed| generate::of_family(Family::Fault, seed));
        let faulty = faulty.filter(move |t| refused_in_file(t) == Some(number));
        cases.extend(named(&format!("refused-{number}"), EACH, LITTLE, faulty));
    }
    let several = (SEED..SEED + SEEDS).map(|seed| generate::of_family(Family::Several, seed));
    cases.extend(named("several-faults", SEVERAL, LITTLE, several));
    let crossed = (SEED..SEED + SEEDS).map(|seed| generate::of_family(Family::Several, seed));
    let crossed = crossed.filter(generate::is_crossed);
    cases.extend(named("lowest-form-fails-later", SEVERAL, LITTLE, crossed));
    let over = (SEED..SEED + SEEDS).map(|seed| generate::of_family(Family::Repeats, seed));
    let over = over.filter(|t| generate::most_often(t) > 400);
    let size = [MUCH[0], LITTLE[1]];
    cases.extend(named("one-attribute-over-and-over", SEVERAL, size, over));
    let compared = (SEED..SEED + SEEDS).map(generate::compared);
    cases.extend(named("columns-of-two-kinds", SEVERAL, LITTLE, compared));
    cases.extend(few_and_many());
    let full = || (SEED..SEED + SEEDS).map(|seed| generate::of_family(Family::Full, seed));
    let accepted = full().filter(|t| generate::outcome(t) == 0);
    cases.extend(named("full-size-accepted", FULL, MUCH, accepted));
    let refused = full().filter(|t| is_of_typing(generate::outcome(t)));
    cases.extend(named("full-size-refused", FULL, MUCH, refused));
    cases
}

/// Few permitted configurations, with each answer of typing; and numbers of them around a
/// power of two, with these answers by turns.
fn few_and_many() -> Vec<Vector> {
    let answers = || [0].into_iter().chain(TYPING);
    let of = |number: u64, counts: RangeInclusive<usize>| {
        let tables = (SEED..SEED + SEEDS).map(generate::few);
        tables.filter(move |t| {
            counts.contains(&expression::permitted(t).len()) && generate::outcome(t) == number
        })
    };
    let mut cases = Vec::new();
    for number in answers() {
        let name = match number {
            0 => "few-permitted-accepted".to_string(),
            _ => format!("few-permitted-refused-{number}"),
        };
        cases.extend(named(&name, EACH, LITTLE, of(number, 2..=8)));
    }
    let around = |power: usize| [power - 1, power, power + 1];
    let counts = [8, 16, 32, 64, 128, 256].into_iter().flat_map(around);
    for (count, number) in counts.zip(answers().cycle()) {
        let tables = of(number, count..=count);
        cases.extend(named(&format!("permitted-{count}"), 1, LITTLE, tables));
    }
    cases
}

/// The first so many tables that are within the size, as files.
fn named(
    name: &str,
    count: usize,
    [file, print]: [usize; 2],
    tables: impl Iterator<Item = Tables>,
) -> Vec<Vector> {
    let texts = (SEED..).zip(tables);
    let texts = texts.map(|(seed, tables)| text_of(seed, &tables));
    let texts = texts.filter(|text| text.len() <= file && print_file(text).len() <= print);
    let texts = texts.take(count).enumerate();
    texts
        .map(|(number, text)| Vector::new(&format!("{name}-{}", number + 1), text))
        .collect()
}

/// A small case for each limit of each check. Some limits (a head over 65535, a
/// form cut short, a table too long) no file can give: those files are unread.
fn limits() -> Vec<Vector> {
    let mut random = Random::new(SEED);
    let mut cases = Vec::new();
    for (seed, limit) in (SEED..).zip(LIMITS) {
        let tables = generate::small_limit(&mut random, limit);
        let words = slug(limit.words);
        let name = match refused_in_file(&tables) {
            Some(number) => format!("refused-{number}-{words}"),
            None => format!("no-file-for-{}-{words}", limit.number),
        };
        cases.push(Vector::new(&name, text_of(seed, &tables)));
    }
    cases
}

/// A name's words: letters and digits, joined by hyphens.
fn slug(words: &str) -> String {
    let parts = words.split(|letter: char| !letter.is_ascii_alphanumeric());
    let parts: Vec<&str> = parts.filter(|part| !part.is_empty()).collect();
    parts.join("-").to_lowercase()
}

/// The number by which the tables' file is refused.
fn refused_in_file(tables: &Tables) -> Option<u64> {
    let print = String::from_utf8(print_file(&write_file(tables))).ok()?;
    let number = print.strip_prefix("(refused ")?.split(' ').next()?;
    number.parse().ok()
}

// Properties of accepted reports

type Property = (&'static str, [usize; 2], fn(&Tables) -> bool);

const PROPERTIES: &[Property] = &[
    ("with-choices", LITTLE, |t| kinds(t, CHOICE) > 2),
    ("with-selects", LITTLE, |t| kinds(t, SELECT) > 2),
    ("with-projects", LITTLE, |t| kinds(t, 3) > 2),
    ("with-products", LITTLE, |t| kinds(t, 5) > 1),
    ("with-unions", LITTLE, |t| kinds(t, 6) > 1),
    ("with-intersections", LITTLE, |t| kinds(t, 7) > 1),
    ("with-all-kinds", LITTLE, |t| {
        (0..8).all(|kind| kinds(t, kind) > 0)
    }),
    ("with-shared-comparisons", LITTLE, comparisons_shared),
    ("with-a-comparison-selected-twice", LITTLE, selected_twice),
    ("with-choices-of-comparisons", LITTLE, |t| {
        let choices = forms(t, 3).filter(|form| form[0] == COMPARISON_CHOICE);
        choices.count() > 1 && kinds(t, SELECT) > 0
    }),
    ("with-0-features", LITTLE, |t| {
        t.features == 0 && t.count(4) > 3
    }),
    ("with-1-feature", LITTLE, |t| {
        t.features == 1 && t.count(4) > 3
    }),
    ("with-5-features", LITTLE, |t| t.features == 5 && varies(t)),
    ("with-6-features", LITTLE, |t| t.features == 6 && varies(t)),
    ("with-7-features", LITTLE, |t| t.features == 7 && varies(t)),
    ("with-10-features", MUCH, |t| t.features == 10 && varies(t)),
    ("with-0-attributes", LITTLE, |t| {
        t.attributes == 0 && t.count(4) > 2
    }),
    ("with-1-attribute", LITTLE, |t| {
        t.attributes == 1 && varies(t)
    }),
    ("with-64-attributes", LITTLE, |t| {
        t.attributes == 64 && varies(t)
    }),
    ("with-attribute-63", LITTLE, |t| printed(t, " 63)")),
    ("with-forms-out-of-walk-order", LITTLE, |t| {
        walk(t) != in_order(t)
    }),
    (
        "with-an-alternative-reached-nowhere",
        LITTLE,
        reached_nowhere,
    ),
    ("with-no-attributes-somewhere", LITTLE, |t| {
        printed(t, "(has))") && varies(t)
    }),
    ("with-a-relation-absent-somewhere", LITTLE, absent_somewhere),
    ("with-an-attribute-three-times", LITTLE, |t| {
        generate::most_often(t) > 2
    }),
    ("with-a-column-for-two-reasons", LITTLE, |t| {
        not_by_one_entry(t, Kept::First) && not_by_one_entry(t, Kept::Last)
    }),
    ("with-kinds-compared", LITTLE, |t| {
        let compared = |form: &[u16]| form[0] == WITH_CONSTANT && form[4] > 0;
        forms(t, 3).any(compared) && kinds(t, SELECT) > 1
    }),
    (
        "with-kinds-that-differ-where-nothing-reaches",
        LITTLE,
        |t| {
            let clashes =
                |form: &[u16]| form[0] == WITH_CONSTANT && t.kinds[usize::from(form[2])] != form[4];
            forms(t, 3).any(clashes) && kinds(t, SELECT) > 1
        },
    ),
    ("with-some-configurations-not-permitted", LITTLE, |t| {
        let permitted = expression::permitted(t).len() as u64;
        permitted > 2 && permitted < t.configurations() && varies(t)
    }),
];

/// Is another thing printed when of each attribute one entry counts?
fn not_by_one_entry(tables: &Tables, kept: Kept) -> bool {
    let fewer = generate::without_repeats(tables, kept);
    print_tables(&fewer) != print_tables(tables)
}

/// The forms of a table.
fn forms(tables: &Tables, table: usize) -> impl Iterator<Item = &[u16]> {
    tables.words(table).chunks(tables::WIDTHS[table])
}

/// How many query forms are of the kind.
fn kinds(tables: &Tables, kind: u16) -> usize {
    forms(tables, 4).filter(|form| form[0] == kind).count()
}

/// Is the text in the print?
fn printed(tables: &Tables, text: &str) -> bool {
    let print = print_file(&write_file(tables));
    print
        .windows(text.len())
        .any(|part| part == text.as_bytes())
}

/// Are the columns not the same at all permitted configurations?
fn varies(tables: &Tables) -> bool {
    let print = String::from_utf8_lossy(&print_file(&write_file(tables))).into_owned();
    let mut columns = print.lines().filter_map(|line| line.split_once(" (has"));
    let first = columns.next().map(|(_, columns)| columns.to_string());
    columns.any(|(_, columns)| Some(columns) != first.as_deref())
}

/// Is a comparison an operand of more than one form, and used by a select?
fn comparisons_shared(tables: &Tables) -> bool {
    let mut taken = vec![0; tables.count(3)];
    for form in forms(tables, 3) {
        let operands: &[u16] = match form[0] {
            4 => &form[2..3],
            5 | 6 => &form[2..4],
            7 => &form[3..5],
            _ => &[],
        };
        operands.iter().for_each(|&of| taken[usize::from(of)] += 1);
    }
    let selects = forms(tables, 4).filter(|form| form[0] == SELECT);
    taken.iter().any(|&times| times > 1) && selects.count() > 1
}

fn selected_twice(tables: &Tables) -> bool {
    let selects = forms(tables, 4).filter(|form| form[0] == SELECT);
    let mut named: Vec<u16> = selects.map(|form| form[1]).collect();
    named.sort_unstable();
    named.windows(2).any(|two| two[0] == two[1])
}

/// The query forms in the order in which a walk from the report leaves them.
fn walk(tables: &Tables) -> Vec<usize> {
    let mut left = Vec::new();
    let mut open = vec![(tables.count(4) - 1, false)];
    while let Some((form, done)) = open.pop() {
        if done {
            left.push(form);
            continue;
        }
        open.push((form, true));
        let operands = tables::operands(tables.query(form));
        open.extend(operands.into_iter().rev().map(|of| (of, false)));
    }
    left
}

fn in_order(tables: &Tables) -> Vec<usize> {
    (0..tables.count(4)).collect()
}

/// Is some form reached at no permitted configuration?
fn reached_nowhere(tables: &Tables) -> bool {
    let mut reached = vec![false; tables.count(4)];
    for at in expression::permitted(tables) {
        let here = typing::reached_at(tables, &at.holds);
        reached
            .iter_mut()
            .zip(here)
            .for_each(|(all, here)| *all |= here);
    }
    reached.contains(&false)
}

/// Is some relation absent at a permitted configuration, and some form a
/// relation that is?
fn absent_somewhere(tables: &Tables) -> bool {
    let permitted = expression::permitted(tables);
    let absent = |form: &[u16]| {
        let [presence, _] = tables.relation(usize::from(form[1]));
        permitted.iter().any(|at| !at.holds[usize::from(presence)])
    };
    forms(tables, 4).any(|form| form[0] == 1 && absent(form))
}
