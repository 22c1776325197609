//! The cases of `cases/filled.txt`: "fill in what I left out". Most tables are checked in
//! both readings.

mod large;

use super::page::lines;
use super::{aimed, check, configure, configure_with, find, h1, h1_with, page, set, Aimed};
use crate::check::ROWS;
use crate::reading::Reading;
use crate::small::Case;
use crate::tables::{Tables, COUNT, MOMENT};
use crate::tables::{CHOICE, EMPTY, INTERSECTION, PRODUCT, PROJECT, RELATION, SELECT, UNION};

/// All cases, in the order of their numbers.
pub fn cases() -> Vec<Aimed> {
    let groups = [
        berths(),
        absent(),
        absent_everywhere(),
        permitted_and_not(),
        dropped(),
        missing_everywhere(),
        listed_twice(),
        several_attributes(),
        all_dropped(),
        nested(),
        not_reached(),
        compared(),
        of_two_kinds(),
        unequal(),
        shared(),
        which_form(),
        configured_relations(),
        configured_projects(),
        order_of_checks(),
        finding(),
        paging(),
        large::cases(),
        room_of_projects(),
    ];
    groups.into_iter().flatten().collect()
}

// Steps. In rows a word has bit c for configuration c: 10 is feature 0 (1 and 3), 12
// feature 1 (2 and 3), 14 either, 8 both, 15 all.

type Entry = [u16; 2];

/// A query form; a project has its list beside it.
type Form<'a> = ([u16; 4], &'a [Entry]);

const TRUE: u16 = 0;
const SWAPS: u16 = 1;
const GATES: u16 = 2;
const NO_SWAPS: u16 = 3;
const NO_GATES: u16 = 4;
const BOTH: u16 = 5;
const EITHER: u16 = 6;
const NEITHER: u16 = 7;
const NOT_BOTH: u16 = 8;

const NOTHING: Form = ([EMPTY, 0, 0, 0], &[]);

fn relation<'a>(number: u16) -> Form<'a> {
    ([RELATION, number, 0, 0], &[])
}

fn project(list: &[Entry], of: u16) -> Form<'_> {
    ([PROJECT, list.len() as u16, of, 0], list)
}

fn choice<'a>(expression: u16, with: u16, without: u16) -> Form<'a> {
    ([CHOICE, expression, with, without], &[])
}

fn two<'a>(kind: u16, one: u16, other: u16) -> Form<'a> {
    ([kind, one, other, 0], &[])
}

/// Features swaps 0 and gates 1, four attributes. A relation has its expression, and its
/// list.
fn harbour(relations: &[(u16, &[Entry])], forms: &[Form]) -> Tables {
    let expressions = [
        [1, 0, 0],
        [2, 0, 0],
        [2, 1, 0],
        [3, SWAPS, 0],
        [3, GATES, 0],
        [4, SWAPS, GATES],
        [5, SWAPS, GATES],
        [3, EITHER, 0],
        [3, BOTH, 0],
    ];
    Tables {
        features: 2,
        attributes: 4,
        expressions: expressions.concat(),
        ..with_forms(relations, forms)
    }
    .of_moments()
}

/// Tables 1, 2 and 4.
fn with_forms(relations: &[(u16, &[Entry])], forms: &[Form]) -> Tables {
    let mut tables = Tables::default();
    for (presence, list) in relations {
        tables.relations.extend([*presence, list.len() as u16]);
        tables.entries.extend(list.concat());
    }
    for (form, list) in forms {
        tables.queries.extend(form);
        tables.entries.extend(list.concat());
    }
    tables
}

/// The same under another model.
fn under(model: u16, tables: Tables) -> Tables {
    let model = u64::from(model);
    Tables { model, ..tables }
}

/// The same with comparisons.
fn comparing(comparisons: &[[u16; 5]], tables: Tables) -> Tables {
    let comparisons = comparisons.concat();
    Tables {
        comparisons,
        ..tables
    }
}

/// One check in each reading.
fn both(note: &str, strict: &str, filled: impl Into<String>, tables: Tables) -> Vec<Aimed> {
    let strict = check(format!("{note}, strictly"), strict, tables.clone());
    let case = Case::check(tables, Reading::Filled, ROWS);
    vec![strict, aimed(format!("{note}, filled"), filled, case)]
}

/// The same call in the filled reading.
fn filled(mut call: Aimed) -> Aimed {
    match &mut call.case {
        Case::Check { reading, .. }
        | Case::Configure { reading, .. }
        | Case::Find { reading, .. }
        | Case::Page { reading, .. } => *reading = Reading::Filled,
        Case::Text(_) => panic!("a text has no reading"),
    }
    call.note += ", filled";
    call
}

/// All of them, one after another.
fn joined<const N: usize>(groups: [Vec<Aimed>; N]) -> Vec<Aimed> {
    groups.into_iter().flatten().collect()
}

/// The vessel is always there, the berth with gates. One relation has both.
const VESSEL_AND_BERTH: &[Entry] = &[[0, TRUE], [1, GATES]];
const VESSEL: &[Entry] = &[[0, TRUE]];

/// A project over that relation.
fn projected(list: &[Entry]) -> Tables {
    let forms = [relation(0), project(list, 0)];
    harbour(&[(TRUE, VESSEL_AND_BERTH)], &forms)
}

/// A relation of the vessel that is present with swaps, and forms above it.
fn of_swaps(forms: &[Form]) -> Tables {
    let forms = [&[relation(0)], forms].concat();
    harbour(&[(SWAPS, VESSEL)], &forms)
}

// H1 to H10

fn h10() -> Tables {
    h1_with(|tables| tables.queries = vec![1, 0, 0, 0, 0, 0, 0, 0, 4, 2, 0, 1, 3, 2, 2, 0])
}

fn berths() -> Vec<Aimed> {
    let of_h1 = |queries: &[u16]| {
        let mut tables = h1();
        tables.entries.truncate(6);
        tables.queries = queries.to_vec();
        tables
    };
    let h2 = h1_with(|tables| tables.entries[9] = 1);
    let h3 = h1_with(|tables| tables.entries[9] = 0);
    let h8 = h1_with(|tables| tables.expressions[0] = 0);
    let h9 = h1_with(|tables| tables.features = 11);
    let h5 = of_h1(&[1, 0, 0, 0, 1, 0, 0, 0, 5, 0, 1, 0]);
    let h6 = of_h1(&[1, 0, 0, 0, 5, 0, 0, 0]);
    let h7 = of_h1(&[0, 0, 0, 0, 1, 0, 0, 0, 6, 0, 1, 0]);
    let alike = |note, answer: &str, tables| both(note, answer, answer, tables);
    joined([
        alike("H1", "rows 0:15 32:12", h1()),
        both("H2", "refused 17 1 2 1", "rows 0:15 32:8", h2),
        both("H3", "refused 17 1 2 0", "rows 0:15 32:12", h3),
        alike("H5", "refused 18 2 0 0", h5),
        alike("H6", "refused 8 1 0 0", h6),
        alike("H7", "refused 19 2 0 0", h7),
        alike("H8", "refused 12 0 0 0", h8),
        alike("H9", "refused 1 0 0 0", h9),
        both("H10", "refused 17 3 0 0", "rows 0:12 32:12", h10()),
    ])
}

// 15

/// "An absent relation counts as empty".
fn absent() -> Vec<Aimed> {
    let first = harbour(
        &[(SWAPS, VESSEL), (TRUE, &[[1, TRUE]])],
        &[relation(0), relation(1), two(PRODUCT, 0, 1)],
    );
    let twice = harbour(
        &[(SWAPS, &[[0, GATES], [0, TRUE], [1, GATES]])],
        &[relation(0)],
    );
    joined([
        both(
            "a relation present at 1 and 3 is the report",
            "refused 15 0 0 0",
            "rows 0:10",
            of_swaps(&[]),
        ),
        both(
            "a product of it and of one always there",
            "refused 15 0 0 0",
            "rows 0:10 16:15",
            first,
        ),
        both(
            "its entries have conditions of their own",
            "refused 15 0 0 0",
            "rows 0:10 16:8",
            twice,
        ),
        both(
            "reached with gates, it is absent at 2 and present at 3",
            "refused 15 0 0 2",
            "rows 0:8",
            of_swaps(&[NOTHING, choice(GATES, 0, 1)]),
        ),
    ])
}

/// "If, and only if, it is reached somewhere and absent everywhere it is reached".
fn absent_everywhere() -> Vec<Aimed> {
    let alike = |note, answer: &str, tables| both(note, answer, answer, tables);
    let at_2 = [
        NOTHING,
        choice(NO_SWAPS, 0, 1),
        NOTHING,
        choice(GATES, 2, 3),
    ];
    let nowhere = [
        NOTHING,
        choice(NO_SWAPS, 0, 1),
        NOTHING,
        choice(SWAPS, 2, 3),
    ];
    let side = |first: u16, second: u16| {
        let forms = [
            NOTHING,
            choice(first, 0, 1),
            relation(0),
            NOTHING,
            choice(second, 3, 4),
            two(PRODUCT, 2, 5),
        ];
        of_swaps(&forms)
    };
    joined([
        alike(
            "present at 1 and 3, reached at 0 and 2",
            "refused 15 0 0 0",
            of_swaps(&[NOTHING, choice(NO_SWAPS, 0, 1)]),
        ),
        alike("reached at 2 alone", "refused 15 0 0 2", of_swaps(&at_2)),
        alike("reached nowhere", "rows", of_swaps(&nowhere)),
        alike(
            "two forms of the relation, the first where it is absent",
            "refused 15 0 0 0",
            side(NO_SWAPS, SWAPS),
        ),
        alike(
            "two forms of the relation, the second where it is absent",
            "refused 15 3 0 0",
            side(SWAPS, NO_SWAPS),
        ),
        both(
            "two forms of the relation, both present somewhere",
            "refused 15 0 0 2",
            "rows 0:10",
            side(GATES, NO_GATES),
        ),
    ])
}

fn permitted_and_not() -> Vec<Aimed> {
    let alike = |note, answer: &str, tables| both(note, answer, answer, tables);
    let reached = |presence: u16, with: u16| {
        let forms = [relation(0), NOTHING, choice(with, 0, 1)];
        harbour(&[(presence, VESSEL)], &forms)
    };
    joined([
        alike(
            "reached at 0 and 1, present at 1 to 3, permitted are 0 and 2",
            "refused 15 0 0 0",
            under(NO_SWAPS, reached(EITHER, NO_GATES)),
        ),
        alike(
            "reached at 0 and 2, present at 1 and 3, permitted are 2 and 3",
            "refused 15 0 0 2",
            under(GATES, reached(SWAPS, NO_SWAPS)),
        ),
        both(
            "reached everywhere, present at 3, permitted are 1 to 3",
            "refused 15 0 0 1",
            "rows 0:8",
            under(EITHER, reached(BOTH, TRUE)),
        ),
        alike(
            "reached everywhere, present at 3, 3 alone is permitted",
            "rows 0:8",
            under(BOTH, reached(BOTH, TRUE)),
        ),
    ])
}

// 17

/// "A projected attribute is dropped where its operand lacks it".
fn dropped() -> Vec<Aimed> {
    joined([
        both(
            "0 and 1 projected, 1 there with gates",
            "refused 17 1 1 0",
            "rows 0:15 16:12",
            projected(&[[0, TRUE], [1, TRUE]]),
        ),
        both(
            "1 projected with swaps, there with gates",
            "refused 17 1 1 1",
            "rows 0:15 16:8",
            projected(&[[1, SWAPS], [0, TRUE]]),
        ),
        both(
            "0 projected of a relation present with swaps",
            "refused 15 0 0 0",
            "rows 0:10",
            of_swaps(&[project(VESSEL, 0)]),
        ),
        both(
            "0 projected of a choice of the relation or nothing",
            "refused 17 3 0 0",
            "rows 0:12",
            harbour(
                &[(TRUE, VESSEL)],
                &[
                    relation(0),
                    NOTHING,
                    choice(GATES, 0, 1),
                    project(VESSEL, 2),
                ],
            ),
        ),
    ])
}

/// "If, and only if, it holds somewhere reached and its attribute is missing at all such
/// places".
fn missing_everywhere() -> Vec<Aimed> {
    let alike = |note, answer: &str, tables| both(note, answer, answer, tables);
    let elsewhere = [relation(0), project(&[[1, NO_SWAPS]], 0)];
    let of_1 = [[0, TRUE], [1, NO_GATES]];
    let elsewhere = under(EITHER, harbour(&[(TRUE, &of_1)], &elsewhere));
    joined([
        alike(
            "2 projected with gates, there nowhere",
            "refused 17 1 2 2",
            projected(&[[0, TRUE], [2, GATES]]),
        ),
        alike(
            "1 projected without gates, there with gates",
            "refused 17 1 1 0",
            projected(&[[0, TRUE], [1, NO_GATES]]),
        ),
        alike(
            "1 projected at 0 and 2, there at 0 and 1, permitted are 1 to 3",
            "refused 17 1 1 2",
            elsewhere,
        ),
        both(
            "0 projected without swaps, of a relation present with swaps",
            "refused 15 0 0 0",
            "refused 17 1 0 0",
            of_swaps(&[project(&[[0, NO_SWAPS]], 0)]),
        ),
        alike(
            "0 projected of nothing",
            "refused 17 1 0 0",
            harbour(&[], &[NOTHING, project(VESSEL, 0)]),
        ),
    ])
}

/// "An entry of the joined list": an attribute's entries count together.
fn listed_twice() -> Vec<Aimed> {
    joined([
        both(
            "1 projected without gates and again with both, there with gates",
            "refused 17 1 1 0",
            "rows 0:15 16:8",
            projected(&[[1, NO_GATES], [1, BOTH], [0, TRUE]]),
        ),
        both(
            "the same, the other way round",
            "refused 17 1 1 0",
            "rows 0:15 16:8",
            projected(&[[1, BOTH], [0, TRUE], [1, NO_GATES]]),
        ),
        both(
            "1 projected at 0 and again without gates, there with gates",
            "refused 17 1 1 0",
            "refused 17 1 1 0",
            projected(&[[1, NEITHER], [1, NO_GATES]]),
        ),
        both(
            "2 projected with both and again with gates, there nowhere",
            "refused 17 1 2 2",
            "refused 17 1 2 2",
            projected(&[[2, BOTH], [2, GATES]]),
        ),
        both(
            "there by two reasons, projected by two",
            "refused 17 1 0 0",
            "rows 0:14",
            harbour(
                &[(TRUE, &[[0, SWAPS], [0, GATES]])],
                &[relation(0), project(&[[0, NO_SWAPS], [0, SWAPS]], 0)],
            ),
        ),
    ])
}

/// "Either gives the lowest such configuration": then the lowest attribute at fault there.
fn several_attributes() -> Vec<Aimed> {
    joined([
        both(
            "3 missing with swaps, 2 with gates, and 1 dropped",
            "refused 17 1 1 0",
            "refused 17 1 3 1",
            projected(&[[3, SWAPS], [2, GATES], [1, TRUE]]),
        ),
        both(
            "3 and 2 missing with both",
            "refused 17 1 2 3",
            "refused 17 1 2 3",
            projected(&[[3, BOTH], [2, BOTH]]),
        ),
        both(
            "1 dropped, 3 missing with both",
            "refused 17 1 1 0",
            "refused 17 1 3 3",
            projected(&[[1, TRUE], [3, BOTH]]),
        ),
        both(
            "2 missing with swaps, where 1 is dropped at 1",
            "refused 17 1 1 0",
            "refused 17 1 2 1",
            projected(&[[1, TRUE], [2, SWAPS]]),
        ),
        both(
            "2 missing with gates, 1 dropped without",
            "refused 17 1 1 0",
            "refused 17 1 2 2",
            projected(&[[2, GATES], [1, TRUE]]),
        ),
    ])
}

fn all_dropped() -> Vec<Aimed> {
    joined([
        both(
            "1 alone projected, there with gates",
            "refused 17 1 1 0",
            "rows 16:12",
            projected(&[[1, TRUE]]),
        ),
        both("nothing projected", "rows", "rows", projected(&[])),
        both(
            "two projected, each there with another feature",
            "refused 17 1 0 0",
            "rows 0:10 16:12",
            harbour(
                &[(TRUE, &[[0, SWAPS], [1, GATES]])],
                &[relation(0), project(&[[0, TRUE], [1, TRUE]], 0)],
            ),
        ),
    ])
}

/// The relation of vessel and berth, and a project over a project.
fn twice_projected(inner: &[Entry], outer: &[Entry]) -> Tables {
    let forms = [relation(0), project(inner, 0), project(outer, 1)];
    harbour(&[(TRUE, VESSEL_AND_BERTH)], &forms)
}

fn nested() -> Vec<Aimed> {
    joined([
        both(
            "the inner one drops 1, the outer one lists 2 with gates",
            "refused 17 1 1 0",
            "refused 17 2 2 2",
            twice_projected(&[[0, TRUE], [1, TRUE]], &[[0, TRUE], [2, GATES]]),
        ),
        both(
            "the inner one has 1 with gates, the outer one lists 0 too",
            "refused 17 1 1 0",
            "refused 17 2 0 0",
            twice_projected(&[[1, TRUE]], &[[1, TRUE], [0, TRUE]]),
        ),
        both(
            "the inner one has 1 with both, the outer one lists it always",
            "refused 17 1 1 1",
            "rows 16:8",
            twice_projected(&[[1, SWAPS]], &[[1, TRUE]]),
        ),
        both(
            "the inner one has 1 with both, the outer one lists it without swaps",
            "refused 17 1 1 1",
            "refused 17 2 1 0",
            twice_projected(&[[1, SWAPS]], &[[1, NO_SWAPS]]),
        ),
        both(
            "both lack what they list",
            "refused 17 1 2 3",
            "refused 17 1 2 3",
            twice_projected(&[[2, BOTH]], &[[3, TRUE]]),
        ),
    ])
}

fn not_reached() -> Vec<Aimed> {
    let alike = |note, answer: &str, tables| both(note, answer, answer, tables);
    let guarded = |list: &[Entry], guards: &[u16]| {
        let mut forms = vec![relation(0), project(list, 0)];
        for &guard in guards {
            let of = forms.len() as u16 - 1;
            forms.extend([NOTHING, choice(guard, of, of + 1)]);
        }
        harbour(&[(TRUE, VESSEL_AND_BERTH)], &forms)
    };
    joined([
        alike(
            "2 projected where no configuration leads",
            "rows",
            guarded(&[[2, TRUE]], &[NO_SWAPS, SWAPS]),
        ),
        alike(
            "2 projected with gates, reached without",
            "rows",
            guarded(&[[2, GATES]], &[NO_GATES]),
        ),
        alike(
            "1 projected, there with gates, reached without",
            "refused 17 1 1 0",
            guarded(&[[1, TRUE]], &[NO_GATES]),
        ),
        both(
            "1 projected, there with gates, reached with either",
            "refused 17 1 1 1",
            "rows 16:12",
            guarded(&[[1, TRUE]], &[EITHER]),
        ),
    ])
}

// 16 and 25

/// A constant compared with the vessel: always, nothing, and with swaps.
const COMPARISONS: [[u16; 5]; 3] = [[2, 0, 0, 5, MOMENT], [1, 0, 0, 0, 0], [7, 0, SWAPS, 0, 1]];

fn select<'a>(comparison: u16, of: u16) -> Form<'a> {
    ([SELECT, comparison, of, 0], &[])
}

/// A select above the relation that is present with swaps.
fn selected(comparison: u16) -> Tables {
    comparing(&COMPARISONS, of_swaps(&[select(comparison, 0)]))
}

fn compared() -> Vec<Aimed> {
    let of_dropped = [
        relation(0),
        project(&[[0, TRUE], [1, TRUE]], 0),
        select(0, 1),
    ];
    let of_dropped = harbour(&[(TRUE, VESSEL_AND_BERTH)], &of_dropped);
    let of_dropped = |attribute| comparing(&[[2, 0, attribute, 5, MOMENT]], of_dropped.clone());
    joined([
        both(
            "0 compared where its relation is absent",
            "refused 15 0 0 0",
            "refused 16 1 0 0",
            selected(0),
        ),
        both(
            "0 compared where its relation is present",
            "refused 15 0 0 0",
            "rows 0:10",
            selected(2),
        ),
        both(
            "nothing compared",
            "refused 15 0 0 0",
            "rows 0:10",
            selected(1),
        ),
        both(
            "1 compared where a project drops it",
            "refused 17 1 1 0",
            "refused 16 2 1 0",
            of_dropped(1),
        ),
        both(
            "0 compared above a project that drops 1",
            "refused 17 1 1 0",
            "rows 0:15 16:12",
            of_dropped(0),
        ),
    ])
}

fn of_two_kinds() -> Vec<Aimed> {
    let counted = |mut tables: Tables| {
        tables.kinds[0] = COUNT;
        tables
    };
    let not_both = harbour(&[(NOT_BOTH, VESSEL)], &[relation(0), select(0, 0)]);
    let beside = harbour(
        &[(TRUE, VESSEL_AND_BERTH)],
        &[
            relation(0),
            project(&[[0, TRUE], [1, TRUE]], 0),
            select(0, 1),
        ],
    );
    joined([
        both(
            "kinds differ where the relation is present",
            "refused 15 0 0 0",
            "refused 25 1 0 1",
            counted(selected(2)),
        ),
        both(
            "kinds differ everywhere, the relation is absent at 0",
            "refused 15 0 0 0",
            "refused 16 1 0 0",
            counted(selected(0)),
        ),
        both(
            "kinds differ from 0 on, the relation is absent at 3",
            "refused 15 0 0 3",
            "refused 16 1 0 3",
            counted(comparing(&COMPARISONS, not_both)),
        ),
        both(
            "kinds differ above a project that drops 1",
            "refused 17 1 1 0",
            "refused 25 2 0 0",
            counted(comparing(&COMPARISONS, beside)),
        ),
    ])
}

// 18 and 19

/// Two relations of the vessel, under a form of both.
fn of_both(kind: u16, one: u16, other: u16) -> Tables {
    let forms = [relation(0), relation(1), two(kind, 0, 1)];
    harbour(&[(one, VESSEL), (other, VESSEL)], &forms)
}

fn unequal() -> Vec<Aimed> {
    let of_project = [
        relation(0),
        relation(1),
        project(VESSEL, 1),
        two(UNION, 0, 2),
    ];
    let dropped = [
        relation(0),
        project(&[[1, TRUE]], 0),
        relation(1),
        two(INTERSECTION, 1, 2),
    ];
    joined([
        both(
            "a union of one always there and one present with swaps",
            "refused 15 1 1 0",
            "refused 19 2 0 0",
            of_both(UNION, TRUE, SWAPS),
        ),
        both(
            "a union of two present with swaps",
            "refused 15 0 0 0",
            "rows 0:10",
            of_both(UNION, SWAPS, SWAPS),
        ),
        both(
            "an intersection of one present with swaps and one with either",
            "refused 15 0 0 0",
            "refused 19 2 0 2",
            of_both(INTERSECTION, SWAPS, EITHER),
        ),
        both(
            "a union of one present with swaps and one whose vessel is there with swaps",
            "refused 15 0 0 0",
            "rows 0:10",
            harbour(&[(SWAPS, VESSEL), (TRUE, &[[0, SWAPS]])], &of_project),
        ),
        both(
            "an intersection of a project that drops 1 and a relation of 1",
            "refused 17 1 1 0",
            "refused 19 3 1 0",
            harbour(&[(TRUE, VESSEL_AND_BERTH), (TRUE, &[[1, TRUE]])], &dropped),
        ),
        both(
            "a union of nothing and one present with swaps",
            "refused 15 0 0 0",
            "refused 19 2 0 1",
            of_swaps(&[NOTHING, two(UNION, 0, 1)]),
        ),
    ])
}

fn shared() -> Vec<Aimed> {
    joined([
        both(
            "a product of one present with swaps and one without",
            "refused 15 0 0 0",
            "rows 0:15",
            of_both(PRODUCT, SWAPS, NO_SWAPS),
        ),
        both(
            "a product of one present with swaps and one with gates",
            "refused 15 0 0 0",
            "refused 18 2 0 3",
            of_both(PRODUCT, SWAPS, GATES),
        ),
        both(
            "a product of one always there and one present with gates",
            "refused 15 1 1 0",
            "refused 18 2 0 2",
            of_both(PRODUCT, TRUE, GATES),
        ),
    ])
}

// The first fault

fn which_form() -> Vec<Aimed> {
    let above = [
        relation(0),
        relation(1),
        project(&[[2, TRUE]], 1),
        two(PRODUCT, 0, 2),
    ];
    let later = [
        relation(0),
        NOTHING,
        choice(NO_SWAPS, 0, 1),
        NOTHING,
        choice(GATES, 2, 3),
        relation(1),
        relation(2),
        two(UNION, 5, 6),
        two(PRODUCT, 4, 7),
    ];
    let earlier = [
        relation(1),
        relation(2),
        two(UNION, 0, 1),
        relation(0),
        NOTHING,
        choice(NO_SWAPS, 3, 4),
        two(PRODUCT, 2, 5),
    ];
    let relations: [(u16, &[Entry]); 3] = [(SWAPS, &[[1, TRUE]]), (TRUE, VESSEL), (GATES, VESSEL)];
    joined([
        both(
            "a relation absent somewhere under form 0, 2 projected in form 2",
            "refused 15 0 0 0",
            "refused 17 2 2 0",
            harbour(&[(SWAPS, VESSEL), (TRUE, &[[1, TRUE]])], &above),
        ),
        both(
            "form 0 absent at 2 alone, form 7 unequal at 0",
            "refused 15 0 0 2",
            "refused 15 0 0 2",
            harbour(&relations, &later),
        ),
        both(
            "form 2 unequal at 0, form 3 absent everywhere",
            "refused 15 1 2 0",
            "refused 19 2 0 0",
            harbour(&relations, &earlier),
        ),
    ])
}

// Configuring

fn configured_relations() -> Vec<Aimed> {
    let two_of_them = harbour(
        &[(SWAPS, VESSEL), (TRUE, &[[1, TRUE]])],
        &[relation(0), relation(1), two(PRODUCT, 0, 1)],
    );
    let calls = [
        configure(
            "H10 at 0",
            "written E 2 0 0 1 0 R 1 0 2 C 0 Q 2 0 0 0 0 3 0 0 0",
            h10(),
            0,
        ),
        configure(
            "H10 at 2",
            "written E 5 0 0 1 0 2 0 0 0 2 0 R 1 0 3 C 0 Q 2 1 0 0 0 3 2 0 0",
            h10(),
            2,
        ),
        configure(
            "H1 at 2, which both readings accept",
            "written E 5 0 0 1 0 2 0 0 0 2 0 R 1 0 3 C 0 Q 2 1 0 0 0 3 2 0 0",
            h1(),
            2,
        ),
        configure(
            "empty for the absent relation",
            "written E 0 R 0 C 0 Q 1 0 0 0 0",
            of_swaps(&[]),
            2,
        ),
        configure(
            "the relation where it is present",
            "written E 1 0 0 R 1 0 1 C 0 Q 1 1 0 0 0",
            of_swaps(&[]),
            3,
        ),
        configure(
            "empty for relation 0, and relation 1 has a new number",
            "written E 1 1 0 R 1 0 1 C 0 Q 3 0 0 0 0 1 0 0 0 5 0 1 0",
            two_of_them.clone(),
            0,
        ),
        configure(
            "both relations are present",
            "written E 2 0 0 1 0 R 2 0 1 0 1 C 0 Q 3 1 0 0 0 1 1 0 0 5 0 1 0",
            two_of_them,
            1,
        ),
        configure(
            "a select above an absent relation, its choice taken",
            "written E 0 R 0 C 2 2 0 0 5 0 1 0 0 0 0 Q 2 0 0 0 0 2 1 0 0",
            selected(2),
            0,
        ),
    ];
    calls.into_iter().map(filled).collect()
}

fn configured_projects() -> Vec<Aimed> {
    let twice = projected(&[[1, NO_GATES], [1, BOTH], [0, TRUE]]);
    let calls = [
        configure(
            "1 is dropped, by its first entry that holds",
            "written E 2 0 0 0 0 R 1 0 1 C 0 Q 2 1 0 0 0 3 1 0 0",
            twice.clone(),
            0,
        ),
        configure(
            "1 is kept, by its second entry",
            "written E 4 0 0 1 0 1 0 0 0 R 1 0 2 C 0 Q 2 1 0 0 0 3 2 0 0",
            twice,
            3,
        ),
        configure(
            "1 is kept once, by the first of two entries that hold",
            "written E 4 0 0 1 0 1 0 0 0 R 1 0 2 C 0 Q 2 1 0 0 0 3 2 0 0",
            projected(&[[1, TRUE], [0, TRUE], [1, GATES]]),
            2,
        ),
        configure(
            "all entries are dropped, and the project stays",
            "written E 1 0 0 R 1 0 1 C 0 Q 2 1 0 0 0 3 0 0 0",
            projected(&[[1, TRUE]]),
            1,
        ),
        configure(
            "a project of an absent relation",
            "written E 0 R 0 C 0 Q 2 0 0 0 0 3 0 0 0",
            of_swaps(&[project(VESSEL, 0)]),
            0,
        ),
        configure(
            "a project of what a project dropped",
            "written E 1 0 0 R 1 0 1 C 0 Q 3 1 0 0 0 3 0 0 0 3 0 1 0",
            twice_projected(&[[1, TRUE]], &[[1, TRUE]]),
            1,
        ),
    ];
    calls.into_iter().map(filled).collect()
}

// The checks of other calls

fn order_of_checks() -> Vec<Aimed> {
    let report = || of_swaps(&[]);
    let missing = || of_swaps(&[project(&[[0, NO_SWAPS]], 0)]);
    let rows = |tables, answer: &str, note: &str| {
        let case = Case::check(tables, Reading::Filled, ROWS - 1);
        aimed(format!("{note}, filled"), answer, case)
    };
    let calls = [
        configure(
            "strictly refused by 15, at 4",
            "refused 20 0 0 4",
            report(),
            4,
        ),
        configure(
            "0 is not permitted",
            "refused 20 0 0 0",
            under(EITHER, report()),
            0,
        ),
        configure("17 comes before 20", "refused 17 1 0 0", missing(), 9),
        configure_with(
            "room is for the source, also where nothing is written",
            "refused 21 1 0 0",
            report(),
            0,
            [1, 2, 0, 4],
        ),
        configure_with(
            "17 comes before 21",
            "refused 17 1 0 0",
            missing(),
            0,
            [0; 4],
        ),
        page("17 comes before 23", "refused 17 1 0 0", missing(), 0),
        find(
            "17 comes before 22",
            "refused 17 1 0 0",
            missing(),
            u64::MAX,
        ),
    ];
    let mut calls: Vec<Aimed> = calls.into_iter().map(filled).collect();
    calls.push(rows(report(), "refused 11 0 0 0", "rows of 1,023 words"));
    calls.push(rows(missing(), "refused 11 0 0 0", "11 comes before 17"));
    calls.push(configure(
        "the same report strictly, at 4",
        "refused 15 0 0 0",
        report(),
        4,
    ));
    calls
}

fn room_of_projects() -> Vec<Aimed> {
    let report = of_swaps(&[project(&[[0, TRUE]], 0)]);
    let case = configure_with(
        "room for the relation's list, the project has one too, and nothing is written",
        "refused 21 1 0 0",
        report,
        0,
        [2, 2, 0, 8],
    );
    vec![filled(case)]
}

fn finding() -> Vec<Aimed> {
    let calls = [
        find("0 in H10", "found 2", h10(), set(&[0])),
        find("0 and 2 in H10", "found 2", h10(), set(&[0, 2])),
        find("1 in H10", "none", h10(), set(&[1])),
        find("nothing in H10", "found 0", h10(), 0),
        find(
            "3 in H10, where m is 3",
            "refused 22 0 0 0",
            h10(),
            set(&[3]),
        ),
        find(
            "0, in a relation present with swaps",
            "found 1",
            of_swaps(&[]),
            set(&[0]),
        ),
        find(
            "1, which is dropped without gates",
            "found 2",
            projected(&[[1, TRUE]]),
            set(&[1]),
        ),
        find(
            "1 and 0, of which 1 is dropped",
            "none",
            projected(&[[1, TRUE]]),
            set(&[0, 1]),
        ),
    ];
    let mut calls: Vec<Aimed> = calls.into_iter().map(filled).collect();
    calls.push(find(
        "0 in H10, strictly",
        "refused 17 3 0 0",
        h10(),
        set(&[0]),
    ));
    calls
}

fn paging() -> Vec<Aimed> {
    let of_h10 = [
        ["   0", "", " 0"],
        ["   1", "", " 0"],
        ["   2", "o.o", " 2"],
        ["   3", "o.o", " 2"],
    ];
    let either = [["   1", "o", " 1"], ["   2", "", " 0"], ["   3", "o", " 1"]];
    let calls = [
        page("H10", lines(&of_h10), h10(), 292),
        page("H10, a byte too few", "refused 23 0 0 0", h10(), 291),
        page(
            "permitted are 1 to 3",
            lines(&either),
            under(EITHER, of_swaps(&[])),
            219,
        ),
    ];
    let mut calls: Vec<Aimed> = calls.into_iter().map(filled).collect();
    calls.push(page("H10, strictly", "refused 17 3 0 0", h10(), 292));
    calls
}
