//! The cases of `cases/repeats.txt`: an attribute more than once in a list.

use super::{aimed, asking, check, configure, find, harbour, set, under, Aimed};
use crate::reading::Reading;
use crate::small::Case;
use crate::tables::Tables;

/// All cases, in the order of their numbers.
pub fn cases() -> Vec<Aimed> {
    let groups = [
        relation_lists(),
        each_entry_by_itself(),
        joined_relations(),
        project_lists(),
        reached_or_not(),
        form_still_counts(),
        first_that_holds(),
        configured_projects(),
        configured_lists(),
        finding(),
    ];
    groups.into_iter().flatten().collect()
}

// Steps. In rows a word has bit c for configuration c: with two features 10 is
// feature 0 (1 and 3), 12 feature 1 (2 and 3), 14 either, 8 both, 15 all.

const TRUE: u16 = 0;
const SWAPS: u16 = 1;
const GATES: u16 = 2;
const NO_SWAPS: u16 = 3;
const FALSE: u16 = 4;
const BOTH: u16 = 5;
const EITHER: u16 = 6;

/// Features swaps 0 and gates 1, three attributes. One relation, always there,
/// is the report.
fn yard(entries: &[[u16; 2]]) -> Tables {
    let more = [
        [3, SWAPS, 0],
        [0, 0, 0],
        [4, SWAPS, GATES],
        [5, SWAPS, GATES],
    ];
    harbour(2, 3, &more, entries)
}

/// The yard's relation, and a project over it.
fn projected(entries: &[[u16; 2]], list: &[[u16; 2]]) -> Tables {
    let mut tables = yard(entries);
    tables.entries.extend(list.concat());
    asking(&[[1, 0, 0, 0], [3, list.len() as u16, 0, 0]], tables)
}

/// Two relations, always there, under a product, union or intersection.
fn paired(kind: u16, first: &[[u16; 2]], second: &[[u16; 2]]) -> Tables {
    let mut tables = yard(&[first, second].concat());
    tables.relations = vec![TRUE, first.len() as u16, TRUE, second.len() as u16];
    asking(&[[1, 0, 0, 0], [1, 1, 0, 0], [kind, 0, 1, 0]], tables)
}

/// A relation that is there with swaps, and asked for there only.
fn with_swaps(entries: &[[u16; 2]]) -> Tables {
    let mut tables = yard(entries);
    tables.relations[0] = SWAPS;
    asking(&[[1, 0, 0, 0], [0; 4], [4, SWAPS, 0, 1]], tables)
}

/// A project over empty where the expression holds, and empty elsewhere.
fn over_empty(expression: u16, list: &[[u16; 2]]) -> Tables {
    let mut tables = yard(list);
    tables.relations.clear();
    let project = [3, list.len() as u16, 0, 0];
    asking(&[[0; 4], project, [0; 4], [4, expression, 1, 2]], tables)
}

/// The yard with the report selected by attribute 0.
fn selected(entries: &[[u16; 2]]) -> Tables {
    let mut tables = yard(entries);
    tables.comparisons = vec![2, 0, 0, 7, 0];
    asking(&[[1, 0, 0, 0], [2, 0, 0, 0]], tables)
}

/// Other words for the relations.
fn relations(words: &[u16], tables: Tables) -> Tables {
    let relations = words.to_vec();
    Tables {
        relations,
        ..tables
    }
}

// Checking

fn relation_lists() -> Vec<Aimed> {
    let mut last = vec![[0, SWAPS]; 511];
    last.push([0, GATES]);
    let mut highest = yard(&[[63, SWAPS], [63, GATES]]);
    highest.attributes = 64;
    let highest = highest.of_moments();
    vec![
        check(
            "attribute 0 with swaps and again with gates, there with either, at 1, 2 and 3",
            "rows 0:14",
            yard(&[[0, SWAPS], [0, GATES]]),
        ),
        check(
            "attribute 0 with swaps and again without, there everywhere",
            "rows 0:15",
            yard(&[[0, SWAPS], [0, NO_SWAPS]]),
        ),
        check(
            "attribute 0 twice with swaps, there with swaps",
            "rows 0:10",
            yard(&[[0, SWAPS], [0, SWAPS]]),
        ),
        check(
            "attribute 0 with both and again with swaps, which is more",
            "rows 0:10",
            yard(&[[0, BOTH], [0, SWAPS]]),
        ),
        check(
            "attribute 0 with both, with gates and without swaps, at 0, 2 and 3",
            "rows 0:13",
            yard(&[[0, BOTH], [0, GATES], [0, NO_SWAPS]]),
        ),
        check(
            "attributes 0 and 1 by turns, 0 with swaps and with gates, 1 with swaps and without",
            "rows 0:14 16:15",
            yard(&[[0, SWAPS], [1, SWAPS], [0, GATES], [1, NO_SWAPS]]),
        ),
        check(
            "attribute 63 of 64 with swaps and again with gates, its row starts at word 1008",
            "rows 1008:14",
            highest,
        ),
        check(
            "512 entries of attribute 0, 511 with swaps and the last with gates",
            "rows 0:14",
            yard(&last),
        ),
    ]
}

fn each_entry_by_itself() -> Vec<Aimed> {
    let three = yard(&[[0, TRUE], [1, TRUE], [1, FALSE]]);
    vec![
        check(
            "attribute 1 always and again never, the second entry holds nowhere",
            "refused 14 0 1 0",
            yard(&[[1, TRUE], [1, FALSE]]),
        ),
        check(
            "attribute 1 never and again always, the first entry holds nowhere",
            "refused 14 0 1 0",
            yard(&[[1, FALSE], [1, TRUE]]),
        ),
        check(
            "attribute 1 with swaps, with gates and never, the third entry holds nowhere",
            "refused 14 0 1 0",
            yard(&[[1, SWAPS], [1, GATES], [1, FALSE]]),
        ),
        check(
            "a relation with swaps, attribute 1 always and again without swaps, never together",
            "refused 14 0 1 0",
            with_swaps(&[[1, TRUE], [1, NO_SWAPS]]),
        ),
        check(
            "a relation with swaps, attribute 1 always and again with gates, together at 3",
            "rows 16:10",
            with_swaps(&[[1, TRUE], [1, GATES]]),
        ),
        check(
            "the model is swaps, attribute 1 always and again without swaps, never permitted",
            "refused 14 0 1 0",
            under(SWAPS.into(), yard(&[[1, TRUE], [1, NO_SWAPS]])),
        ),
        check(
            "second entries of 1 and then of 0 hold nowhere, the order of the list decides",
            "refused 14 0 1 0",
            yard(&[[0, TRUE], [1, TRUE], [1, FALSE], [0, FALSE]]),
        ),
        check(
            "relation 1 has a second entry that holds nowhere, relation 2 is present nowhere",
            "refused 14 1 1 0",
            relations(&[TRUE, 1, TRUE, 2, FALSE, 0], three),
        ),
        check(
            "a relation present nowhere, with attribute 1 twice, 13 comes first",
            "refused 13 0 0 0",
            relations(&[FALSE, 2], yard(&[[1, TRUE], [1, FALSE]])),
        ),
    ]
}

fn joined_relations() -> Vec<Aimed> {
    vec![
        check(
            "union of attribute 0 with swaps and without, and of 0 always, equal everywhere",
            "rows 0:15",
            paired(6, &[[0, SWAPS], [0, NO_SWAPS]], &[[0, TRUE]]),
        ),
        check(
            "intersection of 0 with swaps and with gates, and of 0 always, unequal at 0",
            "refused 19 2 0 0",
            paired(7, &[[0, SWAPS], [0, GATES]], &[[0, TRUE]]),
        ),
        check(
            "product of 0 with swaps and with gates, and of 1 and 0 with gates, 2 is the first to share",
            "refused 18 2 0 2",
            paired(5, &[[0, SWAPS], [0, GATES]], &[[1, TRUE], [0, GATES]]),
        ),
        check(
            "select by attribute 0, there without swaps and with gates, missing at 1",
            "refused 16 1 0 1",
            selected(&[[0, NO_SWAPS], [0, GATES]]),
        ),
        check(
            "select by attribute 0, there with swaps and with gates, the model is either",
            "rows 0:14",
            under(EITHER.into(), selected(&[[0, SWAPS], [0, GATES]])),
        ),
    ]
}

fn project_lists() -> Vec<Aimed> {
    let both = [[0, TRUE], [1, TRUE]];
    vec![
        check(
            "projected to 0 with swaps and 0 with gates",
            "rows 0:14",
            projected(&both, &[[0, SWAPS], [0, GATES]]),
        ),
        check(
            "projected to 0 with swaps, 1, 0 without swaps and 0 with both",
            "rows 0:15 16:15",
            projected(&both, &[[0, SWAPS], [1, TRUE], [0, NO_SWAPS], [0, BOTH]]),
        ),
        check(
            "listed with swaps and with gates, projected to 0 with either",
            "rows 0:14",
            projected(&[[0, SWAPS], [0, GATES]], &[[0, EITHER]]),
        ),
        check(
            "listed with swaps and with gates, projected to 0 with gates and 0 with swaps",
            "rows 0:14",
            projected(&[[0, SWAPS], [0, GATES]], &[[0, GATES], [0, SWAPS]]),
        ),
        check(
            "listed with swaps, projected to 0 with swaps and 0 with gates, missing at 2",
            "refused 17 1 0 2",
            projected(&[[0, SWAPS]], &[[0, SWAPS], [0, GATES]]),
        ),
        check(
            "listed with swaps, projected to 0 with gates and 0 with swaps, missing at 2",
            "refused 17 1 0 2",
            projected(&[[0, SWAPS]], &[[0, GATES], [0, SWAPS]]),
        ),
        check(
            "listed twice with swaps, projected to 0 three times, the last without swaps, missing at 0",
            "refused 17 1 0 0",
            projected(
                &[[0, SWAPS], [0, BOTH]],
                &[[0, SWAPS], [0, BOTH], [0, NO_SWAPS]],
            ),
        ),
        check(
            "projected to 1 with swaps, 0 with gates and 1 always, of which 2 alone is listed, 1 is missing at 0",
            "refused 17 1 1 0",
            projected(&[[2, TRUE]], &[[1, SWAPS], [0, GATES], [1, TRUE]]),
        ),
        check(
            "projected to 0 and again never, in a project that is no fault",
            "rows 0:15",
            projected(&both, &[[0, TRUE], [0, FALSE]]),
        ),
    ]
}

fn reached_or_not() -> Vec<Aimed> {
    vec![
        check(
            "a project over empty, reached nowhere, attribute 0 three times",
            "rows",
            over_empty(FALSE, &[[0, TRUE], [0, TRUE], [0, SWAPS]]),
        ),
        check(
            "reached with swaps, 0 without swaps and again with swaps, missing at 1",
            "refused 17 1 0 1",
            over_empty(SWAPS, &[[0, NO_SWAPS], [0, SWAPS]]),
        ),
        check(
            "reached with swaps, 0 twice without swaps, never asked for where reached",
            "rows",
            over_empty(SWAPS, &[[0, NO_SWAPS], [0, NO_SWAPS]]),
        ),
    ]
}

fn form_still_counts() -> Vec<Aimed> {
    let twice = || yard(&[[0, TRUE], [0, TRUE]]);
    let mut project = projected(&[[0, TRUE]], &[[0, TRUE], [0, TRUE]]);
    project.queries[5] = 3;
    vec![
        check(
            "a relation's list of 3, of which table 1 has attribute 0 twice",
            "refused 6 0 0 0",
            relations(&[TRUE, 3], twice()),
        ),
        check(
            "a project's list of 3, of which table 1 has attribute 0 twice",
            "refused 8 1 0 0",
            project,
        ),
        check(
            "a relation's list of 1, the same entry is left after it",
            "refused 10 1 0 0",
            relations(&[TRUE, 1], twice()),
        ),
    ]
}

// Configuring

fn first_that_holds() -> Vec<Aimed> {
    let two = || yard(&[[0, SWAPS], [1, TRUE], [0, GATES]]);
    let three = || yard(&[[0, BOTH], [1, TRUE], [0, SWAPS], [2, TRUE], [0, NO_SWAPS]]);
    vec![
        configure(
            "0 with swaps, 1, 0 with gates, at 0 neither entry of 0 holds",
            "written E 1 1 0 R 1 0 1 C 0 Q 1 1 0 0 0",
            two(),
            0,
        ),
        configure(
            "the same at 1, the first entry of 0",
            "written E 2 0 0 1 0 R 1 0 2 C 0 Q 1 1 0 0 0",
            two(),
            1,
        ),
        configure(
            "the same at 2, the second entry of 0, behind 1",
            "written E 2 1 0 0 0 R 1 0 2 C 0 Q 1 1 0 0 0",
            two(),
            2,
        ),
        configure(
            "the same at 3, both hold and the first is kept",
            "written E 2 0 0 1 0 R 1 0 2 C 0 Q 1 1 0 0 0",
            two(),
            3,
        ),
        configure(
            "0 with both, 1, 0 with swaps, 2, 0 without swaps, at 1 the second entry of 0",
            "written E 3 1 0 0 0 2 0 R 1 0 3 C 0 Q 1 1 0 0 0",
            three(),
            1,
        ),
        configure(
            "the same at 0, the third",
            "written E 3 1 0 2 0 0 0 R 1 0 3 C 0 Q 1 1 0 0 0",
            three(),
            0,
        ),
        configure(
            "0 with swaps, 1 with gates, 0 with gates, 1 with swaps, at 2 the entries between",
            "written E 2 1 0 0 0 R 1 0 2 C 0 Q 1 1 0 0 0",
            yard(&[[0, SWAPS], [1, GATES], [0, GATES], [1, SWAPS]]),
            2,
        ),
        configure(
            "0 twice with swaps, at 1 once",
            "written E 1 0 0 R 1 0 1 C 0 Q 1 1 0 0 0",
            yard(&[[0, SWAPS], [0, SWAPS]]),
            1,
        ),
        configure(
            "without features, 0, 1 and 0 again, all hold",
            "written E 2 0 0 1 0 R 1 0 2 C 0 Q 1 1 0 0 0",
            harbour(0, 2, &[], &[[0, TRUE], [1, TRUE], [0, TRUE]]),
            0,
        ),
    ]
}

fn configured_projects() -> Vec<Aimed> {
    let both = [[0, TRUE], [1, TRUE]];
    let chosen = || {
        let tables = projected(&[[0, TRUE]], &[[0, GATES], [0, TRUE]]);
        asking(
            &[[1, 0, 0, 0], [3, 2, 0, 0], [0; 4], [4, SWAPS, 1, 2]],
            tables,
        )
    };
    vec![
        configure(
            "projected to 0 with swaps, 1, 0 with gates, at 2 the second entry of 0, behind 1",
            "written E 4 0 0 1 0 1 0 0 0 R 1 0 2 C 0 Q 2 1 0 0 0 3 2 0 0",
            projected(&both, &[[0, SWAPS], [1, TRUE], [0, GATES]]),
            2,
        ),
        configure(
            "projected to 0 never, 1 and 0 always, the second entry of 0 is the first that holds",
            "written E 4 0 0 1 0 1 0 0 0 R 1 0 2 C 0 Q 2 1 0 0 0 3 2 0 0",
            projected(&both, &[[0, FALSE], [1, TRUE], [0, TRUE]]),
            0,
        ),
        configure(
            "projected to 0 twice with swaps, at 0 to nothing",
            "written E 2 0 0 1 0 R 1 0 2 C 0 Q 2 1 0 0 0 3 0 0 0",
            projected(&both, &[[0, SWAPS], [0, SWAPS]]),
            0,
        ),
        configure(
            "a project to 0 twice, not reached at 0, its list goes",
            "written E 1 0 0 R 1 0 1 C 0 Q 1 0 0 0 0",
            chosen(),
            0,
        ),
        configure(
            "the same at 1, reached, the second entry is kept",
            "written E 2 0 0 0 0 R 1 0 1 C 0 Q 2 1 0 0 0 3 1 0 0",
            chosen(),
            1,
        ),
    ]
}

fn configured_lists() -> Vec<Aimed> {
    // Relation 0 with swaps, relation 1 always; the report is relation 1.
    let two = || {
        let entries = [[0, TRUE], [0, GATES], [1, GATES], [0, TRUE], [1, TRUE]];
        let tables = relations(&[SWAPS, 2, TRUE, 3], yard(&entries));
        asking(&[[1, 1, 0, 0]], tables)
    };
    let mut long = vec![[0, SWAPS]; 510];
    long.extend([[1, TRUE], [0, GATES]]);
    let twice = yard(&[[0, TRUE], [0, TRUE]]);
    let short = Case::Configure {
        tables: twice,
        reading: Reading::Strict,
        c: 0,
        room: [2, 2, 0, 4],
    };
    let missing = || projected(&[[0, SWAPS]], &[[0, SWAPS], [0, GATES]]);
    vec![
        configure(
            "relation 0 absent, relation 1 has 1 with gates, 0, 1 always, at 0 the last of 1",
            "written E 2 0 0 1 0 R 1 0 2 C 0 Q 1 1 0 0 0",
            two(),
            0,
        ),
        configure(
            "the same at 3, relation 0 has 0 once, relation 1 has 1 before 0",
            "written E 3 0 0 1 0 0 0 R 2 0 1 0 2 C 0 Q 1 1 1 0 0",
            two(),
            3,
        ),
        configure(
            "512 entries, 0 with swaps 510 times, 1, 0 with gates, at 2 the last",
            "written E 2 1 0 0 0 R 1 0 2 C 0 Q 1 1 0 0 0",
            yard(&long),
            2,
        ),
        aimed(
            "0 twice, room for the one entry that would be written, 21 asks for the source's",
            "refused 21 1 0 0",
            short,
        ),
        configure(
            "missing at 2 by the second entry, 17 comes before 20 of configuration 4",
            "refused 17 1 0 2",
            missing(),
            4,
        ),
    ]
}

// Finding

fn finding() -> Vec<Aimed> {
    vec![
        find(
            "0 with gates and again with swaps, which is at 1 already",
            "found 1",
            yard(&[[0, GATES], [0, SWAPS]]),
            set(&[0]),
        ),
        find(
            "0 with swaps and with gates, 1 with gates, together at 2 by the second entry",
            "found 2",
            yard(&[[0, SWAPS], [1, GATES], [0, GATES]]),
            set(&[0, 1]),
        ),
        find(
            "0 with swaps and with both, 1 twice without swaps, never together",
            "none",
            yard(&[[0, SWAPS], [0, BOTH], [1, NO_SWAPS], [1, NO_SWAPS]]),
            set(&[0, 1]),
        ),
        find(
            "0 always and again never, bit 3 is m, 14 comes first",
            "refused 14 0 0 0",
            yard(&[[0, TRUE], [0, FALSE]]),
            set(&[3]),
        ),
    ]
}
