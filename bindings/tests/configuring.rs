//! H4 of docs/FORMAT.md, "Worked examples", a column listed for two reasons, checks 20
//! and 21, the words lent, and what was written given back to the checker.

mod common;

use common::{refused, H1};
use gelvomas::{check, configure, Counts, Lent, Reading, Refusal, Tables, ROWS};

/// What the words are before a call.
const STALE: u16 = 0xBEEF;

/// Attributes 0 to 3. Relation 0 lists 0, 1 where feature 0 is on and 2
/// elsewhere; relation 1, present where feature 1 is on, lists 3. The report is
/// the product of a project of relation 0 and, where feature 1 is on, relation 1
/// selected by comparisons with choices among them; elsewhere empty.
const VARIED: Tables = Tables {
    features: 2,
    attributes: 4,
    model: 4,
    // true; feature 0; feature 1; not feature 0; features 0 or 1, the model.
    expressions: &[1, 0, 0, 2, 0, 0, 2, 1, 0, 3, 1, 0, 5, 1, 2],
    entries: &[0, 0, 1, 1, 2, 3, 3, 2, 0, 0, 1, 1],
    relations: &[0, 3, 2, 1],
    // 3 = 7; never; where feature 0 is on the first, elsewhere never; that choice
    // again, where feature 1 is on; not that.
    comparisons: &[
        2, 2, 3, 7, 0, 0, 0, 0, 0, 0, 7, 0, 1, 0, 1, 7, 0, 2, 2, 0, 4, 0, 3, 0, 0,
    ],
    queries: &[
        1, 0, 0, 0, 3, 2, 0, 0, 1, 1, 0, 0, 2, 4, 2, 0, 0, 0, 0, 0, 4, 2, 3, 4, 5, 1, 5, 0,
    ],
    kinds: &[0; 4],
};

/// Berth 0 and ramp 1; swaps 0 and tide gates 1. The relation lists the ramp for
/// swaps, the berth, and the ramp again for tide gates. The report is the relation.
const RAMP_TWICE: Tables = Tables {
    features: 2,
    attributes: 2,
    model: 0,
    // true; swaps; tide gates; not swaps; swaps and not swaps.
    expressions: &[1, 0, 0, 2, 0, 0, 2, 1, 0, 3, 1, 0, 4, 1, 3],
    entries: &[1, 1, 0, 0, 1, 2],
    relations: &[0, 3],
    comparisons: &[],
    queries: &[1, 0, 0, 0],
    kinds: &[0; 2],
};

/// The words of tables 1 to 4.
fn rooms(tables: &Tables) -> [usize; 4] {
    [
        tables.entries.len(),
        tables.relations.len(),
        tables.comparisons.len(),
        tables.queries.len(),
    ]
}

/// The answer, and the tables lent with so many words afterwards.
fn configured_with(
    tables: &Tables,
    configuration: u64,
    rooms: [usize; 4],
) -> (Result<Counts, Refusal>, [Vec<u16>; 4]) {
    let mut words = rooms.map(|room| vec![STALE; room]);
    let [entries, relations, comparisons, queries] = &mut words;
    let lent = Lent {
        entries,
        relations,
        comparisons,
        queries,
    };
    (
        configure(tables, Reading::Strict, configuration, lent),
        words,
    )
}

/// Refused so, with every word as it was.
fn expect_refused(tables: &Tables, configuration: u64, rooms: [usize; 4], wanted: Refusal) {
    let (answer, words) = configured_with(tables, configuration, rooms);
    assert_eq!(answer, Err(wanted));
    assert_eq!(words, rooms.map(|room| vec![STALE; room]));
}

/// Written, with these words and then what stood there, whether each table has as
/// many words as its source or more.
fn expect_written(tables: &Tables, configuration: u64, wanted: [&[u16]; 4]) {
    let counts = Counts {
        entries: wanted[0].len() as u64 / 2,
        relations: wanted[1].len() as u64 / 2,
        comparisons: wanted[2].len() as u64 / 5,
        queries: wanted[3].len() as u64 / 4,
    };
    for more in [0, 1, 3, 1000] {
        let rooms = rooms(tables).map(|room| room + more);
        let (answer, words) = configured_with(tables, configuration, rooms);
        assert_eq!(answer, Ok(counts));
        for table in 0..4 {
            let (new, rest) = words[table].split_at(wanted[table].len());
            assert_eq!(new, wanted[table], "table {}", table + 1);
            assert!(rest.iter().all(|&word| word == STALE));
        }
    }
}

/// The attributes that the rows show at a configuration.
fn shown(rows: &[u64], configuration: usize) -> Vec<usize> {
    let has = |&a: &usize| rows[16 * a + configuration / 64] >> (configuration % 64) & 1 == 1;
    (0..64).filter(has).collect()
}

fn columns(tables: &Tables, configuration: usize) -> Vec<usize> {
    let mut rows = [0; ROWS];
    assert_eq!(check(tables, Reading::Strict, &mut rows), Ok(()));
    shown(&rows, configuration)
}

/// Configures, gives what was written to the checker with 0 features, and
/// compares the columns.
fn expect_same_columns(tables: &Tables, configuration: u64, wanted: &[usize]) {
    let (answer, words) = configured_with(tables, configuration, rooms(tables));
    let counts = answer.expect("permitted, and there is room");
    let plain = Tables {
        features: 0,
        attributes: tables.attributes,
        model: 0,
        expressions: &[1, 0, 0],
        entries: &words[0][..counts.entries as usize * 2],
        relations: &words[1][..counts.relations as usize * 2],
        comparisons: &words[2][..counts.comparisons as usize * 5],
        queries: &words[3][..counts.queries as usize * 4],
        kinds: tables.kinds,
    };
    assert_eq!(columns(tables, configuration as usize), wanted);
    assert_eq!(columns(&plain, 0), wanted);
}

#[test]
fn h4_configured_at_0() {
    let wanted: [&[u16]; 4] = [&[0, 0, 1, 0, 0, 0], &[0, 2], &[], &[1, 0, 0, 0, 3, 1, 0, 0]];
    expect_written(&H1, 0, wanted);
    // Feature 0 says nothing of what is in the report.
    expect_written(&H1, 1, wanted);
}

#[test]
fn h1_configured_where_ramps_is_on() {
    let all: [&[u16]; 4] = [
        &[0, 0, 1, 0, 2, 0, 0, 0, 2, 0],
        &[0, 3],
        &[],
        &[1, 0, 0, 0, 3, 2, 0, 0],
    ];
    expect_written(&H1, 2, all);
    expect_written(&H1, 3, all);
}

#[test]
fn choices_go_and_all_is_renumbered() {
    expect_written(
        &VARIED,
        1,
        [
            &[0, 0, 1, 0, 0, 0, 1, 0],
            &[0, 2],
            &[2, 2, 3, 7, 0, 0, 0, 0, 0, 0, 4, 0, 0, 0, 0],
            &[1, 0, 0, 0, 3, 2, 0, 0, 0, 0, 0, 0, 5, 1, 2, 0],
        ],
    );
    expect_written(
        &VARIED,
        2,
        [
            &[0, 0, 2, 0, 3, 0, 0, 0],
            &[0, 2, 0, 1],
            &[2, 2, 3, 7, 0, 0, 0, 0, 0, 0, 4, 0, 1, 0, 0],
            &[1, 0, 0, 0, 3, 1, 0, 0, 1, 1, 0, 0, 2, 2, 2, 0, 5, 1, 3, 0],
        ],
    );
}

#[test]
fn a_configuration_out_of_range_is_refused() {
    for c in [4, 5, 1023, 1024, 1 << 16, 1 << 32, (1 << 32) + 3, u64::MAX] {
        expect_refused(&H1, c, rooms(&H1), refused(20, 0, 0, c));
    }
}

#[test]
fn a_configuration_not_permitted_is_refused() {
    expect_refused(&VARIED, 0, rooms(&VARIED), refused(20, 0, 0, 0));
}

#[test]
fn a_table_one_word_short_is_refused() {
    for table in 0..4 {
        let mut rooms = rooms(&VARIED);
        rooms[table] -= 1;
        let wanted = refused(21, table as u64 + 1, 0, 0);
        expect_refused(&VARIED, 1, rooms, wanted);
        rooms[table] = 0;
        expect_refused(&VARIED, 1, rooms, wanted);
    }
    // The lowest of several.
    expect_refused(&VARIED, 1, [11, 3, 24, 27], refused(21, 1, 0, 0));
    expect_refused(&VARIED, 1, [12, 4, 24, 27], refused(21, 3, 0, 0));
}

#[test]
fn checks_run_in_their_order() {
    // The report, then the configuration, then the room.
    let entries = [0, 0, 1, 0, 2, 2, 0, 0, 2, 1];
    let h2 = Tables {
        entries: &entries,
        ..H1
    };
    expect_refused(&h2, u64::MAX, [0; 4], refused(17, 1, 2, 1));
    expect_refused(&H1, 4, [0; 4], refused(20, 0, 0, 4));
    expect_refused(&H1, 3, [0; 4], refused(21, 1, 0, 0));
    expect_refused(&Tables::default(), 0, [0; 4], refused(2, 0, 0, 0));
}

#[test]
fn what_is_written_is_accepted_and_has_the_same_columns() {
    for c in 0..2 {
        expect_same_columns(&H1, c, &[0]);
        expect_same_columns(&H1, c + 2, &[0, 2]);
    }
    expect_same_columns(&VARIED, 1, &[0, 1]);
    expect_same_columns(&VARIED, 2, &[0, 3]);
    expect_same_columns(&VARIED, 3, &[0, 1, 3]);
}

/// Of each attribute the first entry that holds is kept, in the order of the list.
#[test]
fn a_column_is_listed_for_two_reasons() {
    let kept: [(&[u16], &[usize]); 4] = [
        (&[0, 0], &[0]),
        (&[1, 0, 0, 0], &[0, 1]),
        (&[0, 0, 1, 0], &[0, 1]),
        (&[1, 0, 0, 0], &[0, 1]),
    ];
    for (configuration, (entries, columns)) in (0..).zip(kept) {
        let relations = [0, entries.len() as u16 / 2];
        let wanted = [entries, &relations, &[], &[1, 0, 0, 0]];
        expect_written(&RAMP_TWICE, configuration, wanted);
        expect_same_columns(&RAMP_TWICE, configuration, columns);
    }
}

/// The ramp's second entry holds nowhere, though its first does.
#[test]
fn fourteen_tests_each_entry_by_itself() {
    let entries = &[1, 1, 0, 0, 1, 4];
    let nowhere = Tables {
        entries,
        ..RAMP_TWICE
    };
    expect_refused(&nowhere, 3, rooms(&nowhere), refused(14, 0, 1, 0));
    assert_eq!(
        check(&nowhere, Reading::Strict, &mut [0; ROWS]),
        Err(refused(14, 0, 1, 0))
    );
}
