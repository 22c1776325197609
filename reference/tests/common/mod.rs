//! Steps that several tests share.

pub mod few_readings;
pub mod filled_trees;
pub mod kind_readings;
pub mod made;
pub mod readings;

use reference::check::ROWS;
use reference::file::read_file;
use reference::page::LINE;
use reference::small::H1;
use reference::{
    check, configure, expression, form, page, plain, tables, Reading, Refusal, Tables,
};

/// A word that no answer holds by chance.
pub const LENT_ROW: u64 = 0xA5A5_5A5A_0FF0_1234;
pub const LENT_WORD: u16 = 0xBEEF;
pub const LENT_BYTE: u8 = 0xC3;

/// The tables of H1, read from its text.
pub fn h1() -> Tables {
    read_file(H1.as_bytes()).expect("H1 is sound")
}

/// H1 without its last two entries, with other queries (H5 to H7).
pub fn h1_without_list(queries: &[u16]) -> Tables {
    let mut tables = h1();
    tables.entries.truncate(6);
    tables.queries = queries.to_vec();
    tables
}

/// Checks with rows of full length; a refused call must leave them.
pub fn checked(tables: &Tables) -> Result<Vec<u64>, Refusal> {
    checked_with(tables, ROWS)
}

/// The same in either reading; what names no reading here is strict.
pub fn checked_in(tables: &Tables, reading: Reading) -> Result<Vec<u64>, Refusal> {
    lent_rows(tables, reading, ROWS)
}

/// Checks with rows of any length; a refused call must leave them.
pub fn checked_with(tables: &Tables, room: usize) -> Result<Vec<u64>, Refusal> {
    lent_rows(tables, Reading::Strict, room)
}

fn lent_rows(tables: &Tables, reading: Reading, room: usize) -> Result<Vec<u64>, Refusal> {
    let mut rows = vec![LENT_ROW; room];
    let answer = check(tables, reading, &mut rows);
    if answer.is_err() {
        assert!(rows.iter().all(|&word| word == LENT_ROW));
    }
    answer.map(|()| rows)
}

/// The counts and the lent tables.
type Configured = ([usize; 4], [Vec<u16>; 4]);

/// Configures with the given room; a refused call must leave all words. The
/// answer is the counts and the lent tables.
pub fn configured_with(tables: &Tables, c: u64, room: [usize; 4]) -> Result<Configured, Refusal> {
    configured_in(tables, Reading::Strict, c, room)
}

/// The same in either reading.
pub fn configured_in(
    tables: &Tables,
    reading: Reading,
    c: u64,
    room: [usize; 4],
) -> Result<Configured, Refusal> {
    let mut out = room.map(|words| vec![LENT_WORD; words]);
    let [entries, relations, comparisons, queries] = &mut out;
    let answer = configure(
        tables,
        reading,
        c,
        [entries, relations, comparisons, queries],
    );
    if answer.is_err() {
        assert!(out.iter().flatten().all(|&word| word == LENT_WORD));
    }
    answer.map(|counts| (counts, out))
}

/// The plain tables that configuring wrote, with their fixed head and expression. The
/// words after them must be left.
pub fn written(tables: &Tables, (counts, out): Configured) -> Tables {
    let words = |table: usize| {
        let (words, rest) = out[table - 1].split_at(counts[table - 1] * tables::WIDTHS[table]);
        assert!(rest.iter().all(|&word| word == LENT_WORD));
        words.to_vec()
    };
    Tables {
        features: 0,
        attributes: tables.attributes,
        model: 0,
        expressions: vec![1, 0, 0],
        entries: words(1),
        relations: words(2),
        comparisons: words(3),
        queries: words(4),
        kinds: tables.kinds.clone(),
    }
}

/// The page, written to so many bytes; a refused call must leave all of them, and
/// any call those after the lines. The answer is the bytes of the lines.
pub fn paged_with(tables: &Tables, room: usize) -> Result<Vec<u8>, Refusal> {
    let mut lent = vec![LENT_BYTE; room];
    let answer = page(tables, Reading::Strict, &mut lent);
    let written = answer.map_or(0, |lines| LINE * lines);
    assert!(lent[written..].iter().all(|&byte| byte == LENT_BYTE));
    lent.truncate(written);
    answer.map(|_| lent)
}

/// Finds a configuration with the wanted attributes.
pub fn find(tables: &Tables, wanted: u64) -> Result<Option<u64>, Refusal> {
    reference::find(tables, Reading::Strict, wanted)
}

/// The words of tables 1 to 4.
pub fn source_room(tables: &Tables) -> [usize; 4] {
    [1, 2, 3, 4].map(|table| tables.words(table).len())
}

pub fn refused(number: u64, place: u64, item: u64, configuration: u64) -> Refusal {
    Refusal::new(number, place, item, configuration)
}

/// The entries of a list: each one's attribute, and whether it holds.
pub type Listed = Vec<(u16, bool)>;

/// The lists that configuring at `c` has to do with: of the relations present,
/// then of the project forms reached.
pub fn lists_at(tables: &Tables, c: u64) -> Vec<Listed> {
    let lists = form::check(tables).expect("sound in form");
    let holds = expression::values(tables, c);
    let present = |number: &usize| holds[usize::from(tables.relation(*number)[0])];
    let relations = (0..tables.count(2)).filter(present);
    let relations = relations.map(|number| lists.relations[number].clone());
    let is_project = |form: &usize| tables.query(*form)[0] == tables::PROJECT;
    let projects = plain::reached(tables, c).into_iter().filter(is_project);
    let projects = projects.map(|form| lists.queries[form].clone());
    let entry = |number: usize| {
        let [attribute, expression] = tables.entry(number);
        (attribute, holds[usize::from(expression)])
    };
    let all = relations.chain(projects);
    all.map(|list| list.map(entry).collect()).collect()
}

/// "Configuring keeps each attribute's first entry that holds."
pub fn first_that_hold(list: &Listed) -> Vec<u16> {
    let mut kept = Vec::new();
    for &(attribute, holds) in list {
        if holds && !kept.contains(&attribute) {
            kept.push(attribute);
        }
    }
    kept
}
