//! The proved column checker of harbour reports, configuring, finding a
//! configuration, and the wall page, as safe functions. Each is told the
//! [`Reading`], right after the tables. See README.md, and ../include/gelvomas.h
//! for C.

#![no_std]

mod kinds;
mod refusal;

pub use kinds::{comparison, expression, kind, operator, query};
pub use refusal::Refusal;

/// The most there may be of each. There is at least one expression and one query;
/// of the others there may be none.
pub const MAX_FEATURES: u64 = 10;
pub const MAX_ATTRIBUTES: u64 = 64;
pub const MAX_EXPRESSIONS: usize = 256;
pub const MAX_ENTRIES: usize = 512;
pub const MAX_RELATIONS: usize = 32;
pub const MAX_COMPARISONS: usize = 256;
pub const MAX_QUERIES: usize = 256;

/// The words of one form of each table; see [`Tables`].
pub const EXPRESSION_WORDS: usize = 3;
pub const ENTRY_WORDS: usize = 2;
pub const RELATION_WORDS: usize = 2;
pub const COMPARISON_WORDS: usize = 5;
pub const QUERY_WORDS: usize = 4;

/// The words of the column rows, 64 rows of 16 words.
pub const ROWS: usize = 1024;
/// The words of one row.
pub const ROW_WORDS: usize = 16;

/// The bytes of one line of a page, with its line feed; see [`page`].
pub const PAGE_LINE: usize = 73;
/// The bytes of the longest page, 1,024 lines.
pub const MAX_PAGE: usize = 74_752;

/// The head, and the words of tables 0 to 4 and of the kind table. The words may be
/// anything: what the checker does not take is refused.
#[derive(Clone, Copy, Debug, Default, PartialEq, Eq)]
pub struct Tables<'a> {
    /// Number of features, at most 10.
    pub features: u64,
    /// Number of attributes (columns), at most 64.
    pub attributes: u64,
    /// The feature model: an expression's number.
    pub model: u64,
    /// Table 0, forms of 3 words: kind, a, b.
    pub expressions: &'a [u16],
    /// Table 1, forms of 2 words: attribute, expression.
    pub entries: &'a [u16],
    /// Table 2, forms of 2 words: expression, number of entries.
    pub relations: &'a [u16],
    /// Table 3, forms of 5 words: kind, operator, a, b, c.
    pub comparisons: &'a [u16],
    /// Table 4, forms of 4 words: kind, a, b, c.
    pub queries: &'a [u16],
    /// The kind table, a word for each attribute: see [`kind`].
    pub kinds: &'a [u16],
}

/// How a report is read. What [`Strict`](Reading::Strict) accepts,
/// [`Filled`](Reading::Filled) accepts with equal rows.
///
/// ```
/// use gelvomas::{expression, kind, query, Reading, Refusal, Tables, ROWS};
///
/// // The ramps of a harbour that may have none (feature 0); the report does not say so.
/// let ramps = Tables {
///     features: 1,
///     attributes: 1,
///     model: 0,
///     expressions: &[expression::TRUE, 0, 0, expression::FEATURE, 0, 0],
///     entries: &[0, 0],
///     relations: &[1, 1],
///     queries: &[query::RELATION, 0, 0, 0],
///     kinds: &[kind::NAME],
///     ..Tables::default()
/// };
/// let mut rows = [0; ROWS];
/// let refusal = gelvomas::check(&ramps, Reading::Strict, &mut rows).unwrap_err();
/// assert_eq!(refusal.number, Refusal::RELATION_ABSENT);
/// assert_eq!(gelvomas::check(&ramps, Reading::Filled, &mut rows), Ok(()));
/// assert_eq!(rows[0], 0b10); // attribute 0 is a column where feature 0 is on
/// ```
#[derive(Clone, Copy, Debug, Default, PartialEq, Eq, Hash, PartialOrd, Ord)]
pub enum Reading {
    /// A report names a relation, and projects to an attribute, only where they are there.
    #[default]
    Strict,
    /// For a report that leaves the schema's conditions out: an absent relation counts as
    /// empty, and a projected attribute is dropped where its operand lacks it. A relation
    /// that is absent wherever it is named, and an attribute that is missing wherever it is
    /// projected, are refused. What is compared is not filled in.
    Filled,
}

impl Reading {
    /// As the C functions are told it.
    fn filled(self) -> bool {
        self == Reading::Filled
    }
}

/// Tables 1 to 4 lent for writing. Each must have at least as many words as its
/// source.
#[derive(Debug, PartialEq, Eq)]
pub struct Lent<'a> {
    /// Table 1.
    pub entries: &'a mut [u16],
    /// Table 2.
    pub relations: &'a mut [u16],
    /// Table 3.
    pub comparisons: &'a mut [u16],
    /// Table 4.
    pub queries: &'a mut [u16],
}

/// How many forms were written, by table; see [`Tables`] for the words of a form.
#[derive(Clone, Copy, Debug, PartialEq, Eq, Hash)]
pub struct Counts {
    /// Table 1.
    pub entries: u64,
    /// Table 2.
    pub relations: u64,
    /// Table 3.
    pub comparisons: u64,
    /// Table 4.
    pub queries: u64,
}

/// The C functions, as ../include/gelvomas.h has them: `filled` is the reading, false
/// for the strict one. Only here can rows of another length than [`ROWS`] be lent,
/// which are refused.
pub mod ffi {
    extern "C" {
        pub fn gelvomas_check(
            features: u64,
            attributes: u64,
            model: u64,
            expressions: *const u16,
            expressions_length: usize,
            entries: *const u16,
            entries_length: usize,
            relations: *const u16,
            relations_length: usize,
            comparisons: *const u16,
            comparisons_length: usize,
            queries: *const u16,
            queries_length: usize,
            kinds: *const u16,
            kinds_length: usize,
            filled: bool,
            rows: *mut u64,
            rows_length: usize,
            refusal: *mut [u64; 4],
        ) -> u64;

        pub fn gelvomas_configure(
            features: u64,
            attributes: u64,
            model: u64,
            expressions: *const u16,
            expressions_length: usize,
            entries: *const u16,
            entries_length: usize,
            relations: *const u16,
            relations_length: usize,
            comparisons: *const u16,
            comparisons_length: usize,
            queries: *const u16,
            queries_length: usize,
            kinds: *const u16,
            kinds_length: usize,
            filled: bool,
            configuration: u64,
            new_entries: *mut u16,
            new_entries_length: usize,
            new_relations: *mut u16,
            new_relations_length: usize,
            new_comparisons: *mut u16,
            new_comparisons_length: usize,
            new_queries: *mut u16,
            new_queries_length: usize,
            answer: *mut [u64; 4],
        ) -> u64;

        pub fn gelvomas_find(
            features: u64,
            attributes: u64,
            model: u64,
            expressions: *const u16,
            expressions_length: usize,
            entries: *const u16,
            entries_length: usize,
            relations: *const u16,
            relations_length: usize,
            comparisons: *const u16,
            comparisons_length: usize,
            queries: *const u16,
            queries_length: usize,
            kinds: *const u16,
            kinds_length: usize,
            filled: bool,
            wanted: u64,
            answer: *mut [u64; 4],
        ) -> u64;

        pub fn gelvomas_page(
            features: u64,
            attributes: u64,
            model: u64,
            expressions: *const u16,
            expressions_length: usize,
            entries: *const u16,
            entries_length: usize,
            relations: *const u16,
            relations_length: usize,
            comparisons: *const u16,
            comparisons_length: usize,
            queries: *const u16,
            queries_length: usize,
            kinds: *const u16,
            kinds_length: usize,
            filled: bool,
            page: *mut u8,
            page_length: usize,
            answer: *mut [u64; 4],
        ) -> u64;
    }
}

/// Checks the report of these tables. Accepted, `rows` holds its column rows:
/// attribute a is in the report at configuration c where bit c % 64 of word
/// 16 * a + c / 64 is 1. Refused, no word of `rows` is changed.
pub fn check(tables: &Tables, reading: Reading, rows: &mut [u64; ROWS]) -> Result<(), Refusal> {
    let mut refusal = [0; 4];
    // The slices are lent for the call, and the lengths are theirs; the function
    // asks nothing else.
    let answer = unsafe {
        ffi::gelvomas_check(
            tables.features,
            tables.attributes,
            tables.model,
            tables.expressions.as_ptr(),
            tables.expressions.len(),
            tables.entries.as_ptr(),
            tables.entries.len(),
            tables.relations.as_ptr(),
            tables.relations.len(),
            tables.comparisons.as_ptr(),
            tables.comparisons.len(),
            tables.queries.as_ptr(),
            tables.queries.len(),
            tables.kinds.as_ptr(),
            tables.kinds.len(),
            reading.filled(),
            rows.as_mut_ptr(),
            rows.len(),
            &mut refusal,
        )
    };
    match answer {
        0 => Ok(()),
        _ => Err(refusal.into()),
    }
}

/// Writes the tables that the report of these tables becomes at a configuration.
/// Each table is written from its first word on, and the words after it are not
/// changed; the head and table 0, which are not written, are 0 features, as many
/// attributes, model 0 and the one expression true (1 0 0), and the kind table stays
/// as it is. Read as filled, an absent relation is written as the query empty, and a
/// projected attribute that is missing there is left out; what is written passes
/// strictly. Refused, no word of `lent` is changed. A configuration that is not
/// permitted, and a table lent with fewer words than its source has, are refused.
pub fn configure(
    tables: &Tables,
    reading: Reading,
    configuration: u64,
    lent: Lent,
) -> Result<Counts, Refusal> {
    let mut words = [0; 4];
    // The slices are lent for the call, and the lengths are theirs; the function
    // asks nothing else.
    let answer = unsafe {
        ffi::gelvomas_configure(
            tables.features,
            tables.attributes,
            tables.model,
            tables.expressions.as_ptr(),
            tables.expressions.len(),
            tables.entries.as_ptr(),
            tables.entries.len(),
            tables.relations.as_ptr(),
            tables.relations.len(),
            tables.comparisons.as_ptr(),
            tables.comparisons.len(),
            tables.queries.as_ptr(),
            tables.queries.len(),
            tables.kinds.as_ptr(),
            tables.kinds.len(),
            reading.filled(),
            configuration,
            lent.entries.as_mut_ptr(),
            lent.entries.len(),
            lent.relations.as_mut_ptr(),
            lent.relations.len(),
            lent.comparisons.as_mut_ptr(),
            lent.comparisons.len(),
            lent.queries.as_mut_ptr(),
            lent.queries.len(),
            &mut words,
        )
    };
    let [entries, relations, comparisons, queries] = words;
    match answer {
        0 => Ok(Counts {
            entries,
            relations,
            comparisons,
            queries,
        }),
        _ => Err(words.into()),
    }
}

/// Finds the lowest permitted configuration at which the report of these tables has
/// every wanted attribute: attribute a is wanted where bit a of `wanted` is 1. It is
/// `None` where no permitted configuration has them all, and the lowest permitted
/// configuration where nothing is wanted. A wanted attribute that is not below the
/// number of attributes is refused.
pub fn find(tables: &Tables, reading: Reading, wanted: u64) -> Result<Option<u64>, Refusal> {
    let mut words = [0; 4];
    // The slices are lent for the call, and the lengths are theirs; the function
    // asks nothing else.
    let answer = unsafe {
        ffi::gelvomas_find(
            tables.features,
            tables.attributes,
            tables.model,
            tables.expressions.as_ptr(),
            tables.expressions.len(),
            tables.entries.as_ptr(),
            tables.entries.len(),
            tables.relations.as_ptr(),
            tables.relations.len(),
            tables.comparisons.as_ptr(),
            tables.comparisons.len(),
            tables.queries.as_ptr(),
            tables.queries.len(),
            tables.kinds.as_ptr(),
            tables.kinds.len(),
            reading.filled(),
            wanted,
            &mut words,
        )
    };
    match answer {
        0 => Ok(Some(words[0])),
        2 => Ok(None),
        _ => Err(words.into()),
    }
}

/// Writes the page of the report of these tables, to be pinned up, and gives its
/// number of lines: one for each permitted configuration, ascending. A line is 72
/// characters and a line feed: the configuration, right-aligned in 4; a space; 64
/// marks, for attributes 0 to 63, `o` where the attribute is in the report at the
/// configuration and `.` where it is not; a space; the number of columns,
/// right-aligned in 2. The page is written from the first byte on, and the bytes
/// after it are not changed. Refused, no byte is changed. A page with fewer than
/// [`PAGE_LINE`] bytes for each line is refused; [`MAX_PAGE`] bytes are always enough.
pub fn page(tables: &Tables, reading: Reading, page: &mut [u8]) -> Result<u64, Refusal> {
    let mut words = [0; 4];
    // The slices are lent for the call, and the lengths are theirs; the function
    // asks nothing else.
    let answer = unsafe {
        ffi::gelvomas_page(
            tables.features,
            tables.attributes,
            tables.model,
            tables.expressions.as_ptr(),
            tables.expressions.len(),
            tables.entries.as_ptr(),
            tables.entries.len(),
            tables.relations.as_ptr(),
            tables.relations.len(),
            tables.comparisons.as_ptr(),
            tables.comparisons.len(),
            tables.queries.as_ptr(),
            tables.queries.len(),
            tables.kinds.as_ptr(),
            tables.kinds.len(),
            reading.filled(),
            page.as_mut_ptr(),
            page.len(),
            &mut words,
        )
    };
    match answer {
        0 => Ok(words[0]),
        _ => Err(words.into()),
    }
}
