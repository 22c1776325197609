//! What the tests share. Each uses some of it.

#![allow(dead_code)]

use gelvomas::{ffi, kind, Reading, Refusal, Tables, ROWS};

pub const H1: Tables = Tables {
    features: 2,
    attributes: 3,
    model: 0,
    expressions: &[1, 0, 0, 2, 0, 0, 2, 1, 0],
    entries: &[0, 0, 1, 0, 2, 2, 0, 0, 2, 2],
    relations: &[0, 3],
    comparisons: &[],
    queries: &[1, 0, 0, 0, 3, 2, 0, 0],
    kinds: &[kind::MOMENT; 3],
};

/// The kind table of so many attributes, all moments.
pub fn moments(attributes: u64) -> &'static [u16] {
    &[kind::MOMENT; 64][..attributes as usize]
}

pub fn refused(number: u64, place: u64, item: u64, configuration: u64) -> Refusal {
    Refusal {
        number,
        place,
        item,
        configuration,
    }
}

/// The attributes below 64 that the rows show at a configuration, as a set.
pub fn shown(rows: &[u64; ROWS], configuration: usize) -> u64 {
    let has = |a: usize| rows[16 * a + configuration / 64] >> (configuration % 64) & 1;
    (0..64).fold(0, |set, a| set | has(a) << a)
}

/// What the four words of an answer are before a call of a C function.
pub const UNWRITTEN: [u64; 4] = [0xDEAD_0000, 0xDEAD_0001, 0xDEAD_0002, 0xDEAD_0003];

/// What the C function returns, and the refusal's four words afterwards. It takes
/// rows of any length.
pub fn raw_check(tables: &Tables, reading: Reading, rows: &mut [u64]) -> (u64, [u64; 4]) {
    let mut refusal = UNWRITTEN;
    let answer = unsafe {
        ffi::gelvomas_check(
            tables.features,
            tables.attributes,
            tables.model,
            tables.expressions.as_ptr(),
            tables.expressions.len(),
            tables.entries.as_ptr(),
            tables.entries.len(),
            tables.relations.as_ptr(),
            tables.relations.len(),
            tables.comparisons.as_ptr(),
            tables.comparisons.len(),
            tables.queries.as_ptr(),
            tables.queries.len(),
            tables.kinds.as_ptr(),
            tables.kinds.len(),
            reading == Reading::Filled,
            rows.as_mut_ptr(),
            rows.len(),
            &mut refusal,
        )
    };
    (answer, refusal)
}

/// What the C function returns, and the answer's four words afterwards.
pub fn raw_find(tables: &Tables, reading: Reading, wanted: u64) -> (u64, [u64; 4]) {
    let mut words = UNWRITTEN;
    let answer = unsafe {
        ffi::gelvomas_find(
            tables.features,
            tables.attributes,
            tables.model,
            tables.expressions.as_ptr(),
            tables.expressions.len(),
            tables.entries.as_ptr(),
            tables.entries.len(),
            tables.relations.as_ptr(),
            tables.relations.len(),
            tables.comparisons.as_ptr(),
            tables.comparisons.len(),
            tables.queries.as_ptr(),
            tables.queries.len(),
            tables.kinds.as_ptr(),
            tables.kinds.len(),
            reading == Reading::Filled,
            wanted,
            &mut words,
        )
    };
    (answer, words)
}

/// What the C function returns, and the answer's four words afterwards.
pub fn raw_page(tables: &Tables, reading: Reading, page: &mut [u8]) -> (u64, [u64; 4]) {
    let mut words = UNWRITTEN;
    let answer = unsafe {
        ffi::gelvomas_page(
            tables.features,
            tables.attributes,
            tables.model,
            tables.expressions.as_ptr(),
            tables.expressions.len(),
            tables.entries.as_ptr(),
            tables.entries.len(),
            tables.relations.as_ptr(),
            tables.relations.len(),
            tables.comparisons.as_ptr(),
            tables.comparisons.len(),
            tables.queries.as_ptr(),
            tables.queries.len(),
            tables.kinds.as_ptr(),
            tables.kinds.len(),
            reading == Reading::Filled,
            page.as_mut_ptr(),
            page.len(),
            &mut words,
        )
    };
    (answer, words)
}
