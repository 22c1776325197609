//! The functions of the crate `gelvomas`, with the reference's types.

pub mod cases;
mod damage;
pub mod measure;
pub mod parallel;
pub mod plot;
pub mod reports;
pub mod walk;

use reference::{Reading, Refusal, Tables};

/// What stands in the answer's words before the call.
const UNTOUCHED: [u64; 4] = [0xDEAD_0000, 0xDEAD_0001, 0xDEAD_0002, 0xDEAD_0003];

/// What a call answers, or a number and words that no contract allows.
pub type Answer = Result<Result<(), Refusal>, (u64, [u64; 4])>;

/// The whole check, by the C function.
#[inline]
pub fn check(tables: &Tables, reading: Reading, rows: &mut [u64]) -> Answer {
    let mut words = UNTOUCHED;
    // The slices are lent for the call, and the lengths are theirs.
    let answer = unsafe {
        gelvomas::ffi::gelvomas_check(
            tables.features,
            tables.attributes,
            tables.model,
            tables.expressions.as_ptr(),
            tables.expressions.len(),
            tables.entries.as_ptr(),
            tables.entries.len(),
            tables.relations.as_ptr(),
            tables.relations.len(),
            tables.comparisons.as_ptr(),
            tables.comparisons.len(),
            tables.queries.as_ptr(),
            tables.queries.len(),
            tables.kinds.as_ptr(),
            tables.kinds.len(),
            reading == Reading::Filled,
            rows.as_mut_ptr(),
            rows.len(),
            &mut words,
        )
    };
    let [number, place, item, configuration] = words;
    match answer {
        0 if words == UNTOUCHED => Ok(Ok(())),
        1 => Ok(Err(Refusal::new(number, place, item, configuration))),
        _ => Err((answer, words)),
    }
}

/// How many forms tables 1 to 4 have, or the refusal; or a number and words that
/// no contract allows.
pub type Configured = Result<Result<[usize; 4], Refusal>, (u64, [u64; 4])>;

/// Configuring, by the C function, into tables 1 to 4.
#[inline]
pub fn configure(
    tables: &Tables,
    reading: Reading,
    configuration: u64,
    lent: [&mut [u16]; 4],
) -> Configured {
    let [o1, o2, o3, o4] = lent;
    let mut words = UNTOUCHED;
    // The slices are lent for the call, and the lengths are theirs.
    let answer = unsafe {
        gelvomas::ffi::gelvomas_configure(
            tables.features,
            tables.attributes,
            tables.model,
            tables.expressions.as_ptr(),
            tables.expressions.len(),
            tables.entries.as_ptr(),
            tables.entries.len(),
            tables.relations.as_ptr(),
            tables.relations.len(),
            tables.comparisons.as_ptr(),
            tables.comparisons.len(),
            tables.queries.as_ptr(),
            tables.queries.len(),
            tables.kinds.as_ptr(),
            tables.kinds.len(),
            reading == Reading::Filled,
            configuration,
            o1.as_mut_ptr(),
            o1.len(),
            o2.as_mut_ptr(),
            o2.len(),
            o3.as_mut_ptr(),
            o3.len(),
            o4.as_mut_ptr(),
            o4.len(),
            &mut words,
        )
    };
    let [number, place, item, configuration] = words;
    match answer {
        0 => Ok(Ok(words.map(|count| count as usize))),
        1 => Ok(Err(Refusal::new(number, place, item, configuration))),
        _ => Err((answer, words)),
    }
}

/// The configuration found, or none, or the refusal; or a number and words that no
/// contract allows.
pub type Found = Result<Result<Option<u64>, Refusal>, (u64, [u64; 4])>;

/// Finding, by the C function, which writes all four words.
#[inline]
pub fn find(tables: &Tables, reading: Reading, wanted: u64) -> Found {
    let mut words = UNTOUCHED;
    // The slices are lent for the call, and the lengths are theirs.
    let answer = unsafe {
        gelvomas::ffi::gelvomas_find(
            tables.features,
            tables.attributes,
            tables.model,
            tables.expressions.as_ptr(),
            tables.expressions.len(),
            tables.entries.as_ptr(),
            tables.entries.len(),
            tables.relations.as_ptr(),
            tables.relations.len(),
            tables.comparisons.as_ptr(),
            tables.comparisons.len(),
            tables.queries.as_ptr(),
            tables.queries.len(),
            tables.kinds.as_ptr(),
            tables.kinds.len(),
            reading == Reading::Filled,
            wanted,
            &mut words,
        )
    };
    match (answer, words) {
        (0, [found, 0, 0, 0]) => Ok(Ok(Some(found))),
        (1, [number, place, item, configuration]) => {
            Ok(Err(Refusal::new(number, place, item, configuration)))
        }
        (2, [0, 0, 0, 0]) => Ok(Ok(None)),
        _ => Err((answer, words)),
    }
}

/// How many lines were written, or the refusal; or a number and words that no
/// contract allows.
pub type Paged = Result<Result<usize, Refusal>, (u64, [u64; 4])>;

/// The wall page, by the C function, which writes all four words.
#[inline]
pub fn page(tables: &Tables, reading: Reading, page: &mut [u8]) -> Paged {
    let mut words = UNTOUCHED;
    // The slices are lent for the call, and the lengths are theirs.
    let answer = unsafe {
        gelvomas::ffi::gelvomas_page(
            tables.features,
            tables.attributes,
            tables.model,
            tables.expressions.as_ptr(),
            tables.expressions.len(),
            tables.entries.as_ptr(),
            tables.entries.len(),
            tables.relations.as_ptr(),
            tables.relations.len(),
            tables.comparisons.as_ptr(),
            tables.comparisons.len(),
            tables.queries.as_ptr(),
            tables.queries.len(),
            tables.kinds.as_ptr(),
            tables.kinds.len(),
            reading == Reading::Filled,
            page.as_mut_ptr(),
            page.len(),
            &mut words,
        )
    };
    match (answer, words) {
        (0, [lines, 0, 0, 0]) => Ok(Ok(lines as usize)),
        (1, [number, place, item, configuration]) => {
            Ok(Err(Refusal::new(number, place, item, configuration)))
        }
        _ => Err((answer, words)),
    }
}
