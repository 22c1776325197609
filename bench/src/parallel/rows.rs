//! The expressions of table 0 at all configurations at once: one bit a
//! configuration.

/// "Sixteen 64-bit words": configuration c is bit c mod 64 of word c div 64.
pub const WORDS: usize = 16;

/// "1 to 256 forms".
pub const FORMS: usize = 256;

pub type Row = [u64; WORDS];

/// The six lowest features within one word: configuration c has feature a where
/// bit a of c is 1.
const LOW: [u64; 6] = [
    0xAAAA_AAAA_AAAA_AAAA,
    0xCCCC_CCCC_CCCC_CCCC,
    0xF0F0_F0F0_F0F0_F0F0,
    0xFF00_FF00_FF00_FF00,
    0xFFFF_0000_FFFF_0000,
    0xFFFF_FFFF_0000_0000,
];

/// The row of each expression, for tables that have passed checks 1 to 3: the
/// configurations below 2^n at which it holds. Later rows stay as they are.
#[inline(always)]
pub fn fill(features: u64, expressions: &[u16], rows: &mut [Row; FORMS]) {
    let all = all(features);
    let mut on = [[0; WORDS]; 16];
    for (a, row) in on.iter_mut().enumerate().take(features as usize) {
        *row = both(&all, &feature(a));
    }
    for (form, words) in expressions.chunks_exact(3).enumerate() {
        // Forms are below 256 and features below 16: the masks change nothing,
        // and spare a test of each index.
        let (x, y) = (usize::from(words[1]) & 255, usize::from(words[2]) & 255);
        let row = match words[0] {
            0 => [0; WORDS],
            1 => all,
            2 => on[x & 15],
            3 => without(&all, &rows[x]),
            4 => both(&rows[x], &rows[y]),
            5 => either(&rows[x], &rows[y]),
            _ => exactly_one(&on[x..x + y]),
        };
        rows[form & 255] = row;
    }
}

/// The configurations below 2^n.
#[inline]
fn all(features: u64) -> Row {
    let count = 1u64 << features;
    std::array::from_fn(|word| match count.saturating_sub(64 * word as u64) {
        left @ 0..=63 => (1 << left) - 1,
        _ => u64::MAX,
    })
}

/// The configurations that have feature a.
#[inline]
fn feature(a: usize) -> Row {
    match LOW.get(a) {
        Some(&low) => [low; WORDS],
        None => std::array::from_fn(|word| 0u64.wrapping_sub((word >> (a - 6) & 1) as u64)),
    }
}

/// The configurations that are in exactly one of the rows.
#[inline]
fn exactly_one(rows: &[Row]) -> Row {
    let mut some = [0; WORDS];
    let mut more = [0; WORDS];
    for row in rows {
        more = either(&more, &both(&some, row));
        some = either(&some, row);
    }
    without(&some, &more)
}

#[inline(always)]
fn both(x: &Row, y: &Row) -> Row {
    std::array::from_fn(|word| x[word] & y[word])
}

#[inline(always)]
fn either(x: &Row, y: &Row) -> Row {
    std::array::from_fn(|word| x[word] | y[word])
}

#[inline(always)]
fn without(x: &Row, y: &Row) -> Row {
    std::array::from_fn(|word| x[word] & !y[word])
}
