//! Ranges of features for expression kind 6: sound ones, and those at the limits of
//! check 3.

use crate::random::Random;
use crate::tables::{Tables, MOST_FEATURES, MOST_IN_RANGE};

/// A range: the first feature, and how many.
pub type Range = [u16; 2];

/// A sound range of so many features, which are not none: all of them, a single
/// one, one that ends with the last, or any.
pub fn sound(random: &mut Random, features: usize) -> Range {
    let count = match random.below(6) {
        0 | 1 => features,
        2 => 1,
        _ => random.between(1, features),
    };
    let highest = features - count;
    let first = match random.chance(1, 3) {
        true => highest,
        false => random.between(0, highest),
    };
    [first as u16, count as u16]
}

/// The number of features, or 10 where it is over.
fn features(tables: &Tables) -> u16 {
    tables.features.min(MOST_FEATURES) as u16
}

/// A count that is sound by itself.
fn any_count(random: &mut Random) -> u16 {
    random.between(1, usize::from(MOST_IN_RANGE)) as u16
}

/// Any first feature, up to n.
fn any_first(random: &mut Random, tables: &Tables) -> u16 {
    random.between(0, usize::from(features(tables))) as u16
}

/// No features.
pub fn of_none(random: &mut Random, tables: &Tables) -> Range {
    [any_first(random, tables), 0]
}

/// One feature more than a range may have.
pub fn of_11(random: &mut Random, tables: &Tables) -> Range {
    [any_first(random, tables), MOST_IN_RANGE + 1]
}

/// Far more features.
pub fn of_many(random: &mut Random, tables: &Tables) -> Range {
    let count = random.pick(&[12, 16, 64, 255, 256, 257, 32768, 65535]);
    [any_first(random, tables), count]
}

/// A sound count, and an end of n + 1.
pub fn past_by_one(random: &mut Random, tables: &Tables) -> Range {
    let end = features(tables) + 1;
    let count = any_count(random).min(end);
    [end - count, count]
}

/// A sound count, and an end far past n.
pub fn far_past(random: &mut Random, _: &Tables) -> Range {
    let first = random.pick(&[10, 16, 64, 255, 256, 32768, 65525, 65535]);
    [first, any_count(random)]
}

/// A sound count, and an end that is past 65535, and in 16 bits not past n.
pub fn past_16_bits(random: &mut Random, tables: &Tables) -> Range {
    let count = any_count(random);
    let over = random.below(usize::from(count.min(features(tables) + 1))) as u16;
    [over.wrapping_sub(count), count]
}

/// The same with a count over 10.
pub fn of_many_past_16_bits(random: &mut Random, tables: &Tables) -> Range {
    let count = random.pick(&[11, 11, 12, 256, 32768, 65535]);
    [any_first(random, tables).wrapping_sub(count), count]
}
