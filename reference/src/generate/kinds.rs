//! Kinds of attributes and of constants: sound ones, and those at the limits of 24.

use crate::random::Random;
use crate::tables::{COUNT, MOMENT, NAME};

/// A sound kind table: all moments, all of one kind, or of two kinds or three.
pub fn sound(random: &mut Random, attributes: usize) -> Vec<u16> {
    let mut kinds = [MOMENT, COUNT, NAME];
    random.shuffle(&mut kinds);
    let among: &[u16] = match random.below(8) {
        0 | 1 => &[MOMENT],
        2 => &kinds[..1],
        3..=5 => &kinds[..2],
        _ => &kinds,
    };
    (0..attributes).map(|_| random.pick(among)).collect()
}

/// Another kind.
pub fn other(random: &mut Random, kind: u16) -> u16 {
    (kind + random.between(1, 2) as u16) % 3
}

/// A number over 2, the lowest most often; some are a kind in their low bits.
pub fn unknown(random: &mut Random) -> u16 {
    random.pick(&[3, 3, 3, 4, 256, 258, 32768, 65535])
}
