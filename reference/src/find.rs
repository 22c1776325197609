//! The finding call: which configuration gives these columns?

use crate::check::{self, Accepted};
use crate::reading::Reading;
use crate::refusal::Refusal;
use crate::tables::{Tables, MOST_ATTRIBUTES};
use crate::typing::Set;

/// The "lowest permitted configuration whose set holds them all, or none when
/// no permitted configuration has them". None is an answer, not a refusal.
pub fn find(tables: &Tables, reading: Reading, wanted: Set) -> Result<Option<u64>, Refusal> {
    let accepted = check::accepted(tables, reading)?;
    names_attributes(tables, wanted)?;
    Ok(lowest_with(&accepted, wanted))
}

/// 22: the set has a bit at or above m; place 0. Bit by bit, so that with 64
/// attributes nothing is shifted by 64.
fn names_attributes(tables: &Tables, wanted: Set) -> Result<(), Refusal> {
    for bit in tables.attributes..MOST_ATTRIBUTES {
        if wanted >> bit & 1 == 1 {
            return Err(Refusal::at(22, 0));
        }
    }
    Ok(())
}

/// The permitted configurations ascend: the first that has all wanted
/// attributes is the lowest.
fn lowest_with(accepted: &Accepted, wanted: Set) -> Option<u64> {
    for (at, set) in accepted.permitted.iter().zip(&accepted.columns) {
        if wanted & !set == 0 {
            return Some(at.configuration);
        }
    }
    None
}
