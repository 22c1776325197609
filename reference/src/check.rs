//! The checking call.

use crate::expression::{self, Permitted};
use crate::filled;
use crate::form::{self, Lists};
use crate::reading::Reading;
use crate::refusal::Refusal;
use crate::schema;
use crate::tables::Tables;
use crate::typing::{self, Set};

/// Words of the column rows: 64 rows of sixteen.
pub const ROWS: usize = 1024;
const WORDS_OF_ROW: usize = 16;

/// An accepted report: its lists, its permitted configurations, and its columns
/// at each of them.
pub struct Accepted {
    pub lists: Lists,
    pub permitted: Vec<Permitted>,
    pub columns: Vec<Set>,
}

/// Checks the tables and writes the column rows. Refused, it leaves the rows as
/// they were.
pub fn check(tables: &Tables, reading: Reading, rows: &mut [u64]) -> Result<(), Refusal> {
    let lists = form::check(tables)?;
    if rows.len() != ROWS {
        return Err(Refusal::at(11, 0));
    }
    let accepted = schema_and_typing(tables, reading, lists)?;
    write_rows(&accepted, rows);
    Ok(())
}

/// What configuring runs before 20: checks 1 to 10, 24, 12 to 19 and 25. "A call
/// whose own checks come after 19" runs it first too; 11 is of checking only.
pub fn accepted(tables: &Tables, reading: Reading) -> Result<Accepted, Refusal> {
    let lists = form::check(tables)?;
    schema_and_typing(tables, reading, lists)
}

/// Checks 12 to 19 and 25, on tables sound in form.
fn schema_and_typing(tables: &Tables, reading: Reading, lists: Lists) -> Result<Accepted, Refusal> {
    let permitted = expression::permitted(tables);
    schema::check(tables, &lists, &permitted)?;
    let columns = match reading {
        Reading::Strict => typing::check(tables, &lists, &permitted)?,
        Reading::Filled => filled::check(tables, &lists, &permitted)?,
    };
    Ok(Accepted {
        lists,
        permitted,
        columns,
    })
}

/// The column rows: "configuration c is bit c mod 64 of its row's word c div
/// 64"; "all other bits are 0".
fn write_rows(accepted: &Accepted, rows: &mut [u64]) {
    rows.fill(0);
    for (at, set) in accepted.permitted.iter().zip(&accepted.columns) {
        for attribute in 0..64 {
            if set >> attribute & 1 == 1 {
                let (word, bit) = bit_of(attribute, at.configuration);
                rows[word] |= 1 << bit;
            }
        }
    }
}

/// What the rows show at a configuration: "the attributes whose bit for c is
/// 1".
pub fn shown(rows: &[u64], configuration: u64) -> Set {
    let mut set = 0;
    for attribute in 0..64 {
        let (word, bit) = bit_of(attribute, configuration);
        set |= (rows[word] >> bit & 1) << attribute;
    }
    set
}

fn bit_of(attribute: usize, configuration: u64) -> (usize, u64) {
    let word = WORDS_OF_ROW * attribute + (configuration / 64) as usize;
    (word, configuration % 64)
}
