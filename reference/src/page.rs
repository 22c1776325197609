//! The wall page: the columns as lines of text, to be pinned up.

use crate::check;
use crate::reading::Reading;
use crate::refusal::Refusal;
use crate::tables::{Tables, MOST_ATTRIBUTES, MOST_FEATURES};
use crate::typing::Set;

/// Bytes of a line: "exactly 72 characters and a line feed".
pub const LINE: usize = 73;

/// "One line stands for each permitted configuration": there are never more.
pub const MOST_LINES: usize = 1 << MOST_FEATURES;

/// Writes the page and returns the number of its lines. Bytes after them, and on
/// a refusal all bytes, stay as they were.
pub fn page(tables: &Tables, reading: Reading, page: &mut [u8]) -> Result<usize, Refusal> {
    let accepted = check::accepted(tables, reading)?;
    let lines = accepted.permitted.len();
    room(lines, page)?;
    // The permitted configurations ascend, and so do the lines.
    let columns = accepted.permitted.iter().zip(&accepted.columns);
    for ((at, set), lent) in columns.zip(page.chunks_mut(LINE)) {
        lent.copy_from_slice(line(at.configuration, *set).as_bytes());
    }
    Ok(lines)
}

/// 23: "the lent page is shorter than 73 × the number of lines"; place 0.
fn room(lines: usize, page: &[u8]) -> Result<(), Refusal> {
    if page.len() < LINE * lines {
        return Err(Refusal::at(23, 0));
    }
    Ok(())
}

/// "Configuration right-aligned in 4, a space, 64 marks from attribute 0 (`o`
/// present, `.` absent), a space, the number of columns right-aligned in 2."
/// Attributes from m on are absent.
fn line(configuration: u64, columns: Set) -> String {
    let mut marks = String::new();
    let mut count = 0;
    for attribute in 0..MOST_ATTRIBUTES {
        if columns >> attribute & 1 == 1 {
            marks.push('o');
            count += 1;
        } else {
            marks.push('.');
        }
    }
    format!("{configuration:>4} {marks} {count:>2}\n")
}
