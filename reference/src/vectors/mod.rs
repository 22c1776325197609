//! The stored cases of the program `vectors` (`../crates/vectors`): harbour
//! files with names that say what they are, what is printed for them, and their
//! pages.
//!
//! `bin/make_vectors.rs` writes them, and `tests/stored.rs` holds what is
//! stored to them. They are the same on every machine.

mod berths;
mod exactly_one;
mod kinds;
mod page;
mod repeats;
mod reports;
mod texts;

use std::fs;
use std::io;
use std::path::Path;

use crate::file::{page_file, print_file};
pub use berths::berths;
pub use reports::REFUSALS;

/// The seed of all generated cases.
pub const SEED: u64 = 5_048_055;

/// The folder of the email product line among the examples.
const EMAIL: &str = "email/";

/// A harbour file, right or wrong, and its name.
#[derive(Clone, Debug, PartialEq, Eq)]
pub struct Vector {
    pub name: String,
    pub text: Vec<u8>,
}

impl Vector {
    fn new(name: &str, text: impl Into<Vec<u8>>) -> Vector {
        Vector {
            name: name.to_string(),
            text: text.into(),
        }
    }

    /// Does its page stand beside an example? Those of the email product line, of 256 lines
    /// each, are left out.
    pub fn has_page(&self) -> bool {
        !self.name.starts_with(EMAIL)
    }
}

/// All cases, their names numbered: worked examples, repeats, pages, exactly one of
/// a range, kinds, texts that are read or unread, generated reports, and the given
/// examples.
pub fn all(examples: &[Vector]) -> Vec<Vector> {
    let mut cases = berths::cases();
    cases.extend(repeats::cases());
    cases.extend(page::cases());
    cases.extend(exactly_one::cases());
    cases.extend(kinds::cases());
    cases.extend(texts::cases());
    cases.extend(reports::cases());
    cases.extend(examples.iter().cloned());
    for (number, case) in cases.iter_mut().enumerate() {
        let name = case.name.replace('/', "-");
        case.name = format!("{:03}-{name}.harbour", number + 1);
    }
    cases
}

/// The harbour files of the repository's folder `examples`, by name, and then those of the
/// folder `email` in it, whose names begin with `email/`.
pub fn examples(root: &Path) -> io::Result<Vec<Vector>> {
    let mut examples = Vec::new();
    for folder in ["", EMAIL] {
        let mut files = Vec::new();
        for file in fs::read_dir(root.join("examples").join(folder))? {
            let path = file?.path();
            let name = path.file_name().and_then(|name| name.to_str());
            if let Some(name) = name.and_then(|name| name.strip_suffix(".harbour")) {
                files.push(Vector::new(&format!("{folder}{name}"), fs::read(&path)?));
            }
        }
        files.sort_unstable_by(|one, other| one.name.cmp(&other.name));
        examples.append(&mut files);
    }
    Ok(examples)
}

/// The arguments that the program is given: one name to a line.
pub fn arguments(cases: &[Vector]) -> Vec<u8> {
    let names = cases.iter().map(|case| format!("{}\n", case.name));
    names.collect::<String>().into_bytes()
}

/// What the program writes: for each case a line with its name, its print, and
/// its page.
pub fn output(cases: &[Vector]) -> Vec<u8> {
    let mut output = Vec::new();
    for case in cases {
        output.extend_from_slice(case.name.as_bytes());
        output.push(b'\n');
        output.extend(print_file(&case.text));
        output.extend(page_file(&case.text));
    }
    output
}
