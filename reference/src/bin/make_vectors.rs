//! Writes the stored cases of the program `vectors`, and the prints and the pages
//! of the examples.

use std::ffi::OsStr;
use std::fs;
use std::io;
use std::path::Path;
use std::process::ExitCode;

use reference::file::{page_file, print_file};
use reference::vectors::{self, Vector, SEED};

fn main() -> ExitCode {
    let arguments: Vec<String> = std::env::args().skip(1).collect();
    let [root] = &arguments[..] else {
        eprintln!("usage: make_vectors ROOT");
        eprintln!("ROOT is the repository. Writes crates/vectors/args, data/ and stdout there, from the seed {SEED},");
        eprintln!(
            "and beside each file of examples/ its print and its page, NAME.print and NAME.page; of examples/email/ the print alone."
        );
        return ExitCode::FAILURE;
    };
    match write_all(Path::new(root)) {
        Ok(count) => {
            println!("{count} cases, seed {SEED}");
            ExitCode::SUCCESS
        }
        Err(error) => {
            eprintln!("make_vectors: {error}");
            ExitCode::FAILURE
        }
    }
}

fn write_all(root: &Path) -> io::Result<usize> {
    let examples = vectors::examples(root)?;
    for example in &examples {
        let Vector { name, text } = example;
        let beside = |end: &str| root.join("examples").join(format!("{name}.{end}"));
        fs::write(beside("print"), print_file(text))?;
        if example.has_page() {
            fs::write(beside("page"), page_file(text))?;
        }
    }
    let cases = vectors::all(&examples);
    let folder = root.join("crates/vectors");
    let data = folder.join("data");
    fs::create_dir_all(&data)?;
    for old in fs::read_dir(&data)? {
        let old = old?.path();
        if old.extension() == Some(OsStr::new("harbour")) {
            fs::remove_file(old)?;
        }
    }
    for case in &cases {
        fs::write(data.join(&case.name), &case.text)?;
    }
    fs::write(folder.join("args"), vectors::arguments(&cases))?;
    fs::write(folder.join("stdout"), vectors::output(&cases))?;
    Ok(cases.len())
}
