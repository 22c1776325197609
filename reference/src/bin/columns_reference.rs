//! The program `columns` of docs/FORMAT.md: a harbour file in, its print out.

use std::io::{self, Write};

use reference::file;

fn main() -> io::Result<()> {
    let text = file::standard_input();
    io::stdout().write_all(&file::print_file(&text))
}
