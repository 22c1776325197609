//! The program `page`: a harbour file in, its page out.

use std::io::{self, Write};

use reference::file;

fn main() -> io::Result<()> {
    let text = file::standard_input();
    io::stdout().write_all(&file::page_file(&text))
}
