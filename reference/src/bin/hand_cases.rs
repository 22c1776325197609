//! Writes the hand-aimed cases, and their notes.

use std::fs;
use std::io;
use std::path::Path;
use std::process::ExitCode;

use reference::cases::FILES;

fn main() -> ExitCode {
    let arguments: Vec<String> = std::env::args().skip(1).collect();
    let [folder] = &arguments[..] else {
        eprintln!("usage: hand_cases FOLDER");
        eprintln!("FOLDER is reference/cases. Writes NAME.txt and NAME.notes there, for find, repeats, page, exactly-one, kinds, few and filled.");
        return ExitCode::FAILURE;
    };
    match write_all(Path::new(folder)) {
        Ok(()) => ExitCode::SUCCESS,
        Err(error) => {
            eprintln!("hand_cases: {error}");
            ExitCode::FAILURE
        }
    }
}

fn write_all(folder: &Path) -> io::Result<()> {
    for file in &FILES {
        fs::write(folder.join(format!("{}.txt", file.name)), file.lines())?;
        fs::write(folder.join(format!("{}.notes", file.name)), file.notes())?;
    }
    Ok(())
}
