//! Writes a harbour file: arguments are a seed and a family (accepted, fault,
//! several, full, small, repeats, wall, compared, few, filled, any, damaged).

use std::io::{self, Write};
use std::process::ExitCode;

use reference::generate;

const USAGE: &str =
    "usage: generate SEED accepted|fault|several|full|small|repeats|wall|compared|few|filled|any|damaged";

fn main() -> ExitCode {
    let arguments: Vec<String> = std::env::args().skip(1).collect();
    match text_of(&arguments) {
        Some(text) if io::stdout().write_all(&text).is_ok() => ExitCode::SUCCESS,
        Some(_) => ExitCode::FAILURE,
        None => {
            eprintln!("{USAGE}");
            ExitCode::FAILURE
        }
    }
}

fn text_of(arguments: &[String]) -> Option<Vec<u8>> {
    let seed: u64 = arguments.first()?.parse().ok()?;
    let tables = match arguments.get(1)?.as_str() {
        "any" => generate::case(seed),
        "damaged" => {
            let text = generate::text_of(seed, &generate::case(seed));
            return Some(generate::damage(seed, &text));
        }
        name => generate::of_family(generate::family_of(name)?, seed),
    };
    Some(generate::text_of(seed, &tables))
}
