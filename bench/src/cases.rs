//! The tables that are compared, and how a difference is told.

use std::fmt::{Debug, Write};
use std::process::ExitCode;

use reference::generate::{self, Family};
use reference::random::Random;
use reference::{Reading, Tables};

use crate::damage::damage;

/// The arguments of a comparing program.
pub fn seed_and_count() -> Option<[u64; 2]> {
    let numbers = std::env::args().skip(1).map(|a| a.parse().ok());
    numbers.collect::<Option<Vec<u64>>>()?.try_into().ok()
}

/// A case of one of the generator's families, one in five with raw damage.
pub fn case(seed: u64, number: u64) -> (&'static str, Tables) {
    // Seeds far apart, so that runs with neighbouring seeds share no case.
    let seed = seed.wrapping_mul(1_000_003).wrapping_add(number);
    let mut random = Random::new(!seed);
    let (family, names) = random.pick(&[
        (Family::Accepted, ["accepted", "accepted, damaged"]),
        (Family::Accepted, ["accepted", "accepted, damaged"]),
        (Family::Accepted, ["accepted", "accepted, damaged"]),
        (Family::Fault, ["fault", "fault, damaged"]),
        (Family::Fault, ["fault", "fault, damaged"]),
        (Family::Several, ["several", "several, damaged"]),
        (Family::Small, ["small", "small, damaged"]),
        (Family::Full, ["full", "full, damaged"]),
        (Family::Repeats, ["repeats", "repeats, damaged"]),
        (Family::Wall, ["wall", "wall, damaged"]),
        (Family::Compared, ["compared", "compared, damaged"]),
        (Family::Few, ["few", "few, damaged"]),
        (Family::Few, ["few", "few, damaged"]),
        (Family::Filled, ["filled", "filled, damaged"]),
        (Family::Filled, ["filled", "filled, damaged"]),
        (Family::Filled, ["filled", "filled, damaged"]),
    ]);
    let mut tables = generate::of_family(family, seed);
    let damaged = random.chance(1, 5);
    if damaged {
        damage(&mut random, &mut tables);
    }
    (names[usize::from(damaged)], tables)
}

/// In four of ten cases tables that are accepted, in one of ten tables with few
/// permitted configurations or many, accepted or not, and in three of ten tables without
/// some of the schema's conditions; else a case of any of the generator's families, one in
/// five with raw damage.
pub fn mostly_accepted(random: &mut Random, seed: u64, number: u64) -> (&'static str, Tables) {
    match random.below(10) {
        0..=3 => ("accepted", generate::accepted(random.word())),
        4 => ("few", generate::few(random.word())),
        5..=7 => ("filled", generate::filled(random.word())),
        _ => case(seed, number),
    }
}

/// Says the difference, and writes it to the file.
pub fn differ(
    file: &str,
    number: u64,
    tables: &Tables,
    reading: Reading,
    wanted: impl Debug,
    ours: impl Debug,
) -> ExitCode {
    let mut text = String::new();
    let _ = writeln!(
        text,
        "head {} {} {}",
        tables.features, tables.attributes, tables.model
    );
    for table in 0..5 {
        let words: Vec<String> = tables.words(table).iter().map(u16::to_string).collect();
        let _ = writeln!(text, "t{table} {}", words.join(" "));
    }
    let kinds: Vec<String> = tables.kinds.iter().map(u16::to_string).collect();
    let _ = writeln!(text, "kinds {}", kinds.join(" "));
    let _ = writeln!(text, "{reading:?}\nreference {wanted:?}\nours {ours:?}");
    println!(
        "table {number} differs, {reading:?}: reference {wanted:?}, ours {ours:?}; it is in {file}"
    );
    if let Err(error) = std::fs::write(file, text) {
        println!("{file} could not be written: {error}");
    }
    ExitCode::FAILURE
}
