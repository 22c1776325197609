//! Compares the wall page with the reference's in both readings, on generated and damaged
//! tables, with lent pages aimed at the number of lines: arguments are a seed and a count.

use std::collections::BTreeMap;
use std::process::ExitCode;

use bench::cases::{differ, mostly_accepted, seed_and_count};
use reference::generate;
use reference::page::{LINE, MOST_LINES};
use reference::random::Random;
use reference::reading::READINGS;
use reference::{Reading, Refusal, Tables};

/// Where the first difference is written.
const FILE: &str = "page-difference.txt";

/// The answers in one reading, by what they are.
#[derive(Default)]
struct Tally {
    /// Pages that were written, by their number of lines: up to each.
    written: BTreeMap<usize, u64>,
    /// Those of them that had room for more.
    longer: u64,
    refusals: BTreeMap<u64, u64>,
}

fn main() -> ExitCode {
    let Some([seed, count]) = seed_and_count() else {
        eprintln!("usage: page SEED COUNT");
        return ExitCode::FAILURE;
    };
    let mut kinds: BTreeMap<&str, u64> = BTreeMap::new();
    let mut tallies = [Tally::default(), Tally::default()];
    for number in 0..count {
        let mut random = Random::new(seed ^ number.wrapping_mul(0x9E37_79B9));
        let (kind, tables) = any_tables(&mut random, seed, number);
        let length = generate::page_room(&mut random, &tables);
        // What the bytes are before all calls: anything.
        let lent: Vec<u8> = (0..length).map(|_| random.word() as u8).collect();
        for (reading, tally) in READINGS.into_iter().zip(&mut tallies) {
            match compare(number, &tables, reading, &lent) {
                Ok(answer) => tally.add(answer, length),
                Err(code) => return code,
            }
        }
        *kinds.entry(kind).or_default() += 1;
    }
    println!("tables by kind: {kinds:?}");
    for (reading, tally) in READINGS.into_iter().zip(&tallies) {
        println!(
            "{reading:?}, pages written, by lines up to: {:?}",
            tally.written
        );
        println!("{reading:?}, of these longer than needed: {}", tally.longer);
        println!("{reading:?}, refusals by number: {:?}", tally.refusals);
    }
    println!("{count} pages, seed {seed}, each in both readings: no difference in answers, words and bytes");
    ExitCode::SUCCESS
}

/// In one of four cases tables aimed at the limits of the page.
fn any_tables(random: &mut Random, seed: u64, number: u64) -> (&'static str, Tables) {
    if random.chance(1, 4) {
        return ("wall", generate::wall(random.word()));
    }
    mostly_accepted(random, seed, number)
}

/// The answer of both, where it is the same and every byte is too. The bytes after
/// the lines, and of a refused call all bytes, must be those lent.
fn compare(
    number: u64,
    tables: &Tables,
    reading: Reading,
    lent: &[u8],
) -> Result<Result<usize, Refusal>, ExitCode> {
    let [mut theirs, mut mine] = [lent.to_vec(), lent.to_vec()];
    let wanted = reference::page(tables, reading, &mut theirs);
    let ours = bench::page(tables, reading, &mut mine);
    let written = LINE * wanted.unwrap_or(0);
    let same = mine == theirs && mine[written..] == lent[written..];
    if !same {
        println!("the bytes differ, of the {} lent", lent.len());
    }
    if ours != Ok(wanted) || !same {
        let asked = format!("lent {}", lent.len());
        return Err(differ(FILE, number, tables, reading, (asked, wanted), ours));
    }
    Ok(wanted)
}

impl Tally {
    fn add(&mut self, answer: Result<usize, Refusal>, length: usize) {
        match answer {
            Ok(lines) => {
                let most = match lines {
                    0..=1 => 1,
                    2..=9 => 9,
                    10..=99 => 99,
                    100..=1023 => 1023,
                    _ => MOST_LINES,
                };
                *self.written.entry(most).or_default() += 1;
                self.longer += u64::from(length > LINE * lines);
            }
            Err(refusal) => *self.refusals.entry(refusal.number).or_default() += 1,
        }
    }
}
