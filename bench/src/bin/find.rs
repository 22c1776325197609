//! Compares finding with the reference's in both readings, on generated and damaged
//! tables, with wanted sets aimed at each answer: arguments are a seed and a count.

use std::collections::BTreeMap;
use std::process::ExitCode;

use bench::cases::{differ, mostly_accepted, seed_and_count};
use reference::generate;
use reference::random::Random;
use reference::reading::READINGS;
use reference::Refusal;

/// Where the first difference is written.
const FILE: &str = "find-difference.txt";

fn main() -> ExitCode {
    let Some([seed, count]) = seed_and_count() else {
        eprintln!("usage: find SEED COUNT");
        return ExitCode::FAILURE;
    };
    let mut kinds: BTreeMap<&str, u64> = BTreeMap::new();
    let mut tallies = [Tally::default(), Tally::default()];
    for number in 0..count {
        let mut random = Random::new(seed ^ number.wrapping_mul(0x9E37_79B9));
        let (kind, tables) = mostly_accepted(&mut random, seed, number);
        for (reading, tally) in READINGS.into_iter().zip(&mut tallies) {
            let wanted = generate::wanted(&mut random, &tables, reading);
            let theirs = reference::find(&tables, reading, wanted);
            let ours = bench::find(&tables, reading, wanted);
            if ours != Ok(theirs) {
                let theirs = (format!("wanted {wanted}"), theirs);
                return differ(FILE, number, &tables, reading, theirs, ours);
            }
            tally.add(theirs);
        }
        *kinds.entry(kind).or_default() += 1;
    }
    println!("tables by kind: {kinds:?}");
    for (reading, tally) in READINGS.into_iter().zip(tallies) {
        println!("{reading:?}, answers: {:?}", tally.answers);
        println!("{reading:?}, refusals by number: {:?}", tally.refusals);
    }
    println!("{count} findings, seed {seed}, in each reading: no difference in answers and words");
    ExitCode::SUCCESS
}

/// The answers in one reading, by what they are.
#[derive(Default)]
struct Tally {
    answers: BTreeMap<&'static str, u64>,
    refusals: BTreeMap<u64, u64>,
}

impl Tally {
    fn add(&mut self, answer: Result<Option<u64>, Refusal>) {
        match answer {
            Ok(Some(0)) => *self.answers.entry("found 0").or_default() += 1,
            Ok(Some(_)) => *self.answers.entry("found another").or_default() += 1,
            Ok(None) => *self.answers.entry("none").or_default() += 1,
            Err(refusal) => *self.refusals.entry(refusal.number).or_default() += 1,
        }
    }
}
