//! Compares the whole check with the reference's in both readings, on generated and
//! damaged tables, with rows of 1,024 words and of other lengths: arguments are a seed
//! and a count.

use std::collections::BTreeMap;
use std::process::ExitCode;

use bench::cases::{case, differ, seed_and_count};
use reference::check::ROWS;
use reference::random::Random;
use reference::reading::READINGS;
use reference::{Reading, Refusal, Tables};

/// Where the first difference is written.
const FILE: &str = "check-difference.txt";

fn main() -> ExitCode {
    let Some([seed, count]) = seed_and_count() else {
        eprintln!("usage: check SEED COUNT");
        return ExitCode::FAILURE;
    };
    let mut answers = [const { BTreeMap::<u64, u64>::new() }; 2];
    let mut kinds: BTreeMap<&str, u64> = BTreeMap::new();
    let [mut other_lengths, mut by_reading] = [0; 2];
    for number in 0..count {
        let (kind, tables) = case(seed, number);
        let mut random = Random::new(seed ^ number.wrapping_mul(0x9E37_79B9));
        let length = length_of_rows(&mut random);
        // What the words are before all calls: anything.
        let lent: Vec<u64> = (0..length).map(|_| random.word()).collect();
        let mut both = [Ok(()); 2];
        for (of, reading) in READINGS.into_iter().enumerate() {
            both[of] = match compare(number, &tables, reading, &lent) {
                Ok(answer) => answer,
                Err(code) => return code,
            };
            *answers[of].entry(number_of(both[of])).or_default() += 1;
        }
        *kinds.entry(kind).or_default() += 1;
        other_lengths += u64::from(length != ROWS);
        by_reading += u64::from(both[0] != both[1]);
    }
    println!("tables by kind: {kinds:?}");
    for (reading, answers) in READINGS.into_iter().zip(answers) {
        println!("{reading:?}, answers by number, 0 for accepted: {answers:?}");
    }
    println!("answers that go by the reading: {by_reading}");
    println!("rows of another length: {other_lengths}");
    println!(
        "{count} tables, seed {seed}, each in both readings: no difference in answers and words"
    );
    ExitCode::SUCCESS
}

/// The answer of both, where it is the same and every word of the rows is too. An error
/// where not, which is said.
fn compare(
    number: u64,
    tables: &Tables,
    reading: Reading,
    lent: &[u64],
) -> Result<Result<(), Refusal>, ExitCode> {
    let [mut theirs, mut mine] = [lent.to_vec(), lent.to_vec()];
    let wanted = reference::check(tables, reading, &mut theirs);
    let ours = bench::check(tables, reading, &mut mine);
    let same = mine == theirs && (wanted.is_ok() || mine == lent);
    if !same {
        println!("the words differ, of the {} lent", lent.len());
    }
    if ours != Ok(wanted) || !same {
        return Err(differ(FILE, number, tables, reading, wanted, ours));
    }
    Ok(wanted)
}

fn number_of(answer: Result<(), Refusal>) -> u64 {
    answer.map_or_else(|refusal| refusal.number, |()| 0)
}

/// In nine of ten cases 1,024.
fn length_of_rows(random: &mut Random) -> usize {
    let any = random.below(3000);
    match random.below(10) {
        0 => random.pick(&[0, 1, 16, 64, 1008, 1023, 1025, 1040, 2048, 66_560, any]),
        _ => ROWS,
    }
}
