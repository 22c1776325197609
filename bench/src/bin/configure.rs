//! Compares configuring with the reference's in both readings, and gives what was written
//! to the strict checker: arguments are a seed and a count.

use std::collections::BTreeMap;
use std::process::ExitCode;

use bench::cases::{differ, mostly_accepted, seed_and_count};
use bench::reports::written;
use reference::check::{shown, ROWS};
use reference::random::Random;
use reference::reading::READINGS;
use reference::{expression, form, Reading, Refusal, Tables};

/// Where the first difference is written.
const FILE: &str = "configure-difference.txt";

/// What a call is asked, besides the tables: the configuration, and the words of
/// tables 1 to 4 that are lent.
#[derive(Debug)]
struct Asked {
    configuration: u64,
    lent: [Vec<u16>; 4],
}

/// What a call answers, and the words of tables 1 to 4 afterwards.
#[derive(Debug, PartialEq)]
struct Outcome {
    answer: Result<[usize; 4], Refusal>,
    words: [Vec<u16>; 4],
}

/// How often each was met.
type Tally = BTreeMap<&'static str, u64>;

fn main() -> ExitCode {
    let Some([seed, count]) = seed_and_count() else {
        eprintln!("usage: configure SEED COUNT");
        return ExitCode::FAILURE;
    };
    let mut answers = [const { BTreeMap::<u64, u64>::new() }; 2];
    let mut left_out = [const { Tally::new() }; 2];
    let [mut kinds, mut configurations, mut rooms] = [const { Tally::new() }; 3];
    for number in 0..count {
        let mut random = Random::new(seed ^ number.wrapping_mul(0x9E37_79B9));
        let (kind, tables) = mostly_accepted(&mut random, seed, number);
        let asked = Asked {
            configuration: any_configuration(&mut random, &tables, &mut configurations),
            lent: any_lent(&mut random, &tables, &mut rooms),
        };
        for (of, reading) in READINGS.into_iter().enumerate() {
            let answer = match compare(number, &tables, reading, &asked) {
                Ok(answer) => answer,
                Err(code) => return code,
            };
            if let Ok(counts) = answer {
                tally_left_out(&tables, counts, &mut left_out[of]);
            }
            let refused = answer.map_or_else(|refusal| refusal.number, |_| 0);
            *answers[of].entry(refused).or_default() += 1;
        }
        met(&mut kinds, kind);
    }
    println!("tables by kind: {kinds:?}");
    println!("configurations asked for: {configurations:?}");
    println!("tables lent, against their sources: {rooms:?}");
    for (of, reading) in READINGS.into_iter().enumerate() {
        print_answers(reading, &answers[of], &left_out[of]);
    }
    println!("{count} configurings, seed {seed}, each in both readings: no difference in answers and words; what was written is accepted with the same columns");
    ExitCode::SUCCESS
}

fn print_answers(reading: Reading, answers: &BTreeMap<u64, u64>, left_out: &Tally) {
    println!("{reading:?}, answers by number, 0 for written: {answers:?}");
    println!("{reading:?}, reports written that have fewer forms than their source: {left_out:?}");
}

/// The answer of both, where answers and words are the same and the strict checker
/// accepts what was written, with the same columns.
fn compare(
    number: u64,
    tables: &Tables,
    reading: Reading,
    asked: &Asked,
) -> Result<Result<[usize; 4], Refusal>, ExitCode> {
    let wanted = by_reference(tables, reading, asked);
    let ours = by_product(tables, reading, asked);
    if ours.as_ref() != Ok(&wanted) || wanted.answer.is_err() && wanted.words != asked.lent {
        return Err(differ(FILE, number, tables, reading, (asked, wanted), ours));
    }
    if let Ok(counts) = wanted.answer {
        let plain = written(tables, counts, &wanted.words);
        if let Err(rows) = same_columns(tables, reading, asked.configuration, &plain) {
            println!("what was written is not accepted with the same columns");
            return Err(differ(FILE, number, tables, reading, (asked, wanted), rows));
        }
    }
    Ok(wanted.answer)
}

fn met(tally: &mut Tally, name: &'static str) {
    *tally.entry(name).or_default() += 1;
}

/// In most cases one that is permitted, where the form lets that be asked.
fn any_configuration(random: &mut Random, tables: &Tables, tally: &mut Tally) -> u64 {
    let features = tables.features.min(10);
    let any = random.below(1 << features) as u64;
    let over = 1 << features;
    let far = random.pick(&[1 << 10, 1 << 16, 1 << 32, 1 << 63]);
    let word = random.word();
    match random.below(20) {
        0 => {
            met(tally, "2^n or little more");
            over + random.below(3) as u64
        }
        1 => {
            // The same low bits as a number below 2^n.
            met(tally, "far above");
            any + far
        }
        2 => {
            met(tally, "any number of 64 bits");
            random.pick(&[u64::MAX, word])
        }
        3..=5 => {
            met(tally, "below 2^n");
            any
        }
        _ if form::check(tables).is_ok() => {
            let permitted = expression::permitted(tables);
            met(tally, "permitted, if one is");
            match permitted.len() {
                0 => any,
                many => permitted[random.below(many)].configuration,
            }
        }
        _ => {
            met(tally, "below 2^n");
            any
        }
    }
}

/// Tables 1 to 4 for writing, with any words: most as long as their source or
/// longer.
fn any_lent(random: &mut Random, tables: &Tables, tally: &mut Tally) -> [Vec<u16>; 4] {
    [1, 2, 3, 4].map(|table| {
        let source = tables.words(table).len();
        let (name, room) = match random.below(40) {
            0 => ("one word short", source.saturating_sub(1)),
            1 => ("shorter", random.below(source + 1)),
            2..=9 => ("longer", source + random.between(1, 8)),
            10 => ("much longer", source + random.below(70_000)),
            _ => ("as long", source),
        };
        met(tally, if room == source { "as long" } else { name });
        (0..room).map(|_| random.word() as u16).collect()
    })
}

fn by_reference(tables: &Tables, reading: Reading, asked: &Asked) -> Outcome {
    let mut words = asked.lent.clone();
    let lent = words.each_mut().map(Vec::as_mut_slice);
    let answer = reference::configure(tables, reading, asked.configuration, lent);
    Outcome { answer, words }
}

/// An error where the answer is none that the contract allows.
fn by_product(
    tables: &Tables,
    reading: Reading,
    asked: &Asked,
) -> Result<Outcome, (u64, [u64; 4])> {
    let mut words = asked.lent.clone();
    let lent = words.each_mut().map(Vec::as_mut_slice);
    let answer = bench::configure(tables, reading, asked.configuration, lent)?;
    Ok(Outcome { answer, words })
}

/// Our strict check accepts the tables that were written, whatever the reading they were
/// written in, and its rows have at configuration 0 what the reference's rows of the source
/// have in that reading at the given one, and no other bit. Else the answer, and what the
/// rows show.
fn same_columns(
    tables: &Tables,
    reading: Reading,
    configuration: u64,
    plain: &Tables,
) -> Result<(), String> {
    let mut rows = [0; ROWS];
    let source = reference::check(tables, reading, &mut rows);
    let set = shown(&rows, configuration);
    let mut mine = [u64::MAX; ROWS];
    let answer = bench::check(plain, Reading::Strict, &mut mine);
    let only = (0..ROWS).all(|word| {
        mine[word]
            == if word % 16 == 0 {
                set >> (word / 16) & 1
            } else {
                0
            }
    });
    if source == Ok(()) && answer == Ok(Ok(())) && only {
        return Ok(());
    }
    Err(format!(
        "source {source:?} has {set:#x}, written {answer:?} has {:#x}",
        shown(&mine, 0)
    ))
}

fn tally_left_out(tables: &Tables, counts: [usize; 4], tally: &mut Tally) {
    let names = ["entries", "relations", "comparisons", "queries"];
    for (table, name) in (1..).zip(names) {
        if counts[table - 1] < tables.count(table) {
            met(tally, name);
        }
    }
}
