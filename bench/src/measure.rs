//! Calls that take turns, so that all meet the same machine, and the medians of
//! their times in µs.

use std::hint::black_box;
use std::process::ExitCode;
use std::thread;
use std::time::{Duration, Instant};

use reference::check::ROWS;
use reference::page::{LINE, MOST_LINES};
use reference::reading::READINGS;
use reference::{Reading, Refusal, Tables};

use crate::{parallel, walk};

const STACK: usize = 1 << 20;

/// Runs all measurements of a program in a thread with a stack of 1 MiB. An error
/// says where answers or words differ.
pub fn in_small_stack(run: fn() -> Result<(), String>) -> ExitCode {
    let run = thread::Builder::new().stack_size(STACK).spawn(run);
    match run.map(thread::JoinHandle::join) {
        Ok(Ok(Ok(()))) => ExitCode::SUCCESS,
        Ok(Ok(Err(difference))) => {
            println!("{difference}");
            ExitCode::FAILURE
        }
        _ => ExitCode::FAILURE,
    }
}

/// What is measured.
#[derive(Clone, Copy)]
pub enum Call {
    /// Our check, which is strict, as all calls here are that do not say otherwise.
    Check,
    /// The reference's.
    ReferenceCheck,
    /// `bench::parallel`'s.
    ParallelCheck,
    /// Our check in the filled reading.
    FilledCheck,
    /// The reference's in the filled reading.
    ReferenceFilledCheck,
    /// Our finding, of this set.
    Find(u64),
    /// Our page.
    Page,
    /// The reference's.
    ReferencePage,
    /// Each entry's expression, walked at each configuration.
    Walk,
}

/// What is lent to them.
struct Lent {
    rows: Vec<u64>,
    page: Vec<u8>,
}

impl Call {
    fn run(self, tables: &Tables, Lent { rows, page }: &mut Lent) {
        let [strict, filled] = READINGS;
        match self {
            Call::Check => drop(black_box(crate::check(tables, strict, rows))),
            Call::ReferenceCheck => drop(black_box(reference::check(tables, strict, rows))),
            Call::ParallelCheck => drop(black_box(parallel::check(tables, rows))),
            Call::FilledCheck => drop(black_box(crate::check(tables, filled, rows))),
            Call::ReferenceFilledCheck => drop(black_box(reference::check(tables, filled, rows))),
            Call::Find(wanted) => drop(black_box(crate::find(tables, strict, wanted))),
            Call::Page => drop(black_box(crate::page(tables, strict, page))),
            Call::ReferencePage => drop(black_box(reference::page(tables, strict, page))),
            Call::Walk => walk::all_entries(tables),
        }
    }

    fn time(self, calls: u32, tables: &Tables, lent: &mut Lent) -> Duration {
        let start = Instant::now();
        for _ in 0..calls {
            self.run(black_box(tables), black_box(lent));
        }
        start.elapsed()
    }

    /// How many calls, a power of two, take at least so long.
    fn calls(self, least: Duration, tables: &Tables, lent: &mut Lent) -> u32 {
        let mut calls = 1;
        while self.time(calls, tables, lent) < least {
            calls *= 2;
        }
        calls
    }
}

/// How many samples are taken of each call, and how long one takes at least.
#[derive(Clone, Copy)]
pub struct Samples {
    count: usize,
    least: Duration,
}

impl Samples {
    /// Each sample is one call.
    pub const fn single(count: usize) -> Samples {
        let least = Duration::ZERO;
        Samples { count, least }
    }

    /// Each sample is as many calls as take so long: what takes a microsecond is too
    /// short for the clock.
    pub const fn batched(count: usize, least: Duration) -> Samples {
        Samples { count, least }
    }

    /// Medians in µs of one call of each.
    pub fn in_turn<const N: usize>(self, tables: [&Tables; N], calls: [Call; N]) -> [f64; N] {
        let mut lent = Lent {
            rows: vec![0; ROWS],
            page: vec![0; LINE * MOST_LINES],
        };
        let counts: [u32; N] = std::array::from_fn(|number| {
            calls[number].calls(self.least, tables[number], &mut lent)
        });
        let mut times = [const { Vec::new() }; N];
        for _ in 0..self.count {
            for (number, times) in times.iter_mut().enumerate() {
                let count = counts[number];
                let time = calls[number].time(count, tables[number], &mut lent);
                times.push(micros(time) / f64::from(count));
            }
        }
        times.map(median)
    }
}

pub fn micros(time: Duration) -> f64 {
    time.as_nanos() as f64 / 1000.0
}

pub fn median(mut times: Vec<f64>) -> f64 {
    times.sort_unstable_by(f64::total_cmp);
    times[times.len() / 2]
}

/// Prints the times of the check of each workload, and gives the ratios of ours to the
/// reference's.
pub fn check_ratios<Name: AsRef<str>>(
    samples: Samples,
    workloads: &[(Name, Tables)],
) -> Result<Vec<f64>, String> {
    println!(
        "{:<26} {:>8} {:>10} {:>7} {:>9} {:>7}  answer",
        "workload", "ours", "reference", "ratio", "parallel", "ratio"
    );
    let mut ratios = Vec::new();
    for (name, tables) in workloads {
        let name = name.as_ref();
        let answer =
            same_answer(tables).ok_or_else(|| format!("{name}: the answers or the rows differ"))?;
        let [ours, theirs, parallel] = samples.in_turn(
            [tables; 3],
            [Call::Check, Call::ReferenceCheck, Call::ParallelCheck],
        );
        ratios.push(ours / theirs);
        println!(
            "{name:<26} {:>8} {:>10} {:>7.3} {:>9} {:>7.2}  {}",
            figure(ours),
            figure(theirs),
            ours / theirs,
            figure(parallel),
            ours / parallel,
            words(answer)
        );
    }
    Ok(ratios)
}

/// A time in µs, with more decimals where it is short.
pub fn figure(time: f64) -> String {
    let decimals = if time < 10.0 { 3 } else { 1 };
    format!("{time:.decimals$}")
}

/// The strict answer of all three, where their answers and rows are the same.
pub fn same_answer(tables: &Tables) -> Option<Result<(), Refusal>> {
    let [mut mine, mut theirs, mut parallel] = [[7; ROWS]; 3];
    let strict = Reading::Strict;
    let wanted = reference::check(tables, strict, &mut theirs);
    let same = crate::check(tables, strict, &mut mine) == Ok(wanted)
        && parallel::check(tables, &mut parallel) == wanted
        && mine == theirs
        && parallel == theirs;
    same.then_some(wanted)
}

/// The filled answer of ours and of the reference's, where answers and rows are the same.
pub fn same_filled_answer(tables: &Tables) -> Option<Result<(), Refusal>> {
    let [mut mine, mut theirs] = [[7; ROWS]; 2];
    let wanted = reference::check(tables, Reading::Filled, &mut theirs);
    let ours = crate::check(tables, Reading::Filled, &mut mine);
    (ours == Ok(wanted) && mine == theirs).then_some(wanted)
}

/// An answer as it is printed in a table.
pub fn words(answer: Result<(), Refusal>) -> String {
    match answer {
        Ok(()) => "accepted".to_string(),
        Err(r) => format!("{} {} {} {}", r.number, r.place, r.item, r.configuration),
    }
}

/// Says whether ratios are as low as is wanted.
pub fn say_goal(goal: &str, most: f64, met: bool) {
    let outcome = if met { "met" } else { "not met" };
    println!("{goal}, a ratio of at most {most}: {outcome}");
}
