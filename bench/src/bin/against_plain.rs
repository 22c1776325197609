//! Is our check ever slower than the plain one? The reference's goes configuration by
//! configuration; that of all configurations at once (`bench::parallel`) is measured
//! in the same turns. What is slower is said and is no failure.

use std::process::ExitCode;
use std::time::Duration;

use bench::measure::{self, check_ratios, Samples};
use bench::reports::{by_features, by_permitted, three_workloads};
use reference::vectors::berths;
use reference::Tables;

const TIMES: usize = 101;
const LEAST: Duration = Duration::from_micros(50);

fn main() -> ExitCode {
    measure::in_small_stack(run)
}

/// Measures all parts. An error says where answers or rows differ.
fn run() -> Result<(), String> {
    println!("medians of {TIMES} samples of at least {LEAST:?}, ours, the reference's and all configurations at once in turn; µs a call; a stack of 1 MiB");
    let examples = berths();
    // The first is H1.
    let (first, others) = examples.split_at(1);
    let mut slower = Vec::new();
    println!("(i) the three workloads:");
    slower.extend(slower_than_plain(&three_workloads())?);
    println!("(ii) the first worked example:");
    slower.extend(slower_than_plain(first)?);
    println!("(iii) full reports by features, all configurations permitted; then configured:");
    slower.extend(slower_than_plain(&by_features())?);
    println!("(iv) full reports of ten features by permitted configurations:");
    slower.extend(slower_than_plain(&by_permitted())?);
    println!("(v) the other worked examples, some refused before typing; no goal:");
    let without_goal = slower_than_plain(others)?;
    println!("(i) to (iv): {}", above_1(&slower));
    println!("(v): {}", above_1(&without_goal));
    Ok(())
}

fn above_1(slower: &[String]) -> String {
    match slower.len() {
        0 => "no ratio to plain above 1".into(),
        _ => format!("ratio to plain above 1: {}", slower.join("; ")),
    }
}

/// Prints the times, and gives those whose ratio to the reference's is above 1.
fn slower_than_plain<Name: AsRef<str>>(
    workloads: &[(Name, Tables)],
) -> Result<Vec<String>, String> {
    let ratios = check_ratios(Samples::batched(TIMES, LEAST), workloads)?;
    let names = workloads.iter().map(|(name, _)| name.as_ref());
    Ok(names
        .zip(ratios)
        .filter(|(_, ratio)| *ratio > 1.0)
        .map(|(name, ratio)| format!("{name} {ratio:.2}"))
        .collect())
}
