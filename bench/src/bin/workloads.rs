//! The time of the whole check at full size, ours and the reference's, which goes
//! configuration by configuration, in one run and in a thread with a stack of
//! 1 MiB; on three workloads also that of all configurations at once
//! (`bench::parallel`); the time of configuring; that of finding, to our check's; that
//! of the page; that of the check of a table of expression kind 6 alone; that of the
//! check of a report whose selects compare attributes and constants of three kinds; and
//! that of the filled reading, to the strict one's.

use std::collections::BTreeMap;
use std::hint::black_box;
use std::process::ExitCode;
use std::time::Instant;

use bench::measure::{self, figure, median, micros, same_answer, same_filled_answer, say_goal};
use bench::measure::{words, Call, Samples};
use bench::reports::{
    deep, first_expressions, mixed_comparisons, mixed_expressions, not_last, three_workloads,
    LeftOut, ATTRIBUTES, FEATURES, FORMS, MIDDLE,
};
use reference::check::ROWS;
use reference::generate;
use reference::page::{LINE, MOST_LINES};
use reference::tables::{COMPARISON_CHOICE, COUNT, EXACTLY_ONE, WITH_ATTRIBUTE, WITH_CONSTANT};
use reference::{expression, Reading, Tables};

/// Measurements of each workload, of each of the generated cases, and of each line of (j).
const TIMES: usize = 201;
const SAMPLES: Samples = Samples::single(TIMES);
const FEWER: Samples = Samples::single(15);
const OF_READINGS: Samples = Samples::single(51);

/// Our goal for each workload: of a check to the reference's, and of finding to our
/// check.
const GOAL: f64 = 0.2;
const GOAL_OF_FINDING: f64 = 1.1;

/// A name, and the tables that are measured.
type Workload = (&'static str, Tables);

fn main() -> ExitCode {
    measure::in_small_stack(run)
}

/// Measures all parts. An error says where answers or words differ.
fn run() -> Result<(), String> {
    let workloads = three_workloads();
    let [_, (_, deep), _] = &workloads;
    time_checks(&workloads)?;
    time_generated()?;
    time_chains(deep.clone())?;
    println!("(e) configuring at {MIDDLE}, ours and the reference's in turn:");
    time_configuring(&workloads[..2])?;
    time_configuring(&[("one attribute, 512 times", one_attribute())])?;
    time_finding(&workloads[..2])?;
    time_paging(&workloads[..2])?;
    time_ranges()?;
    time_kinds(deep.clone())?;
    time_filled(&workloads)
}

fn time_checks(workloads: &[Workload]) -> Result<(), String> {
    println!("medians of {TIMES} measurements, ours and the reference's in turn; µs a call; a stack of 1 MiB");
    let ratios = check_ratios(workloads)?;
    say_goal(
        "goal on each of these",
        GOAL,
        ratios.iter().all(|&ratio| ratio <= GOAL),
    );
    Ok(())
}

fn check_ratios(workloads: &[Workload]) -> Result<Vec<f64>, String> {
    measure::check_ratios(SAMPLES, workloads)
}

/// The reference's time goes with the number of permitted configurations.
fn time_generated() -> Result<(), String> {
    let mut groups: BTreeMap<usize, Vec<f64>> = BTreeMap::new();
    for tables in generated() {
        if same_answer(&tables).is_none() {
            return Err("a generated case: the answers or the rows differ".to_string());
        }
        let [ours, theirs] = FEWER.in_turn([&tables; 2], [Call::Check, Call::ReferenceCheck]);
        let permitted = expression::permitted(&tables).len();
        groups.entry(permitted).or_default().push(ours / theirs);
    }
    println!("full cases of the generator, accepted, by number of permitted configurations:");
    for (permitted, mut ratios) in groups.into_iter().rev() {
        ratios.sort_unstable_by(f64::total_cmp);
        let [low, high] = [0, ratios.len() - 1].map(|at| ratios[at]);
        println!(
            "{permitted:>6} permitted, {:>2} cases: ratios {low:.3} to {high:.3}{}",
            ratios.len(),
            if high <= GOAL { "" } else { ", above the goal" }
        );
    }
    Ok(())
}

/// Chains in which each form joins the one below it with itself.
fn time_chains(full: Tables) -> Result<(), String> {
    let chains = [
        ("another full table", full),
        (
            "comparisons 5 0 i i",
            deep(FEATURES, mixed_expressions(FEATURES), joined_comparisons()),
        ),
        (
            "expressions 5 i i",
            deep(FEATURES, joined_expressions(), mixed_comparisons(FEATURES)),
        ),
    ];
    for (name, tables) in &chains {
        if same_answer(tables) != Some(Ok(())) {
            return Err(format!("{name}: not accepted, or the rows differ"));
        }
    }
    let times = SAMPLES.in_turn(
        chains.each_ref().map(|(_, tables)| tables),
        [Call::Check; 3],
    );
    println!("(d) ours in turn, all accepted:");
    for ((name, _), time) in chains.iter().zip(times) {
        println!(
            "{name:<26} {time:>8.1} {:>18.3} of the first",
            time / times[0]
        );
    }
    Ok(())
}

fn time_configuring(workloads: &[Workload]) -> Result<(), String> {
    for (name, tables) in workloads {
        let [ours, theirs] = configuring(tables)
            .ok_or_else(|| format!("{name}: not written, or the words differ"))?;
        println!(
            "{name:<26} {ours:>8.1} {theirs:>10.1} {:>7.3}",
            ours / theirs
        );
    }
    Ok(())
}

/// The wanted sets of (f): nothing, all attributes, and every other one.
fn wanted_sets(tables: &Tables) -> [(&'static str, u64); 3] {
    let all = u64::MAX >> (64 - tables.attributes);
    [
        ("nothing wanted", 0),
        ("all wanted", all),
        ("half wanted", all & 0x5555_5555_5555_5555),
    ]
}

/// Each workload's check and its findings take turns.
fn time_finding(workloads: &[Workload]) -> Result<(), String> {
    println!("(f) our check and our finding in turn:");
    println!(
        "{:<26} {:<14} {:>8} {:>8} {:>7}  answer",
        "workload", "set", "check", "find", "ratio"
    );
    let mut met = true;
    for (name, tables) in workloads {
        let sets = wanted_sets(tables);
        let [nothing, all, half] = sets.map(|(_, wanted)| Call::Find(wanted));
        let calls = [Call::Check, nothing, all, half];
        let [check, finds @ ..] = SAMPLES.in_turn([tables; 4], calls);
        for ((set, wanted), find) in sets.into_iter().zip(finds) {
            let found = same_found(tables, wanted)
                .ok_or_else(|| format!("{name}, {set}: not found, or the answers differ"))?;
            met &= find / check <= GOAL_OF_FINDING;
            println!(
                "{name:<26} {set:<14} {check:>8.1} {find:>8.1} {:>7.3}  {found}",
                find / check
            );
        }
    }
    say_goal("goal on each of these", GOAL_OF_FINDING, met);
    Ok(())
}

/// The configuration that both find.
fn same_found(tables: &Tables, wanted: u64) -> Option<u64> {
    let found = reference::find(tables, Reading::Strict, wanted);
    let same = bench::find(tables, Reading::Strict, wanted) == Ok(found);
    found.ok().flatten().filter(|_| same)
}

/// Each workload's page takes turns with the reference's, and then with our check
/// alone: after the reference's call ours takes longer, be it a check or a page.
fn time_paging(workloads: &[Workload]) -> Result<(), String> {
    println!("(g) our page and the reference's in turn, and then our check and our page in turn:");
    println!(
        "{:<26} {:>8} {:>10} {:>7} {:>8} {:>8} {:>7}  lines",
        "workload", "ours", "reference", "ratio", "check", "page", "ratio"
    );
    for (name, tables) in workloads {
        let lines =
            same_page(tables).ok_or_else(|| format!("{name}: no page, or the bytes differ"))?;
        let [ours, theirs] = SAMPLES.in_turn([tables; 2], [Call::Page, Call::ReferencePage]);
        let [check, page] = SAMPLES.in_turn([tables; 2], [Call::Check, Call::Page]);
        println!(
            "{name:<26} {ours:>8.1} {theirs:>10.1} {:>7.3} {check:>8.1} {page:>8.1} {:>7.3}  {lines}",
            ours / theirs,
            page / check
        );
    }
    Ok(())
}

/// The number of lines that both write, where every byte is the same.
fn same_page(tables: &Tables) -> Option<usize> {
    let lent = vec![7; LINE * MOST_LINES];
    let [mut mine, mut theirs] = [lent.clone(), lent];
    let lines = reference::page(tables, Reading::Strict, &mut theirs);
    let same = bench::page(tables, Reading::Strict, &mut mine) == Ok(lines) && mine == theirs;
    lines.ok().filter(|_| same)
}

/// The expression rows of kind 6: beside them there is next to nothing, which the
/// first line shows.
fn time_ranges() -> Result<(), String> {
    println!("(h) the check of expressions of kind 6 alone, with the smallest report:");
    let workloads = [
        ("one, of ten features", ranges(1, |_| FEATURES)),
        ("256, of ten features", ranges(FORMS, |_| FEATURES)),
        (
            "256, of one to ten",
            ranges(FORMS, |form| FEATURES - form % FEATURES),
        ),
    ];
    check_ratios(&workloads).map(drop)
}

/// (b) once more, the same with three kinds, and that refused by 25.
fn time_kinds(deep: Tables) -> Result<(), String> {
    println!("(i) the check of (b), and of the same with three kinds:");
    let alike = of_three_kinds(deep.clone());
    let mut differ = alike.clone();
    differ_last(&mut differ);
    let workloads = [
        ("all moments", deep),
        ("three kinds", alike),
        ("kinds differ last", differ),
    ];
    check_ratios(&workloads).map(drop)
}

/// The check in the filled reading: of reports that repeat the schema's conditions, to the
/// strict check of the same tables; and of reports that do not, to the strict check of the
/// same report with them. Then to the reference's in the filled reading.
fn time_filled(workloads: &[Workload]) -> Result<(), String> {
    println!("(j) our strict check and our filled check in turn, and then our filled check and the reference's in turn:");
    println!(
        "{:<28} {:>8} {:>8} {:>7} {:>8} {:>10} {:>7}  filled answer",
        "workload", "strict", "filled", "ratio", "filled", "reference", "ratio"
    );
    for (name, tables) in workloads {
        time_readings(name, tables, tables)?;
    }
    for (name, LeftOut { repeated, left_out }) in &LeftOut::by_permitted() {
        time_readings(name, repeated, repeated)?;
        time_readings("  left out", repeated, left_out)?;
    }
    Ok(())
}

/// The reference's has turns of its own: after it ours takes longer, as in `time_paging`.
fn time_readings(name: &str, repeated: &Tables, tables: &Tables) -> Result<(), String> {
    let differ = || format!("{name}: the answers or the rows differ");
    if same_answer(repeated).is_none() {
        return Err(differ());
    }
    let answer = same_filled_answer(tables).ok_or_else(differ)?;
    let readings = [Call::Check, Call::FilledCheck];
    let [strict, filled] = OF_READINGS.in_turn([repeated, tables], readings);
    let both = [Call::FilledCheck, Call::ReferenceFilledCheck];
    let [ours, theirs] = OF_READINGS.in_turn([tables; 2], both);
    println!(
        "{name:<28} {:>8} {:>8} {:>7.3} {:>8} {:>10} {:>7.3}  {}",
        figure(strict),
        figure(filled),
        filled / strict,
        figure(ours),
        figure(theirs),
        ours / theirs,
        words(answer)
    );
    Ok(())
}

/// Medians in µs of configuring, ours and the reference's, into tables as long as
/// their sources. None where the answers or the words differ, or it is refused.
fn configuring(tables: &Tables) -> Option<[f64; 2]> {
    let lent = [1, 2, 3, 4].map(|table| vec![7; tables.words(table).len()]);
    let mut words = [lent.clone(), lent];
    let mut times = [const { Vec::new() }; 2];
    for _ in 0..TIMES {
        let [mine, theirs] = words
            .each_mut()
            .map(|of| of.each_mut().map(Vec::as_mut_slice));
        let tables = black_box(tables);
        let start = Instant::now();
        let ours = black_box(bench::configure(
            tables,
            Reading::Strict,
            MIDDLE,
            black_box(mine),
        ));
        times[0].push(micros(start.elapsed()));
        let start = Instant::now();
        let wanted = black_box(reference::configure(
            tables,
            Reading::Strict,
            MIDDLE,
            black_box(theirs),
        ));
        times[1].push(micros(start.elapsed()));
        if wanted.is_err() || ours != Ok(wanted) || words[0] != words[1] {
            return None;
        }
    }
    Some(times.map(median))
}

/// A relation that lists one attribute 512 times, under each feature and its
/// negation by turns. It is the report.
fn one_attribute() -> Tables {
    let mut expressions = vec![[1, 0, 0]];
    expressions.extend((0..FEATURES).map(|feature| [2, feature, 0]));
    expressions.extend((1..=FEATURES).map(|feature| [3, feature, 0]));
    let list = (0..512).map(|entry| [0, 1 + entry % (2 * FEATURES)]);
    Tables {
        features: FEATURES.into(),
        attributes: 1,
        model: 0,
        expressions: expressions.concat(),
        entries: list.collect::<Vec<_>>().concat(),
        relations: vec![0, 512],
        queries: vec![1, 0, 0, 0],
        ..Tables::default()
    }
    .of_moments()
}

/// So many expressions of kind 6, each of as many features as `count` gives for its
/// number, from the first feature on or later; the first expression is the model,
/// exactly one of all features. The report is empty.
fn ranges(forms: u16, count: fn(u16) -> u16) -> Tables {
    let range = |form: u16| {
        let count = count(form);
        [EXACTLY_ONE, form / FEATURES % (FEATURES - count + 1), count]
    };
    Tables {
        features: FEATURES.into(),
        model: 0,
        expressions: (0..forms).flat_map(range).collect(),
        queries: vec![0; 4],
        ..Tables::default()
    }
}

fn joined_expressions() -> Vec<[u16; 3]> {
    let mut forms = first_expressions(FEATURES);
    forms.extend((not_last(FEATURES)..FORMS - 1).map(|below| [5, below, below]));
    forms
}

fn joined_comparisons() -> Vec<[u16; 5]> {
    let mut forms = vec![[2, 0, 0, 500, 0]];
    forms.extend((0..FORMS - 1).map(|below| [5, 0, below, below, 0]));
    forms
}

/// Moments, counts and names by turns, and constants of the kinds of their attributes;
/// every other comparison without operands is of two attributes of one kind. The last
/// attribute, which is missing at the last configuration, is in none of those.
fn of_three_kinds(mut tables: Tables) -> Tables {
    tables.kinds = (0..ATTRIBUTES).map(|attribute| attribute % 3).collect();
    let forms = tables.comparisons.chunks_exact_mut(5);
    for (form, attribute) in forms.zip(0..ATTRIBUTES) {
        match attribute % 2 {
            1 if attribute < ATTRIBUTES - 4 => {
                let operator = attribute % 6;
                form.copy_from_slice(&[WITH_ATTRIBUTE, operator, attribute, attribute + 3, 0]);
            }
            _ => form[4] = attribute % 3,
        }
    }
    tables
}

/// The last form selects by an attribute below a constant of another kind, at the last
/// configuration only. It takes the last two comparisons for it.
fn differ_last(tables: &mut Tables) {
    let clash = FORMS - 2;
    let choice = [COMPARISON_CHOICE, 0, not_last(FEATURES), 0, clash];
    let comparisons = tables.comparisons.len() - 10;
    let last_two = [[WITH_CONSTANT, 0, 0, 500, COUNT], choice];
    tables.comparisons[comparisons..].copy_from_slice(&last_two.concat());
    let queries = tables.queries.len() - 8;
    let last_two = [[2, 0, FORMS - 3, 0], [2, FORMS - 1, FORMS - 2, 0]];
    tables.queries[queries..].copy_from_slice(&last_two.concat());
}

/// The first 40 full cases of the reference's generator that are accepted.
fn generated() -> Vec<Tables> {
    let accepted =
        |tables: &Tables| reference::check(tables, Reading::Strict, &mut [0; ROWS]).is_ok();
    let cases = (1..).map(generate::full).filter(accepted);
    cases.take(40).collect()
}
