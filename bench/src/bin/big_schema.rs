//! Wish 6: a union of 32 relations, each listing the same 16 attributes, every entry
//! under a chain of 200 nots, at ten features. Our check against walking the chain
//! once per entry and configuration, in turn in one run; then the same with other
//! numbers of relations, of nots and of features. The argument names the file that
//! the times are drawn to.

use std::process::ExitCode;
use std::time::Duration;

use bench::measure::{self, figure, same_answer, say_goal, Call, Samples};
use bench::plot::{self, Panel, Point};
use bench::reports::BigSchema;

/// Walking takes a tenth of a second and more.
const TIMES: usize = 15;
const LEAST: Duration = Duration::from_millis(1);

/// What the wish allows, and our goal: of a check to the walks.
const WISHED: f64 = 8.0;
const GOAL: f64 = 0.01;

/// What the axis across counts in each growth, what stays as wished, and the numbers
/// that stand at the axis.
const AXES: [(&str, &str, &[u16]); 3] = [
    (
        "relations of 16 entries",
        "200 nots, 10 features",
        &[0, 8, 16, 24, 32],
    ),
    (
        "nots in the chain",
        "32 relations, 10 features",
        &[0, 50, 100, 150, 200, 250],
    ),
    ("features", "32 relations, 200 nots", &[0, 2, 4, 6, 8, 10]),
];

fn main() -> ExitCode {
    if std::env::args().len() > 2 {
        eprintln!("usage: big_schema [SVG]");
        return ExitCode::FAILURE;
    }
    measure::in_small_stack(run)
}

/// Measures all, and draws. An error says where answers or rows differ, or that the
/// file was not written.
fn run() -> Result<(), String> {
    println!("medians of {TIMES} samples of at least {LEAST:?}, our check and walking each entry's chain at each configuration in turn; µs; a stack of 1 MiB");
    println!("wished: 32 relations of 16 entries, 200 nots in the chain, 10 features");
    print_heads("workload");
    let [ours, walks] = times("as wished", BigSchema::WISHED)?;
    say_goal("wish", WISHED, ours / walks <= WISHED);
    say_goal("goal", GOAL, ours / walks <= GOAL);
    let mut panels = Vec::new();
    for ((across, fixed, ticks), schemas) in AXES.into_iter().zip(BigSchema::growths()) {
        let points = grow(across, &schemas)?;
        panels.push(Panel {
            across,
            fixed,
            ticks,
            points,
        });
    }
    let Some(file) = std::env::args_os().nth(1) else {
        return Ok(());
    };
    let names = [
        "our check",
        "walking the chain once per entry and configuration",
    ];
    std::fs::write(&file, plot::svg(names, &panels))
        .map_err(|error| format!("{} was not written: {error}", file.display()))
}

fn print_heads(across: &str) {
    println!("{across:<24} {:>8} {:>10} {:>9}", "ours", "walks", "ratio");
}

fn grow(across: &str, schemas: &[(u16, BigSchema)]) -> Result<Vec<Point>, String> {
    print_heads(across);
    let point = |&(x, schema): &(u16, BigSchema)| {
        let times = times(&x.to_string(), schema)?;
        Ok(Point { x, times })
    };
    schemas.iter().map(point).collect()
}

/// Prints the times of our check and of the walks, and gives them.
fn times(name: &str, schema: BigSchema) -> Result<[f64; 2], String> {
    let tables = schema.tables();
    if same_answer(&tables) != Some(Ok(())) {
        return Err(format!("{name}: not accepted, or the rows differ"));
    }
    let samples = Samples::batched(TIMES, LEAST);
    let times = samples.in_turn([&tables; 2], [Call::Check, Call::Walk]);
    let [ours, walks] = times;
    println!(
        "{name:<24} {:>8} {:>10} {:>9.5}",
        figure(ours),
        figure(walks),
        ours / walks
    );
    Ok(times)
}
