//! The time of the whole programs `columns` and `page`, from start to end, ours and
//! the reference's in turn in one run: on a file of full size with the largest
//! print, on a short file with the same print, and on H1, which is all start-up.

use std::fs::{self, File};
use std::io;
use std::path::{Path, PathBuf};
use std::process::{Command, ExitCode, Stdio};
use std::time::Instant;

use reference::file::{page_file, print_file, write_file};
use reference::small::H1;
use reference::Tables;

/// Measurements of each workload.
const TIMES: usize = 201;

const FEATURES: u16 = 10;
const ATTRIBUTES: u16 = 64;
const FORMS: u16 = 256;

/// What a program must print for a file.
type Print = fn(&[u8]) -> Vec<u8>;

const PROGRAMS: [(&str, Print); 2] = [("columns", print_file), ("page", page_file)];

fn main() -> ExitCode {
    let arguments: Vec<PathBuf> = std::env::args_os().skip(1).map(PathBuf::from).collect();
    let paths = match arguments.len() {
        0 => PROGRAMS.map(|(name, _)| built(name)).concat(),
        2 | 4 => arguments,
        _ => {
            eprintln!("usage: program [COLUMNS COLUMNS_REFERENCE [PAGE PAGE_REFERENCE]]");
            return ExitCode::FAILURE;
        }
    };
    for ((name, print), pair) in PROGRAMS.into_iter().zip(paths.chunks(2)) {
        match measure(name, pair, print) {
            Ok(true) => {}
            Ok(false) => return ExitCode::FAILURE,
            Err(error) => {
                eprintln!("program: {error}");
                return ExitCode::FAILURE;
            }
        }
    }
    ExitCode::SUCCESS
}

/// Where a program and its reference are built.
fn built(name: &str) -> [PathBuf; 2] {
    let root = Path::new(env!("CARGO_MANIFEST_DIR")).join("..");
    [
        root.join("target/bin").join(name),
        root.join("reference/target/release")
            .join(format!("{name}_reference")),
    ]
}

/// Measures a program on all workloads; false where it, or the reference's, does not
/// print what it must.
fn measure(program: &str, pair: &[PathBuf], print: Print) -> io::Result<bool> {
    let workloads = [
        ("full size", write_file(&full_size())),
        ("largest print", write_file(&largest_print())),
        ("start-up (H1)", H1.as_bytes().to_vec()),
    ];
    println!("{program}: medians of {TIMES} runs, ours and the reference's in turn; µs from start to end");
    println!(
        "{:<14} {:>8} {:>8} {:>8} {:>10} {:>7}",
        "workload", "file", "print", "ours", "reference", "ratio"
    );
    let input = std::env::temp_dir().join(format!("{program}-bench-{}", std::process::id()));
    for (name, text) in &workloads {
        fs::write(&input, text)?;
        let print = print(text);
        let medians = in_turn(pair, &input, &print);
        fs::remove_file(&input)?;
        let Some([ours, theirs]) = medians? else {
            println!("{name}: a program failed, or its print is not the reference's");
            return Ok(false);
        };
        println!(
            "{name:<14} {:>8} {:>8} {ours:>8.0} {theirs:>10.0} {:>7.3}",
            text.len(),
            print.len(),
            ours / theirs
        );
    }
    Ok(true)
}

/// Medians in µs of runs that take turns, so that both meet the same machine.
fn in_turn(pair: &[PathBuf], input: &Path, print: &[u8]) -> io::Result<Option<[f64; 2]>> {
    let mut times = [const { Vec::new() }; 2];
    for _ in 0..TIMES {
        for (program, times) in pair.iter().zip(&mut times) {
            let mut command = Command::new(program);
            command.stdin(File::open(input)?).stderr(Stdio::null());
            let start = Instant::now();
            let output = command.output()?;
            times.push(start.elapsed().as_nanos() as f64 / 1000.0);
            if !output.status.success() || output.stdout != print {
                return Ok(None);
            }
        }
    }
    Ok(Some(times.each_mut().map(|of| {
        of.sort_unstable_by(f64::total_cmp);
        of[of.len() / 2]
    })))
}

/// Every table full but table 2, every configuration permitted and with every
/// attribute: a report of 256 forms, each on the one below it, of selects and of
/// seven projects that keep all.
fn full_size() -> Tables {
    let mut expressions = vec![[1, 0, 0]];
    expressions.extend((0..FEATURES).map(|feature| [2, feature, 0]));
    expressions.extend((FEATURES + 1..FORMS).map(|form| match form % 3 {
        0 => [3, form - 1, 0],
        1 => [4, form - 1, form - FEATURES],
        _ => [5, form - 1, form - FEATURES],
    }));
    let mut comparisons: Vec<[u16; 5]> = (0..ATTRIBUTES).map(|a| [2, a % 6, a, 500, 0]).collect();
    comparisons.extend((ATTRIBUTES..FORMS).map(|form| match form % 4 {
        0 => [4, 0, form - 1, 0, 0],
        1 => [5, 0, form - 1, form - ATTRIBUTES, 0],
        2 => [6, 0, form - 1, form - ATTRIBUTES, 0],
        _ => [7, 0, form, form - 1, form - ATTRIBUTES],
    }));
    let mut queries = vec![[1, 0, 0, 0]];
    queries.extend((1..FORMS).map(|form| match form % 32 {
        0 => [3, ATTRIBUTES, form - 1, 0],
        _ => [2, form, form - 1, 0],
    }));
    Tables {
        expressions: expressions.concat(),
        entries: all_attributes().repeat(8),
        comparisons: comparisons.concat(),
        queries: queries.concat(),
        ..largest_print()
    }
}

/// One relation that has every attribute at every configuration.
fn largest_print() -> Tables {
    Tables {
        features: FEATURES.into(),
        attributes: ATTRIBUTES.into(),
        model: 0,
        expressions: vec![1, 0, 0],
        entries: all_attributes(),
        relations: vec![0, ATTRIBUTES],
        queries: vec![1, 0, 0, 0],
        ..Tables::default()
    }
    .of_moments()
}

fn all_attributes() -> Vec<u16> {
    (0..ATTRIBUTES)
        .flat_map(|attribute| [attribute, 0])
        .collect()
}
