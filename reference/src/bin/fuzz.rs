//! Gives harbour files to a program and compares what it prints with the
//! reference's print, or with its page: generated files, sound and damaged, and
//! byte-level mutations of such files.

use std::collections::BTreeMap;
use std::fs;
use std::io::{self, Write};
use std::path::{Path, PathBuf};
use std::process::{Command, ExitCode, Output, Stdio};
use std::thread;

use reference::file::{page_file, print_file};
use reference::generate::{self, text_of, Family};
use reference::random::Random;
use reference::small::H1;

const USAGE: &str = "usage: fuzz columns|page PROGRAM SEED COUNT MUTATIONS [DIR]
Gives COUNT generated harbour files and MUTATIONS byte-level mutations of such files to PROGRAM, on standard input,
and compares its output with the reference's print (columns) or with its page (page). At the first difference it stops,
with the file and both outputs in DIR (default: the current folder) as fuzz-columns-SEED-NUMBER.harbour, .program and
.reference, or fuzz-page-... Prints the number of files by outcome. Exit status: 0 no difference; 1 a difference;
2 PROGRAM could not be run, or bad usage. A seed gives the same files everywhere, and to both.";

/// What the reference prints for a file.
type Print = fn(&[u8]) -> Vec<u8>;

struct Run {
    /// Which print is compared: `columns` or `page`.
    name: String,
    print: Print,
    program: PathBuf,
    seed: u64,
    count: u64,
    mutations: u64,
    folder: PathBuf,
}

fn main() -> ExitCode {
    let arguments: Vec<String> = std::env::args().skip(1).collect();
    let Some(run) = run_of(&arguments) else {
        eprintln!("{USAGE}");
        return ExitCode::from(2);
    };
    match run.compare() {
        Ok(true) => ExitCode::SUCCESS,
        Ok(false) => ExitCode::from(1),
        Err(error) => {
            eprintln!("fuzz: {}: {error}", run.program.display());
            ExitCode::from(2)
        }
    }
}

fn run_of(arguments: &[String]) -> Option<Run> {
    let [name, program, seed, count, mutations, folder @ ..] = arguments else {
        return None;
    };
    let print: Print = match name.as_str() {
        "columns" => print_file,
        "page" => page_file,
        _ => return None,
    };
    let folder = match folder {
        [] => ".",
        [folder] => folder,
        _ => return None,
    };
    Some(Run {
        name: name.clone(),
        print,
        program: PathBuf::from(program),
        seed: seed.parse().ok()?,
        count: count.parse().ok()?,
        mutations: mutations.parse().ok()?,
        folder: PathBuf::from(folder),
    })
}

impl Run {
    /// Compares all files, and says whether there was no difference.
    fn compare(&self) -> io::Result<bool> {
        let mut outcomes: BTreeMap<String, u64> = BTreeMap::new();
        let mut same = true;
        for number in 0..self.count + self.mutations {
            // Seeds far apart, so that runs with neighbouring seeds share no file.
            let seed = self.seed.wrapping_mul(1_000_003).wrapping_add(number);
            let text = match number < self.count {
                true => generated(seed),
                false => mutated(seed),
            };
            let wanted = (self.print)(&text);
            let output = given(&self.program, &text)?;
            *outcomes.entry(outcome(&wanted)).or_default() += 1;
            if !output.status.success() || output.stdout != wanted {
                self.keep(number, &text, &output, &wanted)?;
                same = false;
                break;
            }
        }
        for (outcome, times) in &outcomes {
            println!("{outcome}: {times}");
        }
        let all: u64 = outcomes.values().sum();
        println!("files compared: {all}");
        if same {
            println!("no difference");
        }
        Ok(same)
    }

    /// Leaves a difference in files, and names it.
    fn keep(&self, number: u64, text: &[u8], output: &Output, wanted: &[u8]) -> io::Result<()> {
        fs::create_dir_all(&self.folder)?;
        let file = |end: &str| {
            let name = format!("fuzz-{}-{}-{number}.{end}", self.name, self.seed);
            self.folder.join(name)
        };
        fs::write(file("harbour"), text)?;
        fs::write(file("program"), &output.stdout)?;
        fs::write(file("reference"), wanted)?;
        println!(
            "file {number} differs ({}): reference {}, program {}; see {}",
            output.status,
            first_line(wanted),
            first_line(&output.stdout),
            file("harbour").display()
        );
        Ok(())
    }
}

/// A generated file of any family, sound or damaged.
fn generated(seed: u64) -> Vec<u8> {
    let family = match Random::new(!seed).below(100) {
        0..=25 => Family::Accepted,
        26..=29 => Family::Few,
        30..=32 => Family::Compared,
        33..=56 => Family::Fault,
        57..=65 => Family::Several,
        66..=69 => Family::Full,
        70..=72 => Family::Repeats,
        73..=76 => Family::Wall,
        77..=84 => Family::Small,
        _ => return generate::damage(seed, &text_of(seed, &generate::case(seed))),
    };
    text_of(seed, &generate::of_family(family, seed))
}

/// A mutation of a file, most often of a small one.
fn mutated(seed: u64) -> Vec<u8> {
    let text = match Random::new(!seed).below(20) {
        0..=1 => H1.as_bytes().to_vec(),
        2..=14 => text_of(seed, &generate::small(seed)),
        _ => text_of(seed, &generate::case(seed)),
    };
    generate::mutate(seed, &text)
}

/// What the program does with the text on its standard input.
fn given(program: &Path, text: &[u8]) -> io::Result<Output> {
    let mut child = Command::new(program)
        .stdin(Stdio::piped())
        .stdout(Stdio::piped())
        .stderr(Stdio::piped())
        .spawn()?;
    let input = child.stdin.take();
    thread::scope(|scope| {
        // In a thread of its own, so that neither side can wait for the other.
        scope.spawn(move || {
            if let Some(mut input) = input {
                // A program may stop reading at 65,537 bytes.
                let _ = input.write_all(text);
            }
        });
        child.wait_with_output()
    })
}

/// Accepted, a page, refused by number, unread, or unread for its length.
fn outcome(print: &[u8]) -> String {
    let line = first_line(print);
    if !line.starts_with('(') {
        return "page".to_string();
    }
    let words: Vec<&str> = line.trim_matches(['(', ')']).split(' ').collect();
    match words[..] {
        ["refused", number, ..] => format!("refused {number:>2}"),
        ["unread", "0"] => "unread, too long".to_string(),
        [first, ..] => first.to_string(),
        [] => String::new(),
    }
}

fn first_line(print: &[u8]) -> String {
    let line = print.split(|&byte| byte == b'\n').next().unwrap_or(&[]);
    String::from_utf8_lossy(line).into_owned()
}
