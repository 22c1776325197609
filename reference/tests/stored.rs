//! What is stored elsewhere in the repository as the reference's output is its
//! output.

use std::collections::{BTreeMap, BTreeSet};
use std::fs;
use std::path::{Path, PathBuf};
use std::sync::OnceLock;

use reference::file::{self, page_file, print_file};
use reference::generate::{self, DIGITS};
use reference::refusal::TYPING;
use reference::small::H1;
use reference::vectors::{self, Vector, REFUSALS};
use reference::{expression, form};

fn root() -> PathBuf {
    Path::new(env!("CARGO_MANIFEST_DIR")).join("..")
}

fn stored(path: &str) -> Vec<u8> {
    fs::read(root().join(path)).unwrap_or_else(|error| panic!("{path}: {error}"))
}

fn examples() -> Vec<Vector> {
    vectors::examples(&root()).expect("there is a folder examples")
}

/// All stored cases, made once for all tests.
fn cases() -> &'static [Vector] {
    static CASES: OnceLock<Vec<Vector>> = OnceLock::new();
    CASES.get_or_init(|| vectors::all(&examples()))
}

/// `make_vectors` writes them; it is to be run again when this fails.
#[test]
fn the_vectors_are_what_the_command_makes() {
    let cases = cases();
    assert_eq!(stored("crates/vectors/args"), vectors::arguments(cases));
    assert!(stored("crates/vectors/stdout") == vectors::output(cases));
    for case in cases {
        let path = format!("crates/vectors/data/{}", case.name);
        assert!(stored(&path) == case.text, "{path}");
    }
    let files = fs::read_dir(root().join("crates/vectors/data")).unwrap();
    assert_eq!(files.count(), cases.len());
}

#[test]
fn the_vectors_have_names_of_their_own_and_every_outcome() {
    let cases = cases();
    let without_number = |case: &Vector| case.name[4..].to_string();
    let names: BTreeSet<String> = cases.iter().map(without_number).collect();
    assert_eq!(names.len(), cases.len());
    let prints: Vec<Vec<u8>> = cases.iter().map(|case| print_file(&case.text)).collect();
    let times = |start: &str| {
        let starts = prints.iter().filter(|p| p.starts_with(start.as_bytes()));
        starts.count()
    };
    for number in REFUSALS {
        assert!(times(&format!("(refused {number} ")) >= 3, "{number}");
    }
    assert!(times("(accepted)") >= 100);
    assert!(times("(unread 0)") >= 5);
    assert!(times("(unread ") >= 100);
    assert!(prints.iter().any(|print| print.len() == 201_653));
}

/// Pages of one line and of 1,024, and lines of no column and of 64.
#[test]
fn the_vectors_have_pages_at_every_limit() {
    let pages: Vec<Vec<u8>> = cases().iter().map(|case| page_file(&case.text)).collect();
    let pages = || pages.iter().filter(|page| !page.starts_with(b"("));
    for lines in [1, 2, 1023, 1024] {
        assert!(pages().any(|page| page.len() == 73 * lines), "{lines}");
    }
    for columns in [" 0\n", " 1\n", " 9\n", "10\n", "63\n", "64\n"] {
        let ends = |line: &[u8]| line.ends_with(columns.as_bytes());
        assert!(pages().any(|page| page.chunks(73).any(ends)), "{columns}");
    }
    for configuration in DIGITS {
        let start = format!("{configuration:4} ");
        let alone = |page: &&Vec<u8>| page.len() == 73 && page.starts_with(start.as_bytes());
        assert!(pages().any(|page| alone(&page)), "{configuration}");
    }
}

/// Expression kind 6 in files that are accepted, and in files that 3 refuses.
#[test]
fn the_vectors_have_ranges_of_features() {
    let has_range = |case: &&Vector| case.text.windows(14).any(|w| w == b"(expression 6 ");
    let ranged = cases().iter().filter(has_range);
    let prints: Vec<Vec<u8>> = ranged.map(|case| print_file(&case.text)).collect();
    for (start, least) in [("(accepted)", 80), ("(refused 3 ", 12)] {
        let starts = prints.iter().filter(|p| p.starts_with(start.as_bytes()));
        let times = starts.count();
        println!("{start} {times}");
        assert!(times >= least, "{start}");
    }
}

/// Kind lines in files that are accepted, and in files that are refused for them, for
/// kinds that differ, and unread.
#[test]
fn the_vectors_have_kinds() {
    let has_kinds = |case: &&Vector| case.text.windows(6).any(|w| w == b"(kind ");
    let with_kinds = cases().iter().filter(has_kinds);
    let prints: Vec<Vec<u8>> = with_kinds.map(|case| print_file(&case.text)).collect();
    let wanted = [
        ("(accepted)", 60),
        ("(refused 24 ", 20),
        ("(refused 25 ", 20),
        ("(unread ", 20),
    ];
    for (start, least) in wanted {
        let starts = prints.iter().filter(|p| p.starts_with(start.as_bytes()));
        let times = starts.count();
        println!("{start} {times}");
        assert!(times >= least, "{start}");
    }
}

/// Every answer of typing with few permitted configurations, and files with numbers of them
/// around the powers of two.
#[test]
fn the_vectors_have_few_permitted_configurations_and_many() {
    let mut counts: BTreeMap<usize, BTreeSet<u64>> = BTreeMap::new();
    for case in cases() {
        let tables = match file::read_file(&case.text) {
            Ok(tables) if form::check(&tables).is_ok() => tables,
            _ => continue,
        };
        let permitted = expression::permitted(&tables).len();
        let number = generate::outcome(&tables);
        counts.entry(permitted).or_default().insert(number);
    }
    println!("{counts:?}");
    for power in [8, 16, 32, 64, 128, 256] {
        let around = [power - 1, power, power + 1];
        assert!(around.iter().all(|count| counts.contains_key(count)));
    }
    let few = counts.range(2..=8).flat_map(|(_, numbers)| numbers);
    let few: BTreeSet<u64> = few.copied().collect();
    assert!([0].iter().chain(&TYPING).all(|number| few.contains(number)));
}

#[test]
fn the_examples_have_their_print_and_their_page_beside_them() {
    let examples = examples();
    let with_page = examples.iter().filter(|example| example.has_page());
    assert!(with_page.count() >= 6);
    assert!(examples.len() >= 26);
    for example in &examples {
        let Vector { name, text } = example;
        let print = stored(&format!("examples/{name}.print"));
        assert!(print == print_file(text), "{name}");
        if example.has_page() {
            let page = stored(&format!("examples/{name}.page"));
            assert_eq!(page, page_file(text), "{name}");
        }
    }
}

#[test]
fn the_programs_are_run_on_h1() {
    let h1 = H1.as_bytes();
    assert_eq!(stored("crates/columns/stdin"), h1);
    assert_eq!(stored("crates/columns/stdout"), print_file(h1));
    assert_eq!(stored("crates/page/stdin"), h1);
    assert_eq!(stored("crates/page/stdout"), page_file(h1));
}
