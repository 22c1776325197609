//! The wall page of H1 of docs/FORMAT.md, "Worked examples", and of reports like it:
//! vessel, berth and ramp; features swaps and ramps.

mod common;

use common::{moments, raw_page, refused, shown, H1};
use gelvomas::{check, page, Reading, Refusal, Tables, MAX_PAGE, PAGE_LINE, ROWS};

/// What the bytes are before a call: no line has it.
const STALE: u8 = 0xA5;

/// The numbers of H1's expressions for swaps and for ramps, as models.
const SWAPS: u64 = 1;
const RAMPS: u64 = 2;

const VESSEL: u64 = 1 << 0;
const RAMP: u64 = 1 << 2;

const H1_PAGE: [&str; 4] = [
    "   0 o...............................................................  1\n",
    "   1 o...............................................................  1\n",
    "   2 o.o.............................................................  2\n",
    "   3 o.o.............................................................  2\n",
];

/// The answer, and the bytes of a page of this length afterwards. Those around it are
/// as they were.
fn paged(tables: &Tables, length: usize) -> (Result<u64, Refusal>, Vec<u8>) {
    let mut bytes = vec![STALE; length + 2 * PAGE_LINE];
    let (before, rest) = bytes.split_at_mut(PAGE_LINE);
    let (lent, after) = rest.split_at_mut(length);
    let answer = page(tables, Reading::Strict, lent);
    assert_eq!([before, after], [[STALE; PAGE_LINE]; 2]);
    (answer, lent.to_vec())
}

/// Written to a page of this length: these lines, and then what stood there.
fn expect_written(tables: &Tables, length: usize, lines: &[&str]) {
    let (answer, bytes) = paged(tables, length);
    assert_eq!(answer, Ok(lines.len() as u64), "{length} bytes");
    let (written, rest) = bytes.split_at(PAGE_LINE * lines.len());
    assert_eq!(String::from_utf8_lossy(written), lines.concat());
    assert!(rest.iter().all(|&byte| byte == STALE), "{length} bytes");
}

/// Refused so, with every byte as it was.
fn expect_refused(tables: &Tables, length: usize, wanted: Refusal) {
    let (answer, bytes) = paged(tables, length);
    assert_eq!(answer, Err(wanted), "{length} bytes");
    assert!(bytes.iter().all(|&byte| byte == STALE), "{length} bytes");
}

/// These lines where the page is exactly as long or longer, and 23 where it is
/// shorter.
fn expect_page(tables: &Tables, lines: &[&str]) {
    let needed = PAGE_LINE * lines.len();
    for more in [0, 1, PAGE_LINE - 1, PAGE_LINE, 1 << 16] {
        expect_written(tables, needed + more, lines);
    }
    // By a byte, by the line feeds, by a line, by all but a byte for each line, by all.
    for fewer in [1, lines.len(), PAGE_LINE, needed - lines.len(), needed] {
        expect_refused(tables, needed - fewer, refused(23, 0, 0, 0));
    }
}

/// The page of these configurations, each with the set of its columns.
fn expect_columns(tables: &Tables, columns: impl Iterator<Item = (usize, u64)>) {
    let lines: Vec<String> = columns.map(|(c, set)| line(c, set)).collect();
    let lines: Vec<&str> = lines.iter().map(String::as_str).collect();
    expect_page(tables, &lines);
}

fn line(configuration: usize, columns: u64) -> String {
    let mark = |attribute: usize| match columns >> attribute & 1 {
        1 => 'o',
        _ => '.',
    };
    let marks: String = (0..64).map(mark).collect();
    let count = columns.count_ones();
    format!("{configuration:>4} {marks} {count:>2}\n")
}

/// The columns of H1 at a configuration.
fn columns_of_h1(configuration: usize) -> u64 {
    match configuration >> 1 & 1 {
        1 => VESSEL | RAMP,
        _ => VESSEL,
    }
}

/// One line, of a report without features that lists these attributes of so many.
fn expect_line(attributes: u64, listed: &[u16], wanted: &str) {
    let entries: Vec<u16> = listed.iter().flat_map(|&a| [a, 0]).collect();
    let plain = Tables {
        features: 0,
        attributes,
        kinds: moments(attributes),
        expressions: &[1, 0, 0],
        entries: &entries,
        relations: &[0, listed.len() as u16],
        queries: &[1, 0, 0, 0],
        ..H1
    };
    expect_page(&plain, &[wanted]);
}

#[test]
fn h1s_page() {
    expect_page(&H1, &H1_PAGE);
    expect_written(&H1, 292, &H1_PAGE);
    expect_refused(&H1, 291, refused(23, 0, 0, 0));
    // Lengths that are 0 in 16 bits, and as for the longest page.
    expect_written(&H1, 1 << 16, &H1_PAGE);
    expect_written(&H1, MAX_PAGE, &H1_PAGE);
}

#[test]
fn only_permitted_configurations_have_lines() {
    let with = |model| Tables { model, ..H1 };
    expect_page(&with(SWAPS), &[H1_PAGE[1], H1_PAGE[3]]);
    expect_page(&with(RAMPS), &[H1_PAGE[2], H1_PAGE[3]]);
    // Swaps and ramps are on.
    let both = Tables {
        model: 3,
        expressions: &[1, 0, 0, 2, 0, 0, 2, 1, 0, 4, 1, 2],
        ..H1
    };
    expect_page(&both, &[H1_PAGE[3]]);
}

#[test]
fn a_report_may_have_one_line() {
    let none = ".".repeat(64);
    expect_line(0, &[], &format!("   0 {none}  0\n"));
    expect_line(64, &[], &format!("   0 {none}  0\n"));
    let all: Vec<u16> = (0..64).collect();
    expect_line(64, &all, &format!("   0 {} 64\n", "o".repeat(64)));
    expect_line(63, &all[..63], &format!("   0 {}. 63\n", "o".repeat(63)));
}

#[test]
fn each_mark_is_its_attributes() {
    for attribute in 0..64 {
        let [before, after] = [attribute, 63 - attribute].map(|many| ".".repeat(many));
        let wanted = format!("   0 {before}o{after}  1\n");
        expect_line(64, &[attribute as u16], &wanted);
        expect_line(attribute as u64 + 1, &[attribute as u16], &wanted);
    }
}

#[test]
fn the_number_of_columns_is_right_aligned_in_2() {
    let all: Vec<u16> = (0..64).collect();
    for columns in [1, 2, 9, 10, 11, 31, 32, 62] {
        let [present, absent] = ["o".repeat(columns), ".".repeat(64 - columns)];
        let space = if columns < 10 { " " } else { "" };
        let wanted = format!("   0 {present}{absent} {space}{columns}\n");
        expect_line(64, &all[..columns], &wanted);
        expect_line(columns as u64, &all[..columns], &wanted);
    }
    // An attribute that is listed twice is one column.
    let wanted = format!("   0 .o{}  1\n", ".".repeat(62));
    expect_line(2, &[1, 1], &wanted);
}

#[test]
fn with_ten_features_there_are_1024_lines() {
    assert_eq!(MAX_PAGE, 1024 * PAGE_LINE);
    let with_ten = Tables { features: 10, ..H1 };
    expect_columns(&with_ten, (0..1024).map(|c| (c, columns_of_h1(c))));
    expect_refused(&with_ten, MAX_PAGE - 1, refused(23, 0, 0, 0));
    // What is needed, in 16 bits.
    expect_refused(&with_ten, MAX_PAGE - (1 << 16), refused(23, 0, 0, 0));
}

#[test]
fn configurations_are_right_aligned_in_4() {
    let (answer, bytes) = paged(&Tables { features: 10, ..H1 }, MAX_PAGE);
    assert_eq!(answer, Ok(1024));
    for (configuration, wanted) in [
        (0, "   0 o"),
        (9, "   9 o"),
        (10, "  10 o"),
        (99, "  99 o"),
        (100, " 100 o"),
        (999, " 999 o"),
        (1000, "1000 o"),
        (1023, "1023 o"),
    ] {
        let line = &bytes[configuration * PAGE_LINE..];
        assert_eq!(String::from_utf8_lossy(&line[..6]), wanted);
    }
}

/// Lent is room for the lines that there are, and not for all configurations.
#[test]
fn all_but_the_last_of_1024_configurations_have_lines() {
    // True, the features, that those up to each are on, and that not all are.
    let mut expressions = vec![1, 0, 0];
    expressions.extend((0..10).flat_map(|feature| [2, feature, 0]));
    expressions.extend([4, 1, 2]);
    expressions.extend((3..11).flat_map(|form| [4, form + 8, form]));
    expressions.extend([3, 19, 0]);
    let but_last = Tables {
        features: 10,
        model: 20,
        expressions: &expressions,
        ..H1
    };
    expect_columns(&but_last, (0..1023).map(|c| (c, columns_of_h1(c))));
    let last = Tables {
        model: 19,
        ..but_last
    };
    expect_columns(&last, [(1023, columns_of_h1(1023))].into_iter());
}

/// 64 attributes, of which each is projected where a feature is on, where it is off,
/// or always, under each of these for a model.
#[test]
fn every_mark_is_the_bit_of_its_row() {
    // True, the features, and their negations.
    let mut expressions = vec![1, 0, 0];
    expressions.extend((0..10).flat_map(|feature| [2, feature, 0]));
    expressions.extend((1..11).flat_map(|form| [3, form, 0]));
    let always = (0..64).flat_map(|a| [a, 0]);
    let varied = (0..64).flat_map(|a| [a, a % 21]);
    let entries: Vec<u16> = always.chain(varied).collect();
    for model in 0..21 {
        let tables = Tables {
            features: 10,
            attributes: 64,
            kinds: moments(64),
            model,
            expressions: &expressions,
            entries: &entries,
            relations: &[0, 64],
            queries: &[1, 0, 0, 0, 3, 64, 0, 0],
            ..H1
        };
        let mut rows = [0; ROWS];
        assert_eq!(check(&tables, Reading::Strict, &mut rows), Ok(()));
        let permitted = |c: &usize| match model {
            0 => true,
            1..=10 => c >> (model - 1) & 1 == 1,
            _ => c >> (model - 11) & 1 == 0,
        };
        let columns = (0..1024).filter(permitted).map(|c| (c, shown(&rows, c)));
        expect_columns(&tables, columns);
    }
}

/// Refused so, be the page long enough for H1 or not.
fn expect_before_23(tables: &Tables, wanted: [u64; 4]) {
    for length in [0, 1, PAGE_LINE, 291, 292, MAX_PAGE] {
        expect_refused(tables, length, wanted.into());
    }
}

#[test]
fn the_form_is_checked_before_the_page() {
    let over = Tables {
        attributes: 65,
        ..H1
    };
    let unknown = Tables {
        expressions: &[1, 0, 0, 2, 0, 0, 7, 1, 0],
        ..H1
    };
    let attribute = Tables {
        entries: &[0, 0, 3, 0, 2, 2, 0, 0, 2, 2],
        ..H1
    };
    let past = Tables {
        relations: &[0, 6],
        ..H1
    };
    let unused = Tables {
        comparisons: &[1, 0, 0, 0, 1],
        ..H1
    };
    let queries = |queries| Tables { queries, ..H1 };
    expect_before_23(&Tables { features: 11, ..H1 }, [1, 0, 0, 0]);
    expect_before_23(&over, [1, 1, 0, 0]);
    expect_before_23(&Tables::default(), [2, 0, 0, 0]);
    expect_before_23(&unknown, [3, 2, 0, 0]);
    expect_before_23(&Tables { model: 3, ..H1 }, [4, 0, 0, 0]);
    expect_before_23(&attribute, [5, 1, 0, 0]);
    expect_before_23(&past, [6, 0, 0, 0]);
    expect_before_23(&unused, [7, 0, 0, 0]);
    expect_before_23(&queries(&[1, 0, 0, 0, 3, 2, 1, 0]), [8, 1, 0, 0]);
    let left = queries(&[0, 0, 0, 0, 1, 0, 0, 0, 3, 2, 1, 0]);
    expect_before_23(&left, [9, 0, 0, 0]);
    expect_before_23(&queries(&[1, 0, 0, 0, 3, 1, 0, 0]), [10, 4, 0, 0]);
    let kinds = |kinds| Tables { kinds, ..H1 };
    expect_before_23(&kinds(&[0, 0]), [24, 0, 0, 0]);
    expect_before_23(&kinds(&[0, 3, 0]), [24, 1, 0, 0]);
}

#[test]
fn the_schema_is_checked_before_the_page() {
    // Expression 3 holds nowhere.
    let nowhere = Tables {
        expressions: &[1, 0, 0, 2, 0, 0, 2, 1, 0, 0, 0, 0],
        ..H1
    };
    let model = Tables {
        model: 3,
        ..nowhere
    };
    let relation = Tables {
        relations: &[3, 3],
        ..nowhere
    };
    let entry = Tables {
        entries: &[0, 0, 1, 0, 2, 3, 0, 0, 2, 2],
        ..nowhere
    };
    expect_before_23(&model, [12, 0, 0, 0]);
    expect_before_23(&relation, [13, 0, 0, 0]);
    expect_before_23(&entry, [14, 0, 2, 0]);
}

#[test]
fn typing_is_checked_before_the_page() {
    let absent = Tables {
        relations: &[1, 3],
        ..H1
    };
    let h2 = Tables {
        entries: &[0, 0, 1, 0, 2, 2, 0, 0, 2, 1],
        ..H1
    };
    // Comparison 0 is of ramp.
    let without_list = |queries| Tables {
        entries: &H1.entries[..6],
        comparisons: &[2, 0, 2, 500, 0],
        queries,
        ..H1
    };
    let select = without_list(&[1, 0, 0, 0, 2, 0, 0, 0]);
    let product = without_list(&[1, 0, 0, 0, 1, 0, 0, 0, 5, 0, 1, 0]);
    let union = without_list(&[0, 0, 0, 0, 1, 0, 0, 0, 6, 0, 1, 0]);
    expect_before_23(&absent, [15, 0, 0, 0]);
    expect_before_23(&select, [16, 1, 2, 0]);
    expect_before_23(&h2, [17, 1, 2, 1]);
    expect_before_23(&product, [18, 2, 0, 0]);
    expect_before_23(&union, [19, 2, 0, 0]);
    // Comparison 0 is of vessel, a moment, with a count.
    let differ = Tables {
        comparisons: &[2, 0, 0, 500, 1],
        ..select
    };
    expect_before_23(&differ, [25, 1, 0, 0]);
}

#[test]
fn a_page_may_have_no_bytes() {
    assert_eq!(
        page(&H1, Reading::Strict, &mut []),
        Err(refused(23, 0, 0, 0))
    );
    assert_eq!(
        page(&Tables::default(), Reading::Strict, &mut []),
        Err(refused(2, 0, 0, 0))
    );
}

#[test]
fn all_four_words_of_the_answer_are_written() {
    let with = |model| Tables { model, ..H1 };
    assert_eq!(
        raw_page(&H1, Reading::Strict, &mut [STALE; 292]),
        (0, [4, 0, 0, 0])
    );
    assert_eq!(
        raw_page(&with(SWAPS), Reading::Strict, &mut [STALE; 292]),
        (0, [2, 0, 0, 0])
    );
    assert_eq!(
        raw_page(&H1, Reading::Strict, &mut [STALE; 291]),
        (1, [23, 0, 0, 0])
    );
    assert_eq!(raw_page(&H1, Reading::Strict, &mut []), (1, [23, 0, 0, 0]));
    assert_eq!(
        raw_page(&with(3), Reading::Strict, &mut [STALE; 292]),
        (1, [4, 0, 0, 0])
    );
    let h2 = Tables {
        entries: &[0, 0, 1, 0, 2, 2, 0, 0, 2, 1],
        ..H1
    };
    assert_eq!(raw_page(&h2, Reading::Strict, &mut []), (1, [17, 1, 2, 1]));
}
