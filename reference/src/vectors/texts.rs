//! Texts: each way in which a line is right or wrong, out of order or past its
//! table's range, and each length that matters.

use super::{Vector, SEED};
use crate::file::{write_file, MOST_BYTES};
use crate::generate;

/// H1 with a comparison and a select, so that every group has a line.
/// Accepted.
const SAMPLE: &str = "(head 2 3 0)
(expression 1 0 0)
(expression 2 0 0)
(expression 2 1 0)
(entry 0 0)
(entry 1 0)
(entry 2 2)
(entry 0 0)
(entry 2 2)
(relation 0 3)
(comparison 2 4 0 500 0)
(query 1 0 0 0)
(query 3 2 0 0)
(query 2 0 1 0)
";

/// The lines of the groups after the head, with the most that a file may have.
const LINES: [(&str, &str, usize); 5] = [
    ("expression", "(expression 1 0 0)\n", 256),
    ("entry", "(entry 0 0)\n", 512),
    ("relation", "(relation 0 0)\n", 32),
    ("comparison", "(comparison 1 0 0 0 0)\n", 256),
    ("query", "(query 0 0 0 0)\n", 256),
];

/// Damaged texts are kept when they are not longer than this.
const DAMAGED_BYTES: usize = 2500;
const DAMAGED: usize = 90;

pub fn cases() -> Vec<Vector> {
    let mut cases = vec![Vector::new("sample-of-all-groups", SAMPLE)];
    cases.extend(changes(CHANGES));
    cases.extend(changes(NUMBERS));
    cases.extend(counts_of_numbers());
    cases.extend(short_files());
    cases.extend(ends());
    cases.extend(all_lines());
    cases.extend(orders());
    cases.extend(missing_groups());
    cases.extend(ranges());
    cases.extend(line_numbers());
    cases.extend(lengths());
    cases.extend(long_lines());
    cases.extend(damaged());
    cases
}

/// The sample with the first place that has the old text changed.
fn changed(old: &[u8], new: &[u8]) -> Vec<u8> {
    let sample = SAMPLE.as_bytes();
    let at = sample
        .windows(old.len())
        .position(|window| window == old)
        .expect("the sample has the text to be changed");
    [&sample[..at], new, &sample[at + old.len()..]].concat()
}

/// A name, a text of the sample, and what stands there instead.
type Change = (&'static str, &'static [u8], &'static [u8]);

fn changes(all: &[Change]) -> impl Iterator<Item = Vector> + '_ {
    all.iter()
        .map(|(name, old, new)| Vector::new(name, changed(old, new)))
}

const CHANGES: &[Change] = &[
    ("two-spaces-after-the-word", b"(entry 1 0)", b"(entry  1 0)"),
    (
        "two-spaces-between-numbers",
        b"(entry 1 0)",
        b"(entry 1  0)",
    ),
    ("space-before-the-close", b"(entry 1 0)", b"(entry 1 0 )"),
    ("trailing-space", b"(entry 1 0)\n", b"(entry 1 0) \n"),
    ("leading-space", b"(entry 1 0)", b" (entry 1 0)"),
    ("space-after-the-open", b"(entry 1 0)", b"( entry 1 0)"),
    ("no-space-after-the-word", b"(entry 1 0)", b"(entry1 0)"),
    (
        "no-space-between-numbers",
        b"(query 3 2 0 0)",
        b"(query 3 2 00)",
    ),
    ("tab-after-the-word", b"(entry 1 0)", b"(entry\t1 0)"),
    ("tab-between-numbers", b"(entry 1 0)", b"(entry 1\t0)"),
    ("trailing-tab", b"(entry 1 0)\n", b"(entry 1 0)\t\n"),
    ("vertical-tab", b"(entry 1 0)", b"(entry\x0b1 0)"),
    ("form-feed", b"(entry 1 0)", b"(entry 1\x0c0)"),
    ("no-break-space", b"(entry 1 0)", b"(entry\xa01 0)"),
    ("comma", b"(entry 1 0)", b"(entry 1,0)"),
    ("head-with-a-leading-space", b"(head", b" (head"),
    ("upper-case-letter", b"(entry 1 0)", b"(Entry 1 0)"),
    ("upper-case-word", b"(entry 1 0)", b"(ENTRY 1 0)"),
    ("upper-case-head", b"(head", b"(HEAD"),
    ("unknown-word", b"(entry 1 0)", b"(note 1 0)"),
    ("unknown-word-first", b"(head", b"(file"),
    ("unknown-word-last", b"(query 2 0 1 0)", b"(report 2 0 1 0)"),
    ("word-a-letter-short", b"(entry 1 0)", b"(entr 1 0)"),
    ("word-a-letter-longer", b"(entry 1 0)", b"(entrys 1 0)"),
    ("word-of-one-letter", b"(entry 1 0)", b"(e 1 0)"),
    ("word-in-the-plural", b"(entry 1 0)", b"(entries 1 0)"),
    ("word-twice", b"(entry 1 0)", b"(entryentry 1 0)"),
    (
        "word-with-its-last-letter-changed",
        b"(entry 1 0)",
        b"(entrx 1 0)",
    ),
    (
        "word-with-its-first-letter-changed",
        b"(query 1",
        b"(puery 1",
    ),
    ("no-word", b"(entry 1 0)", b"( 1 0)"),
    ("numbers-only", b"(entry 1 0)", b"(1 0)"),
    ("word-only", b"(entry 1 0)", b"(entry)"),
    ("word-and-a-space", b"(entry 1 0)", b"(entry )"),
    ("empty-brackets", b"(entry 1 0)", b"()"),
    ("open-bracket-only", b"(entry 1 0)", b"("),
    ("close-bracket-only", b"(entry 1 0)", b")"),
    ("no-open-bracket", b"(entry 1 0)", b"entry 1 0)"),
    ("no-close-bracket", b"(entry 1 0)", b"(entry 1 0"),
    ("two-open-brackets", b"(entry 1 0)", b"((entry 1 0)"),
    ("two-close-brackets", b"(entry 1 0)", b"(entry 1 0))"),
    ("square-brackets", b"(entry 1 0)", b"[entry 1 0]"),
    ("brackets-exchanged", b"(entry 1 0)", b")entry 1 0("),
    ("brackets-in-brackets", b"(entry 1 0)", b"(entry (1 0))"),
    ("number-before-the-word", b"(entry 1 0)", b"(1 entry 0)"),
    (
        "comment-behind-a-line",
        b"(entry 1 0)",
        b"(entry 1 0) ; berth",
    ),
    ("comment-line", b"(entry 1 0)", b"; berth\n(entry 1 0)"),
    ("two-forms-on-a-line", b"(entry 1 0)\n", b"(entry 1 0)"),
    ("form-on-two-lines", b"(entry 1 0)", b"(entry 1\n0)"),
    (
        "carriage-return-before-a-line-feed",
        b"(entry 1 0)\n",
        b"(entry 1 0)\r\n",
    ),
    (
        "carriage-return-after-a-line-feed",
        b"(entry 1 0)\n",
        b"(entry 1 0)\n\r",
    ),
    (
        "carriage-return-for-a-line-feed",
        b"(entry 1 0)\n",
        b"(entry 1 0)\r",
    ),
    ("empty-line-first", b"(head", b"\n(head"),
    (
        "empty-line-after-the-head",
        b"(head 2 3 0)\n",
        b"(head 2 3 0)\n\n",
    ),
    (
        "empty-line-in-the-middle",
        b"(entry 1 0)\n",
        b"(entry 1 0)\n\n",
    ),
    ("line-of-one-space", b"(entry 1 0)\n", b"(entry 1 0)\n \n"),
    ("byte-order-mark", b"(head", b"\xef\xbb\xbf(head"),
    ("letter-over-127", b"(entry 1 0)", b"(entr\xfd 1 0)"),
    ("bracket-over-127", b"(entry 1 0)", b"\xa8entry 1 0)"),
    ("line-of-byte-255", b"(entry 1 0)\n", b"\xff\xff\xff\xff\n"),
    ("nul-for-a-digit", b"(entry 1 0)", b"(entry \x00 0)"),
    ("nul-after-a-digit", b"(entry 1 0)", b"(entry 1\x00 0)"),
    ("nul-for-a-space", b"(entry 1 0)", b"(entry\x001 0)"),
    ("nul-for-a-line-feed", b"(entry 1 0)\n", b"(entry 1 0)\x00"),
    (
        "nul-before-a-line-feed",
        b"(entry 1 0)\n",
        b"(entry 1 0)\x00\n",
    ),
    ("nul-first", b"(head", b"\x00(head"),
    (
        "two-bad-lines",
        b"(entry 1 0)\n(entry 2 2)\n",
        b"(entry 1)\n(entry 2)\n",
    ),
    (
        "bad-line-after-11-features",
        b"(head 2 3 0)\n(expression 1",
        b"(head 11 3 0)\n(expression x",
    ),
    (
        "bad-line-after-a-refused-one",
        b"(entry 1 0)\n(entry 2 2)",
        b"(entry 9 0)\n(entry 2 02)",
    ),
];

const NUMBERS: &[Change] = &[
    ("number-65535", b" 500 ", b" 65535 "),
    ("number-65536", b" 500 ", b" 65536 "),
    ("number-65537", b" 500 ", b" 65537 "),
    ("number-65529", b" 500 ", b" 65529 "),
    ("number-65540", b" 500 ", b" 65540 "),
    ("number-66000", b" 500 ", b" 66000 "),
    ("number-99999", b" 500 ", b" 99999 "),
    ("number-100000", b" 500 ", b" 100000 "),
    ("number-131071", b" 500 ", b" 131071 "),
    ("number-131072", b" 500 ", b" 131072 "),
    ("number-655350", b" 500 ", b" 655350 "),
    ("number-4294967296", b" 500 ", b" 4294967296 "),
    ("number-4294967796", b" 500 ", b" 4294967796 "),
    (
        "number-18446744073709551615",
        b" 500 ",
        b" 18446744073709551615 ",
    ),
    (
        "number-18446744073709551616",
        b" 500 ",
        b" 18446744073709551616 ",
    ),
    (
        "number-18446744073709552116",
        b" 500 ",
        b" 18446744073709552116 ",
    ),
    ("number-0", b" 500 ", b" 0 "),
    ("number-00", b" 500 ", b" 00 "),
    ("number-01", b" 500 ", b" 01 "),
    ("number-0500", b" 500 ", b" 0500 "),
    ("number-065535", b" 500 ", b" 065535 "),
    (
        "number-00000000000000000500",
        b" 500 ",
        b" 00000000000000000500 ",
    ),
    ("number-minus-1", b" 500 ", b" -1 "),
    ("number-minus-0", b" 500 ", b" -0 "),
    ("number-plus-500", b" 500 ", b" +500 "),
    ("number-500.0", b" 500 ", b" 500.0 "),
    ("number-5e2", b" 500 ", b" 5e2 "),
    ("number-0x1f4", b" 500 ", b" 0x1f4 "),
    ("number-with-letters-o", b" 500 ", b" 5OO "),
    ("number-with-the-byte-before-0", b" 500 ", b" 5/0 "),
    ("number-with-the-byte-after-9", b" 500 ", b" 5:0 "),
    ("number-with-a-digit-over-127", b" 500 ", b" 5\xb00 "),
    ("number-with-a-thousands-comma", b" 500 ", b" 1,500 "),
    ("number-missing", b" 500 ", b"  "),
    ("number-in-words", b" 500 ", b" five "),
    ("number-in-quotes", b" 500 ", b" \"500\" "),
    (
        "head-of-65535-features",
        b"(head 2 3 0)",
        b"(head 65535 3 0)",
    ),
    (
        "head-of-65536-features",
        b"(head 2 3 0)",
        b"(head 65536 3 0)",
    ),
    ("head-of-02-features", b"(head 2 3 0)", b"(head 02 3 0)"),
    (
        "head-with-model-65535",
        b"(head 2 3 0)",
        b"(head 2 3 65535)",
    ),
    (
        "head-with-model-65536",
        b"(head 2 3 0)",
        b"(head 2 3 65536)",
    ),
    ("last-number-01", b"(query 2 0 1 0)", b"(query 2 0 01 0)"),
    ("last-number-00", b"(query 2 0 1 0)", b"(query 2 0 1 00)"),
];

/// Each group's line with a number too few and a number too many.
fn counts_of_numbers() -> Vec<Vector> {
    let mut cases = Vec::new();
    for line in [
        "(head 2 3 0)",
        "(expression 2 1 0)",
        "(entry 2 2)",
        "(relation 0 3)",
        "(comparison 2 4 0 500 0)",
        "(query 3 2 0 0)",
    ] {
        let word = &line[1..line.find(' ').unwrap_or(1)];
        let fewer = &line[..line.rfind(' ').unwrap_or(1)];
        let few = changed(line.as_bytes(), format!("{fewer})").as_bytes());
        cases.push(Vector::new(&format!("{word}-with-a-number-too-few"), few));
        let many = changed(line.as_bytes(), format!("{fewer} 0 0)").as_bytes());
        cases.push(Vector::new(&format!("{word}-with-a-number-too-many"), many));
    }
    cases
}

/// Files of a line or two.
fn short_files() -> Vec<Vector> {
    vec![
        Vector::new("empty-file", ""),
        Vector::new("line-feed-only", "\n"),
        Vector::new("carriage-return-and-line-feed-only", "\r\n"),
        Vector::new("open-bracket-and-no-more", "("),
        Vector::new("nul-and-no-more", "\0"),
        Vector::new("head-only", "(head 2 3 0)\n"),
        Vector::new("head-without-line-feed", "(head 2 3 0)"),
        Vector::new("half-a-head", "(head 2 3"),
        Vector::new("head-of-11-features-only", "(head 11 3 0)\n"),
        Vector::new("no-queries", "(head 2 3 0)\n(expression 1 0 0)\n"),
        Vector::new("no-expressions", "(head 2 3 0)\n(query 0 0 0 0)\n"),
    ]
}

/// Where a file ends, and what stands after its last line.
fn ends() -> Vec<Vector> {
    let cut = |bytes: usize| &SAMPLE[..SAMPLE.len() - bytes];
    let with = |more: &str| SAMPLE.to_string() + more;
    vec![
        Vector::new("no-last-line-feed", cut(1)),
        Vector::new("no-last-bracket", cut(2)),
        Vector::new("last-bracket-cut", cut(2).to_string() + "\n"),
        Vector::new("no-last-number", cut(3)),
        Vector::new("no-last-line", cut("(query 2 0 1 0)\n".len())),
        Vector::new("empty-line-last", with("\n")),
        Vector::new("two-empty-lines-last", with("\n\n")),
        Vector::new("carriage-return-and-line-feed-last", with("\r\n")),
        Vector::new("letter-after-the-last-line", with("x")),
        Vector::new("space-after-the-last-line", with(" ")),
        Vector::new("open-bracket-after-the-last-line", with("(")),
        Vector::new("word-after-the-last-line", with("end\n")),
        Vector::new("nul-after-the-last-line", with("\0")),
        Vector::new("half-a-query-after-the-last-line", with("(query 0 0")),
        Vector::new("end-of-file-byte-after-the-last-line", with("\x1a")),
        Vector::new("entry-after-the-last-line", with("(entry 0 0)\n")),
        Vector::new("query-after-the-last-line", with("(query 0 0 0 0)\n")),
    ]
}

/// The same change to all lines.
fn all_lines() -> Vec<Vector> {
    vec![
        Vector::new("all-lines-end-in-cr-lf", SAMPLE.replace('\n', "\r\n")),
        Vector::new("all-lines-end-in-cr", SAMPLE.replace('\n', "\r")),
        Vector::new("all-lines-end-in-lf-cr", SAMPLE.replace('\n', "\n\r")),
        Vector::new("all-in-upper-case", SAMPLE.to_uppercase()),
        Vector::new("all-on-one-line", SAMPLE.replace('\n', " ")),
        Vector::new("all-spaces-doubled", SAMPLE.replace(' ', "  ")),
        Vector::new("twice-the-same-file", SAMPLE.repeat(2)),
    ]
}

/// Heads and groups in other places.
fn orders() -> Vec<Vector> {
    let lines: Vec<&str> = SAMPLE.split_inclusive('\n').collect();
    let moved = |from: usize, to: usize| {
        let mut lines = lines.clone();
        let line = lines.remove(from - 1);
        lines.insert(to - 1, line);
        lines.concat()
    };
    let with = |line: &str, at: usize| {
        let mut lines = lines.clone();
        lines.insert(at - 1, line);
        lines.concat()
    };
    vec![
        Vector::new("second-head", with(lines[0], 2)),
        Vector::new("second-head-before-the-entries", with(lines[0], 5)),
        Vector::new("second-head-last", with(lines[0], 15)),
        Vector::new("second-head-another", with("(head 0 0 0)\n", 2)),
        Vector::new("no-head", lines[1..].concat()),
        Vector::new("head-second", moved(1, 2)),
        Vector::new("head-last", moved(1, 14)),
        Vector::new("entry-before-an-expression", moved(5, 4)),
        Vector::new("relation-before-an-entry", moved(10, 9)),
        Vector::new("comparison-before-a-relation", moved(11, 10)),
        Vector::new("query-before-a-comparison", moved(12, 11)),
        Vector::new("expression-among-the-entries", moved(4, 6)),
        Vector::new("expression-last", moved(4, 14)),
        Vector::new("entry-among-the-queries", moved(9, 13)),
        Vector::new("relation-last", moved(10, 14)),
        Vector::new("comparison-among-the-queries", moved(11, 12)),
        Vector::new("comparison-last", moved(11, 14)),
        Vector::new("query-after-the-head", moved(12, 2)),
        Vector::new("groups-reversed", {
            let reversed: Vec<&str> = lines[1..].iter().rev().copied().collect();
            lines[0].to_string() + &reversed.concat()
        }),
        Vector::new("two-entries-exchanged", moved(5, 6)),
    ]
}

/// Groups left out.
fn missing_groups() -> Vec<Vector> {
    let without = |start: &str| {
        let lines = SAMPLE.split_inclusive('\n');
        let kept = lines.filter(|line| !line.starts_with(start));
        kept.collect::<String>()
    };
    vec![
        Vector::new("no-comparisons-and-a-select", without("(comparison")),
        Vector::new("no-relations", without("(relation")),
        Vector::new("no-entries", without("(entry")),
    ]
}

/// Each table full, and with one line more than full; and all of them.
fn ranges() -> Vec<Vector> {
    let mut cases = Vec::new();
    let mut all = String::from("(head 2 3 0)\n");
    for (word, line, most) in LINES {
        let full = format!("(head 2 3 0)\n{}", line.repeat(most));
        let over = format!("{full}{line}");
        cases.push(Vector::new(&format!("{most}-lines-of-{word}"), full));
        cases.push(Vector::new(&format!("{}-lines-of-{word}", most + 1), over));
        all += &line.repeat(most);
    }
    cases.push(Vector::new("every-table-full", all.clone()));
    cases.push(Vector::new("every-table-full-and-a-query-more", {
        all.clone() + LINES[4].1
    }));
    cases.push(Vector::new("every-table-full-and-a-head-more", {
        all + "(head 2 3 0)\n"
    }));
    cases.push(Vector::new("33-relations-among-good-lines", {
        let relations = "(relation 0 3)\n".to_string() + &"(relation 0 0)\n".repeat(32);
        SAMPLE.replace("(relation 0 3)\n", &relations)
    }));
    cases
}

/// The first bad line far down: its number has more digits.
fn line_numbers() -> Vec<Vector> {
    let mut good = vec!["(head 2 3 0)\n"];
    for (_, line, most) in LINES {
        good.extend(std::iter::repeat_n(line, most));
    }
    let bad_at = |number: usize| {
        let mut lines = good.clone();
        lines[number - 1] = "(query 0 0 0 0) \n";
        lines.concat()
    };
    let numbers = [2, 9, 10, 11, 99, 100, 101, 255, 256, 999, 1000, 1313];
    numbers
        .map(|number| Vector::new(&format!("bad-line-{number}"), bad_at(number)))
        .to_vec()
}

/// Lengths around 65,536 bytes.
fn lengths() -> Vec<Vector> {
    let query = LINES[4].1;
    let mut cases = Vec::new();
    for length in [MOST_BYTES - 1, MOST_BYTES, MOST_BYTES + 1] {
        let mut add = |name: &str, start: &str, with: &str| {
            let text = filled(start, with, length);
            cases.push(Vector::new(&format!("{length}-bytes-{name}"), text));
        };
        add("good-lines", SAMPLE, query);
        add("a-good-file-and-spaces", SAMPLE, " ");
        if length >= MOST_BYTES {
            add("a-bad-first-line", "(heed 2 3 0)\n", query);
            add("no-line-feed", "", "(head 2 3 0)");
            add("line-feeds-only", "", "\n");
        }
    }
    let twice = filled(SAMPLE, query, 2 * MOST_BYTES);
    cases.push(Vector::new("131072-bytes", twice));
    cases
}

/// A text of the given length: the start, and the other text over and over.
fn filled(start: &str, with: &str, length: usize) -> String {
    let mut text = start.to_string();
    while text.len() < length {
        text += with;
    }
    text.truncate(length);
    text
}

/// The longest file of good lines; long numbers, words and lines.
fn long_lines() -> Vec<Vector> {
    let with = |old: &str, new: String| changed(old.as_bytes(), new.as_bytes());
    let number = |digit: &str| with(" 500 ", format!(" {} ", digit.repeat(40_000)));
    let word = format!("(entr{} ", "y".repeat(40_000));
    let line = format!("(entry 1{})", " 0".repeat(20_000));
    let over = longest("(head 65535 65535 65535)\n");
    let in_range = longest("(head 10 64 0)\n");
    vec![
        Vector::new("longest-file-of-good-lines", over),
        Vector::new("longest-file-with-a-head-in-range", in_range),
        Vector::new("number-of-40000-nines", number("9")),
        Vector::new("number-of-40000-zeros", number("0")),
        Vector::new("word-of-40000-letters", with("(entry ", word)),
        Vector::new("line-of-20000-numbers", with("(entry 1 0)", line)),
    ]
}

/// Every table full and every number 65535.
fn longest(head: &str) -> String {
    let mut text = head.to_string();
    for (_, line, most) in LINES {
        let numbers = line.matches(' ').count();
        let word = &line[..line.find(' ').unwrap_or(0)];
        text += &format!("{word}{})\n", " 65535".repeat(numbers)).repeat(most);
    }
    text += &"(kind 65535)\n".repeat(64);
    text
}

/// Damage by the generator: to the sample, and to small reports.
fn damaged() -> Vec<Vector> {
    let mut cases = Vec::new();
    let mut seed = SEED;
    while cases.len() < DAMAGED {
        seed += 1;
        let text = match seed % 3 {
            0 => SAMPLE.as_bytes().to_vec(),
            _ => write_file(&generate::small(seed)),
        };
        let damaged = generate::damage(seed, &text);
        if damaged.len() <= DAMAGED_BYTES && damaged != text {
            let name = format!("damaged-{}", cases.len() + 1);
            cases.push(Vector::new(&name, damaged));
        }
    }
    cases
}
