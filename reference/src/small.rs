//! Small cases with their calls and answers, in a plain format of lines that
//! another tool can turn into statements.

use crate::check::{self, ROWS};
use crate::configure;
use crate::file;
use crate::find;
use crate::generate::{self, LIMITS};
use crate::page::{self, LINE};
use crate::random::Random;
use crate::reading::{Reading, READINGS};
use crate::refusal::{self, Refusal, TYPING};
use crate::tables::Tables;

/// One small case: a call with all that it is given.
#[derive(Clone, Debug)]
pub enum Case {
    /// Checking, with so many words of rows lent.
    Check {
        tables: Tables,
        reading: Reading,
        room: usize,
    },
    /// Configuring at a configuration, with so many words lent for each of
    /// tables 1 to 4.
    Configure {
        tables: Tables,
        reading: Reading,
        c: u64,
        room: [usize; 4],
    },
    /// Finding a configuration with the wanted attributes.
    Find {
        tables: Tables,
        reading: Reading,
        wanted: u64,
    },
    /// The wall page, with so many bytes lent.
    Page {
        tables: Tables,
        reading: Reading,
        room: usize,
    },
    /// The program, given a text.
    Text(Vec<u8>),
}

impl Case {
    pub fn check(tables: Tables, reading: Reading, room: usize) -> Case {
        Case::Check {
            tables,
            reading,
            room,
        }
    }

    /// The tables and the reading; a text has none.
    pub fn tables(&self) -> Option<(&Tables, Reading)> {
        match self {
            Case::Check {
                tables, reading, ..
            }
            | Case::Configure {
                tables, reading, ..
            }
            | Case::Find {
                tables, reading, ..
            }
            | Case::Page {
                tables, reading, ..
            } => Some((tables, *reading)),
            Case::Text(_) => None,
        }
    }
}

/// H1 of docs/FORMAT.md, "Worked examples".
pub const H1: &str = "(head 2 3 0)
(expression 1 0 0)
(expression 2 0 0)
(expression 2 1 0)
(entry 0 0)
(entry 1 0)
(entry 2 2)
(entry 0 0)
(entry 2 2)
(relation 0 3)
(query 1 0 0 0)
(query 3 2 0 0)
";

/// Numbers that few limits, or none, give: the more they lack, the more often
/// they stand here.
const REFUSALS: [u64; 27] = [
    4, 5, 6, 8, 9, 10, 11, 11, 11, 12, 13, 15, 15, 15, 16, 17, 17, 17, 18, 18, 18, 18, 19, 19, 19,
    25, 25,
];

/// What a lent page is before the call: a byte that no line has.
const LENT_BYTE: u8 = 0xA5;

/// The small case of a seed, in either reading.
pub fn case(seed: u64) -> Case {
    let mut random = Random::new(seed ^ 0x0073_6D61_6C6C);
    let reading = Random::new(!seed).pick(&READINGS);
    match random.below(100) {
        0..=19 => Case::check(varied(&mut random, reading), reading, ROWS),
        20..=27 if reading == Reading::Filled => {
            let number = random.pick(&TYPING);
            Case::check(refused(&mut random, reading, number), reading, ROWS)
        }
        20..=36 => {
            // Neighbouring seeds go through all limits.
            let limit = &LIMITS[(seed % LIMITS.len() as u64) as usize];
            let tables = generate::small_limit(&mut random, limit);
            refused_check(&mut random, tables, reading, limit.number)
        }
        37..=47 => {
            let number = random.pick(&REFUSALS);
            let tables = match number {
                11 => accepted(&mut random, reading),
                _ => refused(&mut random, reading, number),
            };
            refused_check(&mut random, tables, reading, number)
        }
        48..=60 => configuring(&mut random, reading),
        61..=77 => finding(&mut random, reading),
        78..=92 => paging(&mut random, reading),
        _ => text(&mut random),
    }
}

/// Tables that the reading accepts; most of those of the filled one have something to
/// fill in.
fn accepted(random: &mut Random, reading: Reading) -> Tables {
    match reading {
        Reading::Filled if random.chance(4, 5) => generate::small_filled(random, 0),
        _ => generate::small_accepted(random),
    }
}

/// Tables that the reading refuses by the number, as far as some tries give it.
fn refused(random: &mut Random, reading: Reading, number: u64) -> Tables {
    match reading {
        Reading::Filled if refusal::is_of_typing(number) => generate::small_filled(random, number),
        _ => generate::small_refused(random, number),
    }
}

/// Accepted tables. Those of one configuration are taken now and then only.
fn varied(random: &mut Random, reading: Reading) -> Tables {
    let mut tables = accepted(random, reading);
    for _ in 0..6 {
        if tables.features > 0 && tables.attributes > 0 && tables.count(4) > 1 {
            break;
        }
        if random.chance(1, 5) {
            break;
        }
        tables = accepted(random, reading);
    }
    tables
}

/// Tables that are refused by the number, with rows to fit: those of another
/// length are refused before 12, and after 10 and 24.
fn refused_check(random: &mut Random, tables: Tables, reading: Reading, number: u64) -> Case {
    let room = match number {
        11 => random.pick(&[0, 1023, 1025]),
        _ if refusal::is_of_form(number) => {
            random.pick(&[ROWS, ROWS, ROWS, ROWS, ROWS, 0, 1023, 1025])
        }
        _ => ROWS,
    };
    Case::check(tables, reading, room)
}

fn configuring(random: &mut Random, reading: Reading) -> Case {
    let kind = random.below(10);
    let mut tables = match kind {
        0 => refused_early(random),
        1 => refused_by_typing(random, reading),
        _ => accepted(random, reading),
    };
    if kind > 1 && random.chance(2, 3) {
        // Configuring writes all comparisons, also those that nothing names.
        generate::more_comparisons(random, &mut tables, 4);
    }
    if kind > 1 && random.chance(2, 3) {
        // So that the order of the attributes changes with the configuration.
        let delayed = |_| generate::delay(random, &mut tables, 8);
        (0..12).find_map(delayed);
    }
    let count = 1u64 << tables.features.min(3);
    let inside = random.word() % count;
    let c = match kind {
        2 => random.pick(&[count, count + 1, 1024, 1 << 16, 1 << 32, 1 << 63, u64::MAX]),
        _ => inside,
    };
    let room = room_for_tables(random, kind, &tables);
    Case::Configure {
        tables,
        reading,
        c,
        room,
    }
}

/// The words lent for tables 1 to 4: as many as the source has, or fewer, or more.
fn room_for_tables(random: &mut Random, kind: usize, tables: &Tables) -> [usize; 4] {
    let mut room = [1, 2, 3, 4].map(|table| tables.words(table).len());
    match kind {
        4 | 5 => {
            let table = random.below(4);
            room[table] = match random.chance(2, 3) {
                true => room[table].saturating_sub(1),
                false => 0,
            };
        }
        6 => room = room.map(|words| words + random.below(4)),
        0..=2 => room = room.map(|words| words.saturating_sub(random.below(2))),
        _ => {}
    }
    room
}

/// Tables that are refused before typing.
fn refused_early(random: &mut Random) -> Tables {
    let number = random.pick(&[1, 2, 3, 4, 5, 6, 7, 8, 9, 10, 24, 24, 24, 12, 13, 14]);
    generate::small_refused(random, number)
}

fn refused_by_typing(random: &mut Random, reading: Reading) -> Tables {
    let number = random.pick(&[15, 16, 17, 18, 19, 25]);
    refused(random, reading, number)
}

/// Accepted tables in eight of ten cases, for a call whose own check comes after
/// 19.
fn mostly_accepted(random: &mut Random, reading: Reading) -> Tables {
    match random.below(10) {
        0 => refused_early(random),
        1 => refused_by_typing(random, reading),
        _ => varied(random, reading),
    }
}

fn finding(random: &mut Random, reading: Reading) -> Case {
    let tables = mostly_accepted(random, reading);
    let wanted = generate::wanted(random, &tables, reading);
    Case::Find {
        tables,
        reading,
        wanted,
    }
}

fn paging(random: &mut Random, reading: Reading) -> Case {
    let tables = mostly_accepted(random, reading);
    let room = generate::page_room(random, &tables);
    Case::Page {
        tables,
        reading,
        room,
    }
}

/// A short harbour file, sound or damaged, whose print is short too.
fn text(random: &mut Random) -> Case {
    loop {
        let mut text = match random.below(4) {
            0 => H1.as_bytes().to_vec(),
            1 => {
                let number = random.pick(&generate::NUMBERS);
                let tables = generate::small_refused(random, number);
                generate::text_of(random.word(), &tables)
            }
            _ => {
                let tables = generate::small_accepted(random);
                generate::text_of(random.word(), &tables)
            }
        };
        if random.chance(11, 20) {
            text = generate::damage(random.word(), &text);
        }
        if text.len() <= 320 && file::print_file(&text).len() <= 320 {
            return Case::Text(text);
        }
    }
}

/// What the case gives, as its lines without the word `gives`. All are one line,
/// but for a page.
pub fn answer(case: &Case) -> String {
    let given = match case {
        Case::Text(text) => return format!("print{}", spaced(&file::print_file(text))),
        _ => answer_of_tables(case),
    };
    given.unwrap_or_else(refused_line)
}

fn answer_of_tables(case: &Case) -> Result<String, Refusal> {
    let (tables, reading) = case.tables().expect("a text has none");
    match case {
        Case::Check { room, .. } => {
            let mut rows = vec![0x5555_AAAA; *room];
            check::check(tables, reading, &mut rows)?;
            Ok(rows_line(&rows))
        }
        Case::Configure { c, room, .. } => {
            let mut out = room.map(|words| vec![0x5A5A; words]);
            let lent = out.each_mut().map(Vec::as_mut_slice);
            let counts = configure::configure(tables, reading, *c, lent)?;
            Ok(written_line(&out, counts))
        }
        Case::Find { wanted, .. } => Ok(match find::find(tables, reading, *wanted)? {
            Some(configuration) => format!("found {configuration}"),
            None => String::from("none"),
        }),
        Case::Page { room, .. } => {
            let mut page = vec![LENT_BYTE; *room];
            let lines = page::page(tables, reading, &mut page);
            if lines.is_err() {
                assert_unchanged(&page);
            }
            Ok(page_lines(&page, lines?))
        }
        Case::Text(_) => panic!("a text has no tables"),
    }
}

fn refused_line(refusal: Refusal) -> String {
    let Refusal {
        number,
        place,
        item,
        configuration,
    } = refusal;
    format!("refused {number} {place} {item} {configuration}")
}

fn rows_line(rows: &[u64]) -> String {
    let words = rows.iter().enumerate().filter(|(_, &word)| word != 0);
    let words: String = words.map(|(i, word)| format!(" {i}:{word}")).collect();
    format!("rows{words}")
}

fn written_line(out: &[Vec<u16>; 4], counts: [usize; 4]) -> String {
    let mut line = String::from("written");
    for (index, letter) in ["E", "R", "C", "Q"].into_iter().enumerate() {
        let count = counts[index];
        let words = count * crate::tables::WIDTHS[index + 1];
        line += &format!(" {letter} {count}{}", spaced(&out[index][..words]));
    }
    line
}

/// The number of lines, and each line without its line feed.
fn page_lines(page: &[u8], lines: usize) -> String {
    let (written, after) = page.split_at(LINE * lines);
    assert_unchanged(after);
    let mut text = format!("page {lines}");
    for line in written.chunks(LINE) {
        let line = line.strip_suffix(b"\n").expect("a line feed ends it");
        text += &format!("\nline {}", String::from_utf8_lossy(line));
    }
    text
}

/// The format has no place for bytes that a call left as they were.
fn assert_unchanged(bytes: &[u8]) {
    assert!(bytes.iter().all(|&byte| byte == LENT_BYTE));
}

/// Numbers, each after a space.
fn spaced<T: std::fmt::Display>(numbers: &[T]) -> String {
    numbers.iter().map(|number| format!(" {number}")).collect()
}

/// The lines of a case, its answer among them. A block without a line that
/// tells the reading is of the strict one.
pub fn lines(number: u64, case: &Case) -> String {
    let (call, asked) = match case {
        Case::Check { room, .. } => ("check", format!("{room}")),
        Case::Configure { c, room, .. } => ("configure", format!("{c}{}", spaced(room))),
        Case::Find { wanted, .. } => ("find", format!("{wanted}")),
        Case::Page { room, .. } => ("page", format!("{room}")),
        Case::Text(text) => ("text", spaced(text)),
    };
    let given = match case.tables() {
        Some((tables, reading)) => {
            let before = format!("{}{}", tables_lines(tables), reading_line(reading));
            format!("{before}call {call} {asked}\n")
        }
        None => format!("text{asked}\n"),
    };
    format!("case {number}\n{given}gives {}\nend\n", answer(case))
}

fn reading_line(reading: Reading) -> &'static str {
    match reading {
        Reading::Strict => "",
        Reading::Filled => "reading filled\n",
    }
}

fn tables_lines(tables: &Tables) -> String {
    let Tables {
        features,
        attributes,
        model,
        ..
    } = tables;
    let mut lines = format!("head {features} {attributes} {model}\n");
    for table in 0..5 {
        lines += &format!("t{table}{}\n", spaced(tables.words(table)));
    }
    lines += &format!("kinds{}\n", spaced(&tables.kinds));
    lines
}
