//! Raw damage to tables: words and lengths that no writer of tables would give.

use reference::random::Random;
use reference::tables::{Tables, EXACTLY_ONE, PROJECT, RANGES, WIDTHS, WITH_CONSTANT};

/// One to three damages. Some of them leave the tables sound.
pub fn damage(random: &mut Random, tables: &mut Tables) {
    for _ in 0..random.pick(&[1, 1, 1, 1, 2, 3]) {
        match random.below(20) {
            0..=3 => change_words(random, tables),
            4..=6 => change_forms(random, tables),
            7 | 8 => change_reference(random, tables),
            9 => change_head(random, tables),
            10 | 11 => change_length(random, tables),
            12 => fill_up(random, tables),
            13 => lengthen(random, tables),
            14 | 15 => change_range(random, tables),
            16 | 17 => change_kinds(random, tables),
            _ => pass_16_bits(random, tables),
        }
    }
}

fn any_table(random: &mut Random) -> usize {
    random.pick(&[0, 1, 2, 3, 4, 4])
}

/// Flips bits of some words, or puts a number of the limits in their place.
fn change_words(random: &mut Random, tables: &mut Tables) {
    let words = tables.words_mut(any_table(random));
    if words.is_empty() {
        return;
    }
    for _ in 0..random.pick(&[1, 1, 1, 2, 5]) {
        let at = random.below(words.len());
        match random.below(3) {
            0 => words[at] ^= 1 << random.below(16),
            1 => words[at] ^= 1 << random.below(4),
            _ => {
                let limits = [
                    0, 1, 2, 3, 5, 6, 7, 8, 10, 31, 63, 64, 255, 256, 511, 512, 32768, 65535,
                ];
                words[at] = random.pick(&limits);
            }
        }
    }
}

/// Repeats, drops or swaps whole forms.
fn change_forms(random: &mut Random, tables: &mut Tables) {
    let table = any_table(random);
    let width = WIDTHS[table];
    let count = tables.count(table);
    if count == 0 {
        return;
    }
    let (one, other) = (random.below(count), random.below(count));
    let words = tables.words_mut(table);
    let form = words[one * width..(one + 1) * width].to_vec();
    match random.below(4) {
        0 => drop(words.splice(other * width..other * width, form)),
        1 => drop(words.drain(one * width..(one + 1) * width)),
        2 => drop(words.splice(other * width..(other + 1) * width, form)),
        _ => (0..width).for_each(|word| words.swap(one * width + word, other * width + word)),
    }
}

/// A word of a form becomes a number close to the form's own, to another form's
/// word at the same place, or to the number of forms of a table.
fn change_reference(random: &mut Random, tables: &mut Tables) {
    let table = any_table(random);
    let width = WIDTHS[table];
    let count = tables.count(table);
    if count == 0 {
        return;
    }
    let (form, other) = (random.below(count), random.below(count));
    let word = random.below(width);
    let number = match random.below(5) {
        0 => form,
        1 => form.saturating_sub(1),
        2 => form + 1,
        3 => usize::from(tables.words(table)[other * width + word]),
        _ => tables
            .count(any_table(random))
            .saturating_sub(random.below(2)),
    };
    tables.words_mut(table)[form * width + word] = number as u16;
}

/// An expression becomes exactly one of a range of features at its limits: of none,
/// of all, of 10, of 11, of 65535; up to n, past it by one, or past 65535.
fn change_range(random: &mut Random, tables: &mut Tables) {
    let forms = tables.count(0);
    if forms == 0 {
        return;
    }
    let form = random.below(forms);
    let features = tables.features as u16;
    let more = features.wrapping_add(1);
    let count = random.pick(&[0, 1, 2, features, more, 10, 11, 65535]);
    let small = random.below(12) as u16;
    let end = random.pick(&[features, features, more, more, small]);
    // A count that is higher than the end starts it below 0, so near 65535.
    let first = end.wrapping_sub(count);
    tables.expressions[3 * form..3 * form + 3].copy_from_slice(&[EXACTLY_ONE, first, count]);
}

/// Cuts the kind table or lengthens it, also to lengths that are m in 16 bits, or
/// changes one of its words, or a constant's kind.
fn change_kinds(random: &mut Random, tables: &mut Tables) {
    let kind = random.pick(&[0, 1, 2, 2, 3, 3, 4, 255, 256, 258, 32768, 65535]);
    let words = tables.kinds.len();
    let constants: Vec<usize> = (0..tables.count(3))
        .filter(|&form| tables.comparison(form)[0] == WITH_CONSTANT)
        .collect();
    match random.below(5) {
        0 => tables.kinds.truncate(random.below(words + 1)),
        1 => {
            let lengths = [0, words + 1, 64, 65, 65_536, 65_536 + words, 70_000];
            tables.kinds.resize(random.pick(&lengths), kind % 3);
        }
        2 | 3 if words > 0 => tables.kinds[random.below(words)] = kind,
        _ if !constants.is_empty() => {
            let form = random.pick(&constants);
            tables.comparisons[5 * form + 4] = kind;
        }
        _ => {}
    }
}

fn change_head(random: &mut Random, tables: &mut Tables) {
    let near = tables.count(0) as u64;
    let small = random.below(70) as u64;
    let far = [1 << 8, 1 << 16, 1 << 32, 1 << 63, u64::MAX];
    match random.below(6) {
        0 => tables.features = random.pick(&[0, 9, 10, 11, 63, 64, small]),
        1 => tables.attributes = random.pick(&[0, 63, 64, 65, 127, 128, small]),
        2 => tables.model = random.pick(&[near.saturating_sub(1), near, near + 1, 255, 256]),
        // The same number again in the low bits.
        3 => tables.features = tables.features.wrapping_add(random.pick(&far)),
        4 => tables.attributes = tables.attributes.wrapping_add(random.pick(&far)),
        _ => tables.model = tables.model.wrapping_add(random.pick(&far)),
    }
}

/// Cuts a table short, or adds some words: often no multiple of its form.
fn change_length(random: &mut Random, tables: &mut Tables) {
    let table = any_table(random);
    let words = tables.words_mut(table);
    match random.below(5) {
        0 => words.truncate(random.below(words.len() + 1)),
        1 => words.truncate(words.len().saturating_sub(random.between(1, 6))),
        2 => words.clear(),
        _ => {
            for _ in 0..random.between(1, 6) {
                words.push(random.pick(&[0, 0, 0, 1, 2, 65535]));
            }
        }
    }
}

/// Repeats the last form until there are as many as allowed, or one more or
/// less.
fn fill_up(random: &mut Random, tables: &mut Tables) {
    let table = any_table(random);
    let count = RANGES[table].1 + random.below(3) - 1;
    repeat(tables, table, count * WIDTHS[table]);
}

/// Up to 70,000 words.
fn lengthen(random: &mut Random, tables: &mut Tables) {
    let table = any_table(random);
    let long = random.between(600, 70_000);
    let length = random.pick(&[long, 65_535, 65_536, 65_536 + 3 * WIDTHS[table], 70_000]);
    repeat(tables, table, length);
}

fn repeat(tables: &mut Tables, table: usize, length: usize) {
    let width = WIDTHS[table];
    let words = tables.words_mut(table);
    let last = words[words.len().saturating_sub(width)..].to_vec();
    let mut more = last.into_iter().cycle();
    while words.len() < length {
        words.push(more.next().unwrap_or(0));
    }
    words.truncate(length);
}

/// A list so long that where it ends, counted in 16 bits, is in table 1 again.
fn pass_16_bits(random: &mut Random, tables: &mut Tables) {
    let relations = tables.count(2);
    let starts: Vec<usize> = (0..relations)
        .scan(0, |end, relation| {
            let start = *end;
            *end += usize::from(tables.relation(relation)[1]);
            Some(start)
        })
        .collect();
    let all: usize = (0..relations)
        .map(|r| usize::from(tables.relation(r)[1]))
        .sum();
    let more = random.below(tables.count(1) + 2);
    if relations > 0 && random.chance(1, 2) {
        let relation = random.below(relations);
        tables.relations[2 * relation + 1] = 0u16
            .wrapping_sub(starts[relation] as u16)
            .wrapping_add(more as u16);
        return;
    }
    let projects: Vec<usize> = (0..tables.count(4))
        .filter(|&q| tables.query(q)[0] == PROJECT)
        .collect();
    if projects.is_empty() {
        return;
    }
    let chosen = random.pick(&projects);
    let before = projects.iter().take_while(|&&q| q < chosen);
    let start = all
        + before
            .map(|&q| usize::from(tables.query(q)[1]))
            .sum::<usize>();
    tables.queries[4 * chosen + 1] = 0u16.wrapping_sub(start as u16).wrapping_add(more as u16);
}
