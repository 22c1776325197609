//! Readings of expression kind 6, the right one and wrong ones, and tables in which
//! it is spelled out with kinds 0 to 5.

use std::collections::BTreeMap;
use std::ops::Range;

use reference::generate::lengths_are_sound;
use reference::small::{self, Case};
use reference::tables::{CHOICE, COMPARISON_CHOICE, EXACTLY_ONE, RANGES};
use reference::Tables;

/// What a program makes of kind 6, given n, a and b.
pub struct Reading {
    pub words: &'static str,
    /// Does check 3 refuse it?
    refuses: fn(u64, u64, u64) -> bool,
    /// The features that it looks at.
    features: fn(u64, u64, u64) -> Range<u64>,
    /// Does it hold where so many of them are on?
    holds: fn(usize) -> bool,
}

pub const RIGHT: Reading = Reading {
    words: "exactly one",
    refuses: |n, a, b| b == 0 || b > 10 || a + b > n,
    features: |_, a, b| a..a + b,
    holds: |on| on == 1,
};

/// The wrong programs that the cases have to tell from the right one. As n is at
/// most 10, a program that lets 11 features through, but looks at where they end, is
/// no wrong one: of the two here one does not look, and one looks in 16 bits.
pub const WRONG: [Reading; 13] = [
    Reading {
        words: "at least one",
        holds: |on| on >= 1,
        ..RIGHT
    },
    Reading {
        words: "at most one",
        holds: |on| on <= 1,
        ..RIGHT
    },
    Reading {
        words: "an odd number",
        holds: |on| on % 2 == 1,
        ..RIGHT
    },
    Reading {
        words: "one feature more",
        features: |_, a, b| a..a + b + 1,
        ..RIGHT
    },
    Reading {
        words: "one feature fewer",
        features: |_, a, b| a..a + b - 1,
        ..RIGHT
    },
    Reading {
        words: "one feature later",
        features: |_, a, b| a + 1..a + b + 1,
        ..RIGHT
    },
    Reading {
        words: "features counted from the top",
        features: |n, a, b| n - a - b..n - a,
        ..RIGHT
    },
    Reading {
        words: "from feature a down",
        features: |_, a, b| (a + 1).saturating_sub(b)..a + 1,
        ..RIGHT
    },
    Reading {
        words: "where the range ends in 16 bits",
        refuses: |n, a, b| b == 0 || b > 10 || (a + b) % 65536 > n,
        ..RIGHT
    },
    Reading {
        words: "a range that ends with the last feature refused",
        refuses: |n, a, b| b == 0 || b > 10 || a + b >= n,
        ..RIGHT
    },
    Reading {
        words: "no features let through",
        refuses: |n, a, b| b > 10 || a + b > n,
        ..RIGHT
    },
    Reading {
        words: "11 features let through, wherever they end",
        refuses: |n, a, b| b == 0 || b > 11 || b < 11 && a + b > n,
        ..RIGHT
    },
    Reading {
        words: "11 features let through, where they end in 16 bits",
        refuses: |n, a, b| b == 0 || b > 11 || (a + b) % 65536 > n,
        ..RIGHT
    },
];

/// What a program with the reading answers. None for a text, for tables that do not
/// get as far as check 3, and where table 0 has no room to spell it out.
pub fn answer(case: &Case, reading: &Reading) -> Option<String> {
    let mut case = case.clone();
    let tables = match &mut case {
        Case::Check { tables, .. }
        | Case::Configure { tables, .. }
        | Case::Find { tables, .. }
        | Case::Page { tables, .. } => tables,
        Case::Text(_) => return None,
    };
    let (new, before) = spelled_out(tables, reading)?;
    *tables = new;
    let answer = small::answer(&case);
    let words: Vec<&str> = answer.split(' ').collect();
    match words[..] {
        ["refused", "3", place, ..] => {
            let place: u64 = place.parse().ok()?;
            Some(format!("refused 3 {} 0 0", place - u64::from(before)))
        }
        _ => Some(answer),
    }
}

/// The tables with kind 6 spelled out as it is read, in expressions that stand
/// before all others; and how many those are. What is refused has an unknown kind.
fn spelled_out(tables: &Tables, reading: &Reading) -> Option<(Tables, u16)> {
    if tables.features > 10 || !lengths_are_sound(tables) {
        return None;
    }
    let mut speller = Speller::new(tables.features);
    let forms = (0..tables.count(0)).map(|form| tables.expression(form));
    let forms: Vec<[u16; 3]> = forms.collect();
    let ranges = forms.iter().map(|&[kind, a, b]| match kind {
        EXACTLY_ONE => speller.range(reading, a, b),
        _ => None,
    });
    let ranges: Vec<Option<u16>> = ranges.collect();
    let before = speller.forms.len() as u16;
    let later = |([kind, a, b], range): ([u16; 3], Option<u16>)| match (kind, range) {
        (3, _) => [kind, a.saturating_add(before), b],
        (4 | 5, _) => [kind, a.saturating_add(before), b.saturating_add(before)],
        (EXACTLY_ONE, Some(number)) => [5, number, number],
        (EXACTLY_ONE, None) => [7, 0, 0],
        _ => [kind, a, b],
    };
    let forms = forms.into_iter().zip(ranges);
    speller.forms.extend(forms.map(later));
    let tables = Tables {
        model: tables.model.saturating_add(u64::from(before)),
        expressions: speller.forms.concat(),
        entries: added(&tables.entries, 2, 1, before, |_| true),
        relations: added(&tables.relations, 2, 0, before, |_| true),
        comparisons: added(&tables.comparisons, 5, 2, before, |form| {
            form[0] == COMPARISON_CHOICE
        }),
        queries: added(&tables.queries, 4, 1, before, |form| form[0] == CHOICE),
        kinds: tables.kinds.clone(),
        ..*tables
    };
    (tables.count(0) <= RANGES[0].1).then_some((tables, before))
}

/// The words of a table, with so much added to one word of each form that names an
/// expression there.
fn added(
    words: &[u16],
    width: usize,
    word: usize,
    more: u16,
    names: fn(&[u16]) -> bool,
) -> Vec<u16> {
    let mut words = words.to_vec();
    for form in words.chunks_mut(width).filter(|form| names(form)) {
        form[word] = form[word].saturating_add(more);
    }
    words
}

/// Makes expressions of kinds 0 to 5 from what they are to say.
struct Speller {
    features: u64,
    forms: Vec<[u16; 3]>,
    /// Numbers of expressions by their values at the configurations of the lowest
    /// features.
    known: BTreeMap<Vec<bool>, u16>,
}

impl Speller {
    /// Each feature has the number 2f, and its negation 2f + 1.
    fn new(features: u64) -> Speller {
        let literals = |f: u16| [[2, f, 0], [3, 2 * f, 0]];
        Speller {
            features,
            forms: (0..features as u16).flat_map(literals).collect(),
            known: BTreeMap::new(),
        }
    }

    /// An expression that says what the reading makes of a range; none where it is
    /// refused.
    fn range(&mut self, reading: &Reading, a: u16, b: u16) -> Option<u16> {
        let (n, a, b) = (self.features, u64::from(a), u64::from(b));
        if (reading.refuses)(n, a, b) {
            return None;
        }
        let value = |c: u64| {
            let range = (reading.features)(n, a, b);
            let on = range.filter(|&f| f < n && c >> f & 1 == 1);
            (reading.holds)(on.count())
        };
        let values: Vec<bool> = (0..1 << n).map(value).collect();
        Some(self.expression(&values))
    }

    /// An expression of these values: the highest feature chooses between one for
    /// each half of them.
    fn expression(&mut self, values: &[bool]) -> u16 {
        if let Some(&number) = self.known.get(values) {
            return number;
        }
        let number = match values {
            [value] => self.add([u16::from(*value), 0, 0]),
            _ => {
                let half = values.len() / 2;
                let [off, on] = [&values[..half], &values[half..]].map(|v| self.expression(v));
                let feature = half.trailing_zeros() as u16;
                self.choice(feature, on, off)
            }
        };
        self.known.insert(values.to_vec(), number);
        number
    }

    /// The one where the feature is on, the other where it is off.
    fn choice(&mut self, feature: u16, on: u16, off: u16) -> u16 {
        if on == off {
            return on;
        }
        let there = self.add([4, 2 * feature, on]);
        let elsewhere = self.add([4, 2 * feature + 1, off]);
        self.add([5, there, elsewhere])
    }

    fn add(&mut self, form: [u16; 3]) -> u16 {
        self.forms.push(form);
        (self.forms.len() - 1) as u16
    }
}
