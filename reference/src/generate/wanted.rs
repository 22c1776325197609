//! Wanted sets for `find`, aimed at its answers and at its limits.

use super::build::{below, bits};
use crate::check::{self, Accepted};
use crate::expression::{self, Permitted};
use crate::random::Random;
use crate::reading::Reading;
use crate::tables::{Tables, MOST_ATTRIBUTES};
use crate::typing::{self, Set};

/// What `find` answers, given accepted tables.
#[derive(Clone, Copy, Debug, PartialEq, Eq)]
pub enum Answer {
    /// The lowest permitted configuration.
    Lowest,
    /// A permitted configuration that is not the lowest.
    Later,
    /// None.
    Nowhere,
    /// 22.
    Refused,
    /// Any of them: it depends on the tables.
    Open,
}

/// One sort of wanted set.
pub struct Aim {
    /// The answer that it is sure to have.
    pub answer: Answer,
    /// The sort, in words.
    pub words: &'static str,
    /// The set; none when the tables give no occasion.
    set: fn(&mut Random, &Report) -> Option<Set>,
}

const fn aim(
    answer: Answer,
    words: &'static str,
    set: fn(&mut Random, &Report) -> Option<Set>,
) -> Aim {
    Aim { answer, words, set }
}

/// How often each answer is aimed at. Many tables give no occasion for none, and
/// some of the open ones are refused.
const SHARES: [Answer; 11] = [
    Answer::Lowest,
    Answer::Lowest,
    Answer::Lowest,
    Answer::Later,
    Answer::Later,
    Answer::Nowhere,
    Answer::Nowhere,
    Answer::Nowhere,
    Answer::Refused,
    Answer::Refused,
    Answer::Open,
];

/// A wanted set for the tables in a reading. The answer is chosen before the aim, so that no
/// answer is rare; refused tables get sets of which nothing but m is known, many
/// of them with a bit at or above m.
pub fn wanted(random: &mut Random, tables: &Tables, reading: Reading) -> u64 {
    let report = Report::of(tables, reading);
    loop {
        let answer = random.pick(&SHARES);
        let mut aims: Vec<&Aim> = AIMS.iter().filter(|aim| aim.answer == answer).collect();
        random.shuffle(&mut aims);
        let mut sets = aims.iter().map(|aim| (aim.set)(random, &report));
        if let Some(set) = sets.find_map(|set| set) {
            return set;
        }
    }
}

/// A wanted set of the given sort; none when the tables give no occasion.
pub fn wanted_by(random: &mut Random, tables: &Tables, reading: Reading, aim: &Aim) -> Option<u64> {
    (aim.set)(random, &Report::of(tables, reading))
}

/// All sorts of wanted sets. Columns are those that the report has.
pub const AIMS: &[Aim] = &[
    aim(Answer::Lowest, "nothing", |_, _| Some(0)),
    aim(Answer::Lowest, "columns of the lowest", |_, r| r.lowest()),
    aim(Answer::Lowest, "some of the lowest", |random, r| {
        Some(r.lowest()? & random.word())
    }),
    aim(Answer::Lowest, "one of the lowest", |random, r| {
        one_of(random, r.lowest()?)
    }),
    aim(Answer::Later, "columns of one", |random, r| {
        r.later(r.some(random)?)
    }),
    aim(Answer::Later, "some of one", some_of_a_later_one),
    aim(Answer::Later, "one that the lowest lacks", |random, r| {
        one_of(random, r.somewhere() & !r.lowest()?)
    }),
    aim(Answer::Later, "columns of the highest", |_, r| {
        r.later(*r.columns().last()?)
    }),
    aim(Answer::Later, "columns that come last", |_, r| {
        r.later(r.last_to_come()?)
    }),
    aim(Answer::Nowhere, "never together", never_together),
    aim(Answer::Nowhere, "two, never together", two_apart),
    aim(Answer::Nowhere, "columns of two", |random, r| {
        let both = |_| r.nowhere(r.some(random)? | r.some(random)?);
        (0..8).find_map(both)
    }),
    aim(
        Answer::Nowhere,
        "columns of one, and one more",
        |random, r| {
            let all = r.some(random)?;
            r.nowhere(all | one_of(random, r.below_m() & !all)?)
        },
    ),
    aim(Answer::Nowhere, "one that is nowhere", |random, r| {
        r.nowhere(one_of(random, r.below_m() & !r.somewhere())?)
    }),
    aim(Answer::Refused, "m", |_, r| r.m()),
    aim(Answer::Refused, "m, and columns of one", |random, r| {
        Some(r.m()? | r.some(random)?)
    }),
    aim(Answer::Refused, "63, above", |_, r| {
        r.m().and(Some(1 << 63))
    }),
    aim(Answer::Refused, "all 64, some above", |_, r| {
        r.m().and(Some(u64::MAX))
    }),
    aim(Answer::Refused, "some above", |random, r| {
        some_of(random, !r.below_m())
    }),
    aim(Answer::Refused, "some above, and others", |random, r| {
        Some(some_of(random, !r.below_m())? | random.word())
    }),
    aim(Answer::Open, "all below m", |_, r| Some(r.below_m())),
    aim(Answer::Open, "m - 1", |_, r| {
        Some(1 << r.attributes().checked_sub(1)?)
    }),
    aim(Answer::Open, "63", |_, _| Some(1 << 63)),
    aim(Answer::Open, "all 64", |_, _| Some(u64::MAX)),
    aim(Answer::Open, "one", |random, r| one_of(random, r.below_m())),
    aim(Answer::Open, "some", |random, r| {
        some_of(random, r.below_m())
    }),
    aim(Answer::Open, "columns of one not permitted", forbidden),
    aim(Answer::Open, "any word", |random, _| Some(random.word())),
];

/// What an aim knows.
struct Report<'a> {
    tables: &'a Tables,
    /// None where the tables are refused.
    accepted: Option<Accepted>,
}

impl Report<'_> {
    fn of(tables: &Tables, reading: Reading) -> Report<'_> {
        let accepted = check::accepted(tables, reading).ok();
        Report { tables, accepted }
    }

    /// m, or 64 where it is over.
    fn attributes(&self) -> u64 {
        self.tables.attributes.min(MOST_ATTRIBUTES)
    }

    /// All attributes.
    fn below_m(&self) -> Set {
        below(self.attributes() as usize)
    }

    /// Bit m, where a set has one.
    fn m(&self) -> Option<Set> {
        1u64.checked_shl(self.attributes() as u32)
    }

    /// The columns at each permitted configuration, ascending.
    fn columns(&self) -> &[Set] {
        self.accepted.as_ref().map_or(&[], |a| &a.columns)
    }

    /// The columns at the lowest permitted configuration.
    fn lowest(&self) -> Option<Set> {
        self.columns().first().copied()
    }

    /// The columns at some permitted configuration.
    fn some(&self, random: &mut Random) -> Option<Set> {
        let columns = self.columns();
        (!columns.is_empty()).then(|| random.pick(columns))
    }

    /// The attributes that are columns anywhere.
    fn somewhere(&self) -> Set {
        self.columns().iter().fold(0, |all, set| all | set)
    }

    /// The place among the permitted configurations of the first that has all.
    fn place(&self, wanted: Set) -> Option<usize> {
        let mut columns = self.columns().iter();
        columns.position(|set| wanted & !set == 0)
    }

    /// The set, when it is had and not at the lowest permitted configuration.
    fn later(&self, wanted: Set) -> Option<Set> {
        (self.place(wanted)? > 0).then_some(wanted)
    }

    /// The set, when the tables are accepted and it is had nowhere.
    fn nowhere(&self, wanted: Set) -> Option<Set> {
        let had = self.accepted.is_none() || self.place(wanted).is_some();
        (!had).then_some(wanted)
    }

    /// The columns whose first place is the last of all first places.
    fn last_to_come(&self) -> Option<Set> {
        let sets = self.columns().iter().copied();
        sets.max_by_key(|&set| self.place(set))
    }
}

/// One attribute of a set.
fn one_of(random: &mut Random, set: Set) -> Option<Set> {
    let attributes = bits(set);
    (!attributes.is_empty()).then(|| 1 << random.pick(&attributes))
}

/// One attribute of a set or more.
fn some_of(random: &mut Random, set: Set) -> Option<Set> {
    Some(one_of(random, set)? | set & random.word())
}

/// Columns of one configuration, one of which the lowest lacks.
fn some_of_a_later_one(random: &mut Random, report: &Report) -> Option<Set> {
    let all = report.some(random)?;
    let new = one_of(random, all & !report.lowest()?)?;
    Some(all & random.word() | new)
}

/// Attributes that are columns each somewhere, and at no permitted
/// configuration all.
fn never_together(random: &mut Random, report: &Report) -> Option<Set> {
    let mut attributes = bits(report.somewhere());
    random.shuffle(&mut attributes);
    let mut wanted = 0;
    for attribute in attributes {
        wanted |= 1 << attribute;
        if report.place(wanted).is_none() {
            return Some(wanted);
        }
    }
    None
}

/// Two such attributes.
fn two_apart(random: &mut Random, report: &Report) -> Option<Set> {
    let one = one_of(random, report.somewhere())?;
    let others = bits(report.somewhere()).into_iter();
    let apart = others.filter(|other| report.place(one | 1 << other).is_none());
    Some(one | one_of(random, apart.fold(0, |all, other| all | 1 << other))?)
}

/// The columns that the report would have at a configuration that is not
/// permitted, below all permitted ones that have them.
fn forbidden(random: &mut Random, report: &Report) -> Option<Set> {
    let Accepted {
        lists, permitted, ..
    } = report.accepted.as_ref()?;
    for _ in 0..8 {
        let configuration = random.word() % report.tables.configurations();
        let at = Permitted {
            configuration,
            holds: expression::values(report.tables, configuration),
        };
        if at.holds[report.tables.model as usize] {
            continue;
        }
        let Ok(set) = typing::report_at(report.tables, lists, &at) else {
            continue;
        };
        let place = report.place(set);
        if place.is_none_or(|place| permitted[place].configuration > configuration) {
            return Some(set);
        }
    }
    None
}
