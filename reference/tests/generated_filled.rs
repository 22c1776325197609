//! The promises of the filled reading over generated tables, and what the generator covers
//! of it.

use std::collections::{BTreeMap, BTreeSet};
use std::sync::OnceLock;

use crate::common::filled_trees::{Report, RIGHT, WRONG};
use crate::common::{checked, checked_in, configured_in, lists_at, made, source_room, written};
use reference::check::shown;
use reference::generate;
use reference::page::LINE;
use reference::plain::{self, Attributes};
use reference::random::Random;
use reference::refusal::is_of_typing;
use reference::tables::{PROJECT, RELATION};
use reference::{expression, filled, find, form, page, Reading, Refusal, Tables};

/// Tables, with the rows or the refusal of each reading.
struct Judged {
    tables: Tables,
    permitted: Vec<u64>,
    strict: Result<Vec<u64>, Refusal>,
    filled: Result<Vec<u64>, Refusal>,
}

impl Judged {
    fn of(tables: Tables) -> Judged {
        let [strict, filled] = [Reading::Strict, Reading::Filled].map(|r| checked_in(&tables, r));
        let gets_to_typing = match &strict {
            Err(refusal) => is_of_typing(refusal.number),
            Ok(_) => true,
        };
        let permitted = match gets_to_typing {
            true => expression::permitted(&tables),
            false => vec![],
        };
        Judged {
            permitted: permitted.iter().map(|at| at.configuration).collect(),
            tables,
            strict,
            filled,
        }
    }

    fn size(&self) -> usize {
        self.tables.count(4) * self.permitted.len()
    }

    /// The columns of the configured tree, if it passes.
    fn plain(&self, reading: Reading, c: u64) -> Option<Attributes> {
        let lists = form::check(&self.tables).expect("sound in form");
        plain::configured(&self.tables, reading, &lists, c).columns()
    }

    /// The first permitted configuration, the last, and some between.
    fn some(&self, random: &mut Random) -> Vec<u64> {
        let mut some = vec![self.permitted[0], self.permitted[self.permitted.len() - 1]];
        some.extend((0..3).map(|_| random.pick(&self.permitted)));
        some
    }

    /// What configuring writes, as tables.
    fn written(&self, reading: Reading, c: u64) -> Tables {
        let room = source_room(&self.tables);
        let lent = configured_in(&self.tables, reading, c, room).expect("accepted");
        written(&self.tables, lent)
    }
}

/// Generated tables, judged once for all tests.
fn cases() -> &'static [Judged] {
    static CASES: OnceLock<Vec<Judged>> = OnceLock::new();
    CASES.get_or_init(|| {
        let answers = [0, 0, 0, 15, 16, 17, 18, 19, 25];
        let small = (0..2700).zip(answers.into_iter().cycle());
        let small =
            small.map(|(seed, number)| generate::small_filled(&mut Random::new(seed), number));
        let filled = (0..1500).map(made::filled);
        let any = (0..700).map(made::case);
        let all = filled.chain(any).chain(small);
        all.map(Judged::of).collect()
    })
}

fn attributes(set: u64) -> Attributes {
    (0..64).filter(|a| set >> a & 1 == 1).collect()
}

/// "What this reading accepts, configured in it anywhere permitted, passes the strict rules
/// with the columns shown": as a tree, and as tables given to the strict check.
#[test]
fn what_it_accepts_passes_the_strict_rules_when_configured() {
    let mut random = Random::new(71);
    for case in cases() {
        let Ok(rows) = &case.filled else { continue };
        for c in case.some(&mut random) {
            let shown_here = attributes(shown(rows, c));
            assert_eq!(case.plain(Reading::Filled, c), Some(shown_here), "{c}");
            let plain = case.written(Reading::Filled, c);
            let plain_rows = checked(&plain).expect("plain tables are accepted");
            assert_eq!(shown(&plain_rows, 0), shown(rows, c), "{:?}", case.tables);
        }
    }
}

/// "What the strict reading accepts, this one accepts with equal rows", and what configuring
/// writes is equal too. What is refused before typing is refused alike.
#[test]
fn what_the_strict_reading_accepts_it_accepts_alike() {
    let mut random = Random::new(72);
    for case in cases() {
        match &case.strict {
            Err(refusal) if is_of_typing(refusal.number) => continue,
            _ => assert_eq!(case.strict, case.filled, "{:?}", case.tables),
        }
        if case.strict.is_ok() {
            for c in case.some(&mut random) {
                let [strict, filled] = [Reading::Strict, Reading::Filled];
                assert_eq!(case.written(strict, c), case.written(filled, c));
            }
        }
    }
}

/// "At a refusal's configuration a plain rule breaks: configured strictly for 15 and 17,
/// else in this reading." "The configuration named is still permitted". A report "that
/// passes at every permitted configuration", configured strictly, is not refused.
#[test]
fn at_a_refusals_configuration_a_plain_rule_breaks() {
    for case in cases() {
        let refusal = match case.filled {
            Err(refusal) if is_of_typing(refusal.number) => refusal,
            _ => continue,
        };
        let c = refusal.configuration;
        assert!(case.permitted.contains(&c), "{:?}", case.tables);
        let reading = match refusal.number {
            15 | 17 => Reading::Strict,
            _ => Reading::Filled,
        };
        assert_eq!(case.plain(reading, c), None, "{:?}", case.tables);
        let mut permitted = case.permitted.iter();
        assert!(permitted.any(|&c| case.plain(Reading::Strict, c).is_none()));
        assert!(case.strict.is_err());
    }
}

/// Every refusal of typing, 15 and 17 exactly when they are to be, found with trees.
#[test]
fn the_first_fault_in_another_way() {
    let mut told: BTreeMap<&str, u64> = BTreeMap::new();
    let sound = cases().iter().filter(|case| !case.permitted.is_empty());
    for case in sound.filter(|case| case.size() < 1200) {
        let report = Report::of(&case.tables);
        let fault = case.filled.as_ref().err().copied();
        assert_eq!(report.first_fault(&RIGHT), fault, "{:?}", case.tables);
        if case.size() > 400 {
            continue;
        }
        for wrong in &WRONG {
            let is_told = report.first_fault(wrong) != fault;
            *told.entry(wrong.words).or_default() += u64::from(is_told);
        }
    }
    println!("{told:#?}");
    assert!(told.values().all(|&times| times >= 3), "{told:?}");
}

/// Finding and the page are of the rows that checking writes in this reading.
#[test]
fn find_and_page_read_alike() {
    let mut random = Random::new(73);
    for case in cases().iter().step_by(3) {
        let wanted = generate::wanted(&mut random, &case.tables, Reading::Filled);
        let found = find(&case.tables, Reading::Filled, wanted);
        let mut text = vec![0; LINE * 1024];
        let lines = page(&case.tables, Reading::Filled, &mut text);
        let rows = match &case.filled {
            Err(refusal) => {
                assert_eq!((found, lines), (Err(*refusal), Err(*refusal)));
                continue;
            }
            Ok(rows) => rows,
        };
        if attributes(wanted)
            .iter()
            .all(|&a| u64::from(a) < case.tables.attributes)
        {
            let mut permitted = case.permitted.iter().copied();
            let first = permitted.find(|&c| wanted & !shown(rows, c) == 0);
            assert_eq!(found, Ok(first));
        }
        assert_eq!(lines, Ok(case.permitted.len()));
        for (c, line) in case.permitted.iter().zip(text.chunks(LINE)) {
            let marks = (0..64).map(|a| (line[5 + a] == b'o', shown(rows, *c) >> a & 1 == 1));
            assert!(line.starts_with(format!("{c:>4} ").as_bytes()));
            assert!(marks.into_iter().all(|(mark, bit)| mark == bit));
        }
    }
}

/// Both readings accept, the filled one alone, or neither, by every number, with few
/// permitted configurations, with exactly 64 and 65, and with more.
#[test]
fn every_answer_comes_with_every_number_of_permitted_ones() {
    let mut times: BTreeMap<(&str, u64), u64> = BTreeMap::new();
    let mut apart = 0;
    // Those of the family come first.
    for case in &cases()[..1500] {
        let count = match case.permitted.len() {
            1..=63 => "few",
            64 => "64",
            65 => "65",
            _ => "more",
        };
        let number = match (&case.filled, &case.strict) {
            (Err(refusal), _) => refusal.number,
            (Ok(_), Ok(_)) => 0,
            (Ok(_), Err(_)) => 1,
        };
        *times.entry((count, number)).or_default() += 1;
        apart += u64::from(case.filled.is_err() && case.filled != case.strict);
    }
    println!("{times:#?} {apart}");
    assert_eq!(times.len(), 4 * 8);
    assert!(times.values().all(|&times| times >= 4), "{times:?}");
    assert!(apart >= 150);
}

/// For each relation form, and each attribute of each project form, the places among the
/// permitted configurations where it has to be found, and whether it is.
fn places(case: &Judged) -> Vec<(u16, Vec<(usize, bool)>)> {
    let tables = &case.tables;
    let lists = form::check(tables).expect("sound in form");
    let mut places: BTreeMap<(usize, u16), Vec<(usize, bool)>> = BTreeMap::new();
    for (place, at) in expression::permitted(tables).iter().enumerate() {
        let holds = |expression: u16| at.holds[usize::from(expression)];
        let sets = filled::sets_at(tables, &lists, at);
        for form in plain::reached(tables, at.configuration) {
            let [kind, a, b, _] = tables.query(form);
            if kind == RELATION {
                let found = holds(tables.relation(a.into())[0]);
                places.entry((form, 64)).or_default().push((place, found));
            }
            let entries = lists.queries[form].clone().map(|e| tables.entry(e));
            let listed = entries.filter(|[_, e]| holds(*e)).map(|[a, _]| a);
            for attribute in listed.collect::<Attributes>() {
                let found = sets[usize::from(b)] >> attribute & 1 == 1;
                let of_form = places.entry((form, attribute)).or_default();
                of_form.push((place, found));
            }
        }
    }
    let kind = |form: usize| tables.query(form)[0];
    let all = places.into_iter();
    all.map(|((form, _), places)| (kind(form), places))
        .collect()
}

/// What tables of the family are aimed at.
fn sorts(case: &Judged) -> BTreeSet<&'static str> {
    let mut sorts = BTreeSet::new();
    let last = case.permitted.len() - 1;
    for (kind, places) in places(case) {
        let found: Vec<usize> = places.iter().filter(|p| p.1).map(|p| p.0).collect();
        if case.filled.is_ok() && found == [last] && places.len() > 1 {
            sorts.insert(match (kind, last) {
                (RELATION, 1023) => "a relation found at 1023 alone",
                (RELATION, _) => "a relation found at the last alone",
                (_, 1023) => "an attribute found at 1023 alone",
                _ => "an attribute found at the last alone",
            });
        }
    }
    let refusals = [&case.strict, &case.filled].map(|answer| answer.as_ref().err());
    if let [Some(strict), Some(filled)] = refusals {
        match (strict.number, filled.number) {
            (17, 17) if strict.place < filled.place => sorts.insert("17 of an outer project"),
            (15, 17) => sorts.insert("17 above an absent relation"),
            (15, 16) => sorts.insert("16 above an absent relation"),
            (15, 19) => sorts.insert("19 above an absent relation"),
            (15, 18) => sorts.insert("18 beside an absent relation"),
            (15, 25) => sorts.insert("25 beside an absent relation"),
            (17, 16) => sorts.insert("16 above a project that drops"),
            _ => false,
        };
    }
    if case.filled.is_ok() && drops_all(case) {
        sorts.insert("a project that drops all");
    }
    sorts
}

/// Does a project that lists something keep nothing, at the first permitted configuration
/// or at the last?
fn drops_all(case: &Judged) -> bool {
    let ends = [case.permitted[0], case.permitted[case.permitted.len() - 1]];
    ends.into_iter().any(|c| {
        let plain = case.written(Reading::Filled, c);
        let projects = plain.queries.chunks(4).filter(|form| form[0] == PROJECT);
        let lengths: Vec<u16> = projects.map(|form| form[1]).collect();
        let lists = lists_at(&case.tables, c);
        let lists = &lists[lists.len() - lengths.len()..];
        let mut both = lengths.iter().zip(lists);
        both.any(|(&kept, list)| kept == 0 && list.iter().any(|(_, holds)| *holds))
    })
}

#[test]
fn the_family_goes_to_the_limits() {
    let mut times: BTreeMap<&str, u64> = BTreeMap::new();
    for sort in cases()[..1500].iter().flat_map(sorts) {
        *times.entry(sort).or_default() += 1;
    }
    println!("{times:#?}");
    assert_eq!(times.len(), 12);
    assert!(times.values().all(|&times| times >= 3), "{times:?}");
}
