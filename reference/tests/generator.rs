//! What the generator covers.

use std::collections::{BTreeMap, BTreeSet};

use crate::common::readings::{self, WRONG};
use crate::common::{checked, first_that_hold, lists_at, made, paged_with, Listed};
use reference::check::{self, shown, ROWS};
use reference::generate::{self, is_crossed, is_small, outcome};
use reference::generate::{Answer, Family, Kept, AIMS, DIGITS, LIMITS, NUMBERS, ROOMS};
use reference::random::Random;
use reference::small::{self, Case};
use reference::tables::{operands, EXACTLY_ONE, RANGES};
use reference::{expression, find, Reading, Tables};

/// Accepted, with more than one permitted configuration and column set.
fn varies(tables: &Tables) -> bool {
    let Ok(rows) = checked(tables) else {
        return false;
    };
    let permitted = expression::permitted(tables);
    let sets = permitted.iter().map(|at| shown(&rows, at.configuration));
    sets.collect::<BTreeSet<u64>>().len() > 1
}

#[test]
fn four_in_ten_cases_are_accepted_with_variation() {
    let count = 3000;
    let varied = (0..count).filter(|&seed| varies(&made::case(seed)));
    let varied = varied.count() as u64;
    println!("{varied} of {count}");
    assert!(varied * 10 >= count * 4);
}

#[test]
fn every_case_built_to_be_accepted_is() {
    for seed in 0..2000 {
        assert_eq!(outcome(&generate::accepted(seed)), 0, "seed {seed}");
    }
}

#[test]
fn every_number_comes_up() {
    let numbers: BTreeSet<u64> = (0..3000).map(|seed| outcome(&made::case(seed))).collect();
    let wanted = [0].into_iter().chain(NUMBERS);
    assert_eq!(numbers, wanted.collect());
}

/// Each limit gives the number that it aims at, in some of its tries.
#[test]
fn every_limit_is_hit() {
    let mut random = Random::new(3);
    for limit in LIMITS {
        let mut hits = 0;
        for seed in 0..2000 {
            let mut tables = match seed % 2 {
                0 => generate::accepted(seed),
                _ => generate::small_accepted(&mut random),
            };
            let applied = (limit.apply)(&mut random, &mut tables);
            hits += u64::from(applied.is_some() && outcome(&tables) == limit.number);
            if hits > 0 {
                break;
            }
        }
        assert!(hits > 0, "{} {}", limit.number, limit.words);
    }
}

#[test]
fn kinds_sizes_and_orders_vary() {
    let mut features = BTreeSet::new();
    let mut attributes = BTreeSet::new();
    let mut kinds = BTreeSet::new();
    let (mut shared, mut disordered, mut nowhere, mut guarded) = (0, 0, 0, 0);
    for seed in 0..1500 {
        let tables = generate::accepted(seed);
        features.insert(tables.features);
        attributes.insert(tables.attributes);
        kinds.extend((0..tables.count(0)).map(|f| (0, tables.expression(f)[0])));
        kinds.extend((0..tables.count(3)).map(|f| (3, tables.comparison(f)[0])));
        kinds.extend((0..tables.count(4)).map(|f| (4, tables.query(f)[0])));
        shared += u64::from(shares_comparisons(&tables));
        disordered += u64::from(is_out_of_walk_order(&tables));
        nowhere += u64::from(has_form_reached_nowhere(&tables));
        guarded += u64::from(has_guarded_relation(&tables));
    }
    println!("shared {shared} disordered {disordered} nowhere {nowhere} guarded {guarded}");
    assert!((0..=10).all(|n| features.contains(&n)));
    assert!([0, 1, 2, 64].iter().all(|m| attributes.contains(m)));
    assert_eq!(kinds.len(), 7 + 8 + 8);
    assert!(shared > 200 && disordered > 400 && nowhere > 200 && guarded > 200);
}

/// Do two selects or comparisons take the same comparison?
fn shares_comparisons(tables: &Tables) -> bool {
    let mut taken: Vec<u16> = Vec::new();
    for form in 0..tables.count(3) {
        let [kind, _, a, b, c] = tables.comparison(form);
        match kind {
            4 => taken.push(a),
            5 | 6 => taken.extend([a, b]),
            7 => taken.extend([b, c]),
            _ => {}
        }
    }
    for form in 0..tables.count(4) {
        if let [2, a, ..] = tables.query(form) {
            taken.push(a);
        }
    }
    let different: BTreeSet<u16> = taken.iter().copied().collect();
    different.len() < taken.len()
}

/// Are the forms numbered otherwise than a walk of operands first would do?
fn is_out_of_walk_order(tables: &Tables) -> bool {
    let mut walk = Vec::new();
    let mut waiting = vec![tables.count(4) - 1];
    while let Some(form) = waiting.pop() {
        walk.push(form);
        waiting.extend(operands(tables.query(form)));
    }
    walk.reverse();
    walk.windows(2).any(|pair| pair[0] > pair[1])
}

fn has_form_reached_nowhere(tables: &Tables) -> bool {
    let mut reached = vec![false; tables.count(4)];
    for at in expression::permitted(tables) {
        let here = reference::typing::reached_at(tables, &at.holds);
        (0..reached.len()).for_each(|form| reached[form] |= here[form]);
    }
    reached.contains(&false)
}

/// Is there a choice on the expression of a relation, over that relation, which
/// is absent at some permitted configuration?
fn has_guarded_relation(tables: &Tables) -> bool {
    let permitted = expression::permitted(tables);
    (0..tables.count(4)).any(|form| {
        let [kind, a, b, _] = tables.query(form);
        let [other, relation, ..] = tables.query(usize::from(b).min(tables.count(4) - 1));
        kind == 4
            && other == 1
            && tables.relation(usize::from(relation))[0] == a
            && permitted.iter().any(|at| !at.holds[usize::from(a)])
    })
}

/// The tables that a small case's call is given, to be read strictly.
fn tables_of(case: &Case) -> Option<&Tables> {
    match case.tables() {
        Some((tables, Reading::Strict)) => Some(tables),
        _ => None,
    }
}

/// There are cases whose lowest failing form is not the first to fail, so that
/// form and configuration cannot be confused.
#[test]
fn faults_cross() {
    let several = (0..400).map(generate::several);
    let crossed = several.filter(is_crossed).count();
    let small = (0..3000).map(small::case);
    let small_crossed = small
        .filter(|case| matches!(case, Case::Check { tables, .. } if is_crossed(tables)))
        .count();
    println!("crossed {crossed} of 400 several, {small_crossed} of 3000 small");
    assert!(crossed >= 40 && small_crossed >= 5);
}

#[test]
fn full_cases_are_full() {
    let mut outcomes = BTreeSet::new();
    for seed in 0..24 {
        let tables = made::full(seed);
        let number = outcome(&tables);
        outcomes.insert(number);
        if number == 0 {
            assert_eq!((tables.features, tables.attributes), (10, 64));
            for (table, (_, most)) in RANGES.into_iter().enumerate() {
                assert_eq!(tables.count(table), most, "table {table}");
            }
            assert!(is_out_of_walk_order(&tables) && shares_comparisons(&tables));
        }
    }
    assert!(outcomes.contains(&0) && outcomes.len() > 3, "{outcomes:?}");
}

/// How often the tables are of each sort that has to do with repeats.
fn sorts_of_repeats(cases: impl Iterator<Item = Tables>) -> BTreeMap<&'static str, u64> {
    let mut sorts = BTreeMap::new();
    for tables in cases.filter(generate::has_repeat) {
        let answer = checked(&tables);
        let other = |kept| checked(&generate::without_repeats(&tables, kept)) != answer;
        let (first, last) = (other(Kept::First), other(Kept::Last));
        let mut count = |sort, is: bool| *sorts.entry(sort).or_default() += u64::from(is);
        count("a repeat", true);
        count(
            "an attribute three times",
            generate::most_often(&tables) > 2,
        );
        count("the first entries give another answer", first);
        count("the last entries give another answer", last);
        count("accepted", answer.is_ok());
        count("accepted, and not by one entry", answer.is_ok() && first);
        for (number, sort) in [
            (14, "14 by a repeat"),
            (16, "16 by a repeat"),
            (17, "17 by a repeat"),
            (18, "18 by a repeat"),
            (19, "19 by a repeat"),
        ] {
            let is = matches!(&answer, Err(refusal) if refusal.number == number);
            count(sort, is && (first || last));
        }
    }
    println!("{sorts:?}");
    sorts
}

#[test]
fn repeats_are_no_rare_thing() {
    let times = sorts_of_repeats((0..6000).map(made::case));
    assert!(times["a repeat"] >= 2000);
    assert!(times["an attribute three times"] >= 600);
    assert!(times["accepted"] >= 1500);
    assert!(times["accepted, and not by one entry"] >= 600);
    assert!(times["14 by a repeat"] >= 40 && times["17 by a repeat"] >= 50);
    for number in ["16 by a repeat", "18 by a repeat", "19 by a repeat"] {
        assert!(times[number] >= 12, "{number}");
    }
    let checks = (0..12_000).filter_map(|seed| match small::case(seed) {
        Case::Check {
            tables,
            reading: Reading::Strict,
            ..
        } => Some(tables),
        _ => None,
    });
    let small = sorts_of_repeats(checks);
    assert!(small["a repeat"] >= 500 && small["accepted, and not by one entry"] >= 100);
    assert!(small["14 by a repeat"] >= 15 && small["17 by a repeat"] >= 15);
}

/// The expressions that something names, and what it is.
fn named_expressions(tables: &Tables) -> Vec<(u64, &'static str)> {
    let mut named = vec![(tables.model, "the model")];
    let mut name = |expression: u16, place| named.push((u64::from(expression), place));
    for form in 0..tables.count(0) {
        match tables.expression(form) {
            [3, a, _] => name(a, "under not"),
            [4 | 5, a, b] => [a, b].iter().for_each(|&e| name(e, "under and, or")),
            _ => {}
        }
    }
    (0..tables.count(1)).for_each(|entry| name(tables.entry(entry)[1], "an entry's"));
    (0..tables.count(2)).for_each(|number| name(tables.relation(number)[0], "a relation's"));
    for form in 0..tables.count(3) {
        if let [7, _, a, ..] = tables.comparison(form) {
            name(a, "a comparison's");
        }
    }
    for form in 0..tables.count(4) {
        if let [4, a, ..] = tables.query(form) {
            name(a, "a query's");
        }
    }
    named
}

/// The numbers of the expressions of kind 6.
fn ranges_of(tables: &Tables) -> BTreeSet<u64> {
    let is_range = |&form: &u64| tables.expression(form as usize)[0] == EXACTLY_ONE;
    (0..tables.count(0) as u64).filter(is_range).collect()
}

/// How often the tables have expression kind 6 in each place, where they are
/// accepted, and how often 3 refuses it.
fn sorts_of_ranges(cases: impl Iterator<Item = Tables>) -> BTreeMap<&'static str, u64> {
    let mut sorts = BTreeMap::new();
    for tables in cases {
        let ranges = ranges_of(&tables);
        let mut named = named_expressions(&tables);
        named.retain(|(expression, _)| ranges.contains(expression));
        let different: BTreeSet<u64> = named.iter().map(|named| named.0).collect();
        let mut of_case: BTreeSet<&str> = BTreeSet::new();
        match checked(&tables) {
            Ok(_) if !ranges.is_empty() => {
                of_case.insert("accepted");
                of_case.extend(named.iter().map(|named| named.1));
                of_case.extend((different.len() < named.len()).then_some("shared"));
            }
            Err(refusal) if refusal.number == 3 && ranges.contains(&refusal.place) => {
                of_case.insert("refused");
            }
            _ => {}
        }
        for sort in of_case {
            *sorts.entry(sort).or_default() += 1;
        }
    }
    println!("{sorts:?}");
    sorts
}

/// Exactly one of a range of features: accepted, in every place where there is an
/// expression, and refused.
#[test]
fn ranges_are_no_rare_thing() {
    let times = sorts_of_ranges((0..6000).map(made::case));
    assert_eq!(times.len(), 10);
    assert!(times.values().all(|&times| times >= 60), "{times:?}");
    let small = (0..7200).filter_map(|seed| tables_of(&small::case(seed)).cloned());
    let times = sorts_of_ranges(small);
    assert_eq!(times.len(), 10);
    assert!(times.values().all(|&times| times >= 20), "{times:?}");
}

/// Calls of which each wrong way to read kind 6 would be told.
#[test]
fn ranges_show_how_they_are_read() {
    let tables = (0..10_000).map(made::case);
    let checks = tables.map(|tables| Case::check(tables, Reading::Strict, ROWS));
    let varied = wrong_readings(checks);
    assert!(varied.values().all(|&times| times >= 8), "{varied:?}");
    let small = wrong_readings((0..12_000).map(small::case));
    assert!(small.values().all(|&times| times >= 5), "{small:?}");
}

/// How many of the calls tell each wrong reading from the right one.
fn wrong_readings(calls: impl Iterator<Item = Case>) -> BTreeMap<&'static str, u64> {
    let mut told = BTreeMap::new();
    let has_range = |case: &Case| tables_of(case).is_some_and(|t| !ranges_of(t).is_empty());
    for case in calls.filter(has_range) {
        let right = small::answer(&case);
        for reading in &WRONG {
            let wrong = readings::answer(&case, reading);
            let is_told = wrong.is_some_and(|wrong| wrong != right);
            *told.entry(reading.words).or_default() += u64::from(is_told);
        }
    }
    println!("{told:?}");
    told
}

/// Lists of which no shorter one is left, and of all attributes at once.
#[test]
fn lists_are_as_long_as_they_may_be() {
    let long = |tables: &Tables| generate::most_often(tables) > 400;
    let repeats = |seed| generate::of_family(Family::Repeats, seed);
    let outcomes = (0..150).map(repeats).filter(long).map(|t| outcome(&t));
    let outcomes: BTreeSet<u64> = outcomes.collect();
    println!("{outcomes:?}");
    assert!([0, 14, 17].iter().all(|number| outcomes.contains(number)));
    let whole = |tables: &Tables| generate::most_often(tables) == 512 && outcome(tables) == 0;
    assert!((0..150).map(repeats).filter(whole).count() >= 3);
}

/// The calls that configure accepted tables, where a wrong way to keep entries
/// would be told.
#[test]
fn configuring_shows_which_entry_is_kept() {
    let mut random = Random::new(7);
    let mut calls: Vec<(Tables, u64)> = Vec::new();
    for seed in 0..3000 {
        let tables = made::case(seed);
        if outcome(&tables) == 0 {
            let permitted = expression::permitted(&tables);
            calls.push((
                tables,
                permitted[random.below(permitted.len())].configuration,
            ));
        }
    }
    let varied = wrong_configurers(calls);
    assert!(varied.values().all(|&times| times >= 150), "{varied:?}");
    let small = (0..12_000).filter_map(|seed| {
        let case = small::case(seed);
        let written = small::answer(&case).starts_with("written");
        match case {
            Case::Configure {
                tables,
                reading: Reading::Strict,
                c,
                ..
            } if written => Some((tables, c)),
            _ => None,
        }
    });
    let small = wrong_configurers(small.collect());
    assert!(small.values().all(|&times| times >= 15), "{small:?}");
}

/// How many of the calls tell each wrong way from the right one.
fn wrong_configurers(calls: Vec<(Tables, u64)>) -> BTreeMap<&'static str, u64> {
    let mut told = BTreeMap::new();
    println!("{} calls", calls.len());
    for (tables, c) in calls {
        for (name, wrong) in WRONG_WAYS {
            let is_told = |list: &Listed| wrong(list) != first_that_hold(list);
            let is_told = lists_at(&tables, c).iter().any(is_told);
            *told.entry(*name).or_default() += u64::from(is_told);
        }
    }
    println!("{told:?}");
    told
}

type Way = (&'static str, fn(&Listed) -> Vec<u16>);

const WRONG_WAYS: &[Way] = &[
    ("all that hold", |list| {
        let there = list.iter().filter(|(_, holds)| *holds);
        there.map(|&(attribute, _)| attribute).collect()
    }),
    ("the first, if it holds", |list| {
        let mut kept = first_that_hold(list);
        kept.retain(|&attribute| {
            let first = list.iter().find(|(other, _)| *other == attribute);
            first.is_some_and(|(_, holds)| *holds)
        });
        kept
    }),
    ("in the order of the first entries, held or not", |list| {
        let all: Listed = list
            .iter()
            .map(|&(attribute, _)| (attribute, true))
            .collect();
        let there = first_that_hold(list);
        let mut order = first_that_hold(&all);
        order.retain(|attribute| there.contains(attribute));
        order
    }),
    ("the last that holds", |list| {
        let reversed: Listed = list.iter().rev().copied().collect();
        let mut kept = first_that_hold(&reversed);
        kept.reverse();
        kept
    }),
    ("in the order of the attributes", |list| {
        let mut kept = first_that_hold(list);
        kept.sort_unstable();
        kept
    }),
];

/// Each sort of wanted set gives the answer that it aims at, and there are
/// occasions for it.
#[test]
fn every_aim_is_hit() {
    let mut random = Random::new(4);
    for aim in AIMS {
        let mut times = 0;
        for seed in 0..200 {
            let tables = generate::accepted(seed);
            let Some(wanted) = generate::wanted_by(&mut random, &tables, Reading::Strict, aim)
            else {
                continue;
            };
            times += 1;
            let lowest = expression::permitted(&tables)[0].configuration;
            let hit = match find(&tables, Reading::Strict, wanted) {
                Ok(Some(c)) if c == lowest => Answer::Lowest,
                Ok(Some(_)) => Answer::Later,
                Ok(None) => Answer::Nowhere,
                Err(_) => Answer::Refused,
            };
            let as_aimed = aim.answer == hit || aim.answer == Answer::Open;
            assert!(as_aimed, "{}: {hit:?}, seed {seed}", aim.words);
        }
        println!("{}: {times} of 200", aim.words);
        assert!(times >= 10, "{}", aim.words);
    }
}

/// The answers of `find` by sort, given the sets that are generated for it.
fn answers_of_find(cases: impl Iterator<Item = Tables>) -> BTreeMap<&'static str, u64> {
    let mut random = Random::new(5);
    let mut answers = BTreeMap::new();
    for tables in cases {
        let wanted = generate::wanted(&mut random, &tables, Reading::Strict);
        let answer = match find(&tables, Reading::Strict, wanted) {
            Ok(Some(0)) => "found 0",
            Ok(Some(_)) => "found another",
            Ok(None) => "none",
            Err(refusal) if refusal.number == 22 => "22",
            Err(_) => "refused earlier",
        };
        *answers.entry(answer).or_default() += 1;
    }
    println!("{answers:?}");
    answers
}

#[test]
fn no_answer_of_find_is_rare() {
    let answers = answers_of_find((0..2000).map(made::case));
    assert_eq!(answers.len(), 5);
    assert!(answers.values().all(|&times| times >= 200), "{answers:?}");
    // With 64 attributes 22 is never given.
    let answers = answers_of_find((0..24).map(made::full));
    assert!(!answers.contains_key("22") && answers.len() >= 3);
}

/// Each sort of lent page is enough or too short, as it says, and there are
/// occasions for it.
#[test]
fn every_room_is_hit() {
    let mut random = Random::new(6);
    let tables: Vec<Tables> = (0..40)
        .map(generate::wall)
        .chain((0..40).map(generate::small))
        .filter(|tables| outcome(tables) == 0)
        .collect();
    for room in ROOMS {
        let bytes = |tables| generate::page_room_by(&mut random, tables, room);
        let lent: Vec<Option<usize>> = tables.iter().map(bytes).collect();
        for (tables, bytes) in tables.iter().zip(&lent) {
            if let Some(bytes) = *bytes {
                let answer = paged_with(tables, bytes);
                assert_eq!(answer.is_ok(), room.enough, "{}: {bytes}", room.words);
            }
        }
        let times = lent.iter().flatten().count();
        println!("{}: {times} of {}", room.words, tables.len());
        assert!(times >= 5, "{}", room.words);
    }
}

/// The lines of accepted tables' page: configuration, set, number of columns.
type Lines = Vec<(u64, u64, u32)>;

fn lines_of(tables: &Tables) -> Lines {
    let accepted = check::accepted(tables, Reading::Strict).expect("accepted");
    let columns = accepted.permitted.iter().zip(&accepted.columns);
    columns
        .map(|(at, &set)| (at.configuration, set, set.count_ones()))
        .collect()
}

fn pages_of_walls() -> Vec<Lines> {
    (0..500)
        .map(|seed| lines_of(&generate::wall(seed)))
        .collect()
}

fn count_pages(pages: &[Lines], is: impl Fn(&Lines) -> bool) -> usize {
    pages.iter().filter(|page| is(page)).count()
}

/// Which lines the pages of walls have.
#[test]
fn walls_have_few_lines_and_many() {
    let pages = pages_of_walls();
    let lengths: BTreeSet<usize> = pages.iter().map(Vec::len).collect();
    println!("lengths {lengths:?}");
    // 897 lines have fewer than 65,536 bytes, and 898 have more.
    let wanted = [1, 2, 9, 10, 99, 100, 897, 898, 999, 1000, 1023, 1024];
    assert!(wanted.iter().all(|length| lengths.contains(length)));
    for c in DIGITS.map(u64::from) {
        let has = |page: &Lines| page.iter().any(|line| line.0 == c);
        let alone = count_pages(&pages, |page| page.len() == 1 && has(page));
        let lacking = count_pages(&pages, |page| page.len() > 100 && !has(page));
        println!("{c}: {alone} alone, {lacking} lacking");
        assert!(alone >= 3 && lacking >= 1, "{c}");
    }
    let far_apart = |page: &Lines| (3..9).contains(&page.len()) && page[page.len() - 1].0 > 900;
    assert!(count_pages(&pages, far_apart) >= 10);
}

/// Which marks, and how many columns, the lines of walls have.
#[test]
fn walls_have_no_columns_and_all() {
    let attributes: BTreeSet<u64> = (0..500).map(|s| generate::wall(s).attributes).collect();
    assert!([0, 1, 63, 64].iter().all(|m| attributes.contains(m)));
    let pages = pages_of_walls();
    let somewhere = |page: &Lines, count| page.iter().any(|line| line.2 == count);
    for count in [0, 1, 9, 10, 63, 64] {
        let some = count_pages(&pages, |page| somewhere(page, count));
        let all = count_pages(&pages, |page| page.iter().all(|line| line.2 == count));
        println!("{count} columns: {some} somewhere, {all} everywhere");
        assert!(all >= 3 && some > all, "{count} columns");
    }
    for [one, other] in [[0, 64], [9, 10], [63, 64]] {
        let both = |page: &Lines| somewhere(page, one) && somewhere(page, other);
        assert!(count_pages(&pages, both) >= 3, "{one} and {other}");
    }
    let last_alone = |line: &(u64, u64, u32)| line.1 >> 63 == 1 && line.1 & 1 == 0;
    let last_alone = |page: &Lines| page.iter().any(last_alone);
    assert!(count_pages(&pages, last_alone) >= 10);
}

/// Pages, of which each wrong way to make one would be told.
#[test]
fn pages_show_how_they_are_made() {
    let walls = wrong_pages((0..200).map(generate::wall));
    assert!(walls.values().all(|&times| times >= 30), "{walls:?}");
    let small = (0..7000).filter_map(|seed| match small::case(seed) {
        Case::Page {
            tables,
            reading: Reading::Strict,
            room,
        } => paged_with(&tables, room).is_ok().then_some(tables),
        _ => None,
    });
    let small = wrong_pages(small);
    assert!(small.values().all(|&times| times >= 30), "{small:?}");
}

/// How many of the accepted tables tell each wrong way from the right one.
fn wrong_pages(cases: impl Iterator<Item = Tables>) -> BTreeMap<&'static str, u64> {
    let mut told = BTreeMap::new();
    for tables in cases {
        let lines = lines_of(&tables);
        for (name, wrong) in WRONG_LINES {
            *told.entry(*name).or_default() += u64::from(wrong(&tables, &lines) != lines);
        }
    }
    println!("{told:?}");
    told
}

type WrongLines = (&'static str, fn(&Tables, &Lines) -> Lines);

const WRONG_LINES: &[WrongLines] = &[
    ("marks from 63 down", |_, lines| {
        let turned = |&(c, set, count): &_| (c, u64::reverse_bits(set), count);
        lines.iter().map(turned).collect()
    }),
    ("marks of the first line on each", |_, lines| {
        let first = lines[0].1;
        lines.iter().map(|line| (line.0, first, line.2)).collect()
    }),
    ("number of columns of the first line on each", |_, lines| {
        let first = lines[0].2;
        lines.iter().map(|line| (line.0, line.1, first)).collect()
    }),
    (
        "number of attributes for number of columns",
        |tables, lines| {
            let m = tables.attributes as u32;
            lines.iter().map(|line| (line.0, line.1, m)).collect()
        },
    ),
    ("lines counted for configurations", |_, lines| {
        let counted = (0..).zip(lines);
        counted.map(|(c, line)| (c, line.1, line.2)).collect()
    }),
    ("a line for each configuration", |tables, lines| {
        let line = |c| lines.iter().find(|line| line.0 == c).copied();
        let all = 0..tables.configurations();
        all.map(|c| line(c).unwrap_or((c, 0, 0))).collect()
    }),
];

/// Small cases: all numbers from 1 to 25, the mixture, and the bounds; about half of the
/// calls are of the filled reading.
#[test]
fn small_cases_cover_everything() {
    let mut outcomes: BTreeMap<(&str, String), u64> = BTreeMap::new();
    let mut filled = 0;
    for seed in 0..4200 {
        let case = small::case(seed);
        filled += u64::from(matches!(case.tables(), Some((_, Reading::Filled))));
        assert!(case.tables().is_none_or(|(tables, _)| is_small(tables)));
        let call = match &case {
            Case::Check { .. } => "check",
            Case::Configure { .. } => "configure",
            Case::Find { .. } => "find",
            Case::Page { .. } => "page",
            Case::Text(text) => {
                assert!(text.len() <= 320);
                "text"
            }
        };
        let answer = small::answer(&case);
        let words: Vec<&str> = answer.split(' ').collect();
        let key = match words[..] {
            ["refused", number, ..] => number.to_string(),
            ["found", "0"] => answer,
            _ => words[0].to_string(),
        };
        *outcomes.entry((call, key)).or_default() += 1;
    }
    println!("{outcomes:?}");
    let texts = (0..1000).map(small::case);
    let h1 = |case: &Case| matches!(case, Case::Text(text) if text == small::H1.as_bytes());
    assert!(texts.filter(h1).count() > 3);
    let times = |call, key: &str| outcomes.get(&(call, key.to_string())).copied().unwrap_or(0);
    for number in NUMBERS.into_iter().chain([11]) {
        assert!(times("check", &number.to_string()) >= 15, "check {number}");
    }
    for number in [15, 16, 17, 18, 19, 20, 21, 24, 25] {
        assert!(
            times("configure", &number.to_string()) >= 3,
            "configure {number}"
        );
    }
    for key in ["found 0", "found", "none", "22"] {
        assert!(times("find", key) >= 60, "find {key}");
    }
    for number in [15, 16, 17, 18, 19, 24, 25] {
        assert!(times("find", &number.to_string()) >= 3, "find {number}");
        assert!(times("page", &number.to_string()) >= 3, "page {number}");
    }
    let calls = |name| {
        let calls = outcomes.iter().filter(|((call, _), _)| *call == name);
        calls.map(|(_, times)| times).sum::<u64>()
    };
    assert!((1800..2100).contains(&filled), "{filled}");
    assert!((630..770).contains(&calls("find")));
    assert!((560..680).contains(&calls("page")));
    assert!(times("page", "page") >= 200 && times("page", "23") >= 80);
    assert!((690..920).contains(&times("check", "rows")));
    assert!(times("configure", "written") >= 200);
    assert!((200..400).contains(&times("text", "print")));
}
