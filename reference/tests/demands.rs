//! Demand 3 and what belongs to it, over generated cases.

use crate::common::{checked, checked_with, configured_with, made, source_room, written};
use reference::check::shown;
use reference::generate::{self, Family};
use reference::plain::{self, Attributes};
use reference::random::Random;
use reference::refusal::{is_of_form, is_of_typing};
use reference::{expression, form, Reading, Refusal, Tables};

/// Cases of all families, the full ones being rare.
fn cases() -> impl Iterator<Item = Tables> {
    let varied = (0..1500).map(made::case);
    let small = (0..3000).map(generate::small);
    let several = (0..800).map(|seed| generate::of_family(Family::Several, seed));
    let compared = (0..800).map(made::compared);
    let few = (0..600).map(made::few);
    let few = few.filter(|tables| tables.count(4) << tables.features < 20_000);
    varied
        .chain(small)
        .chain(several)
        .chain(compared)
        .chain(few)
}

fn attributes(set: u64) -> Attributes {
    (0..64).filter(|a| set >> a & 1 == 1).collect()
}

/// The columns of the configured tree at each permitted configuration; none
/// where it breaks a plain rule.
fn plain_columns(tables: &Tables) -> Vec<(u64, Option<Attributes>)> {
    let lists = form::check(tables).expect("sound in form");
    let mut all = Vec::new();
    for at in expression::permitted(tables) {
        let report = plain::configured(tables, Reading::Strict, &lists, at.configuration);
        all.push((at.configuration, report.columns()));
    }
    all
}

/// Demand 3, both halves.
fn demand_3(tables: &Tables) {
    match checked(tables) {
        Ok(rows) => {
            for (c, columns) in plain_columns(tables) {
                assert_eq!(
                    columns,
                    Some(attributes(shown(&rows, c))),
                    "{tables:?} at {c}"
                );
            }
        }
        Err(refusal) if is_of_typing(refusal.number) => {
            let all = plain_columns(tables);
            let named = all.iter().find(|(c, _)| *c == refusal.configuration);
            assert!(matches!(named, Some((_, None))), "{tables:?} {refusal:?}");
        }
        // No typing fault: the call did not get as far as typing.
        Err(_) => {}
    }
}

#[test]
fn the_configured_report_passes_exactly_where_the_checker_says() {
    cases().for_each(|tables| demand_3(&tables));
}

/// The fault that typing has to give, found with the trees: the lowest reached
/// form whose tree does not pass, and what its topmost form breaks at the lowest
/// configuration; but 25 only where it breaks nothing else at any.
fn first_fault(tables: &Tables) -> Option<Refusal> {
    let lists = form::check(tables).expect("sound in form");
    let permitted = expression::permitted(tables);
    for number in 0..tables.count(4) {
        let mut faults = Vec::new();
        for at in &permitted {
            let c = at.configuration;
            let report = plain::configured_form(tables, Reading::Strict, &lists, c, number);
            if plain::reached(tables, c).contains(&number) && report.columns().is_none() {
                let (rule, item) = report.broken_on_top().expect("it breaks a rule");
                faults.push(Refusal::new(rule, number as u64, u64::from(item), c));
            }
        }
        let other = faults.iter().find(|fault| fault.number != 25);
        if let Some(fault) = other.or(faults.first()) {
            return Some(*fault);
        }
    }
    None
}

#[test]
fn the_first_fault_comes_first() {
    let small = (0..4000).map(generate::small);
    let several = (0..1500).map(|seed| generate::of_family(Family::Several, seed));
    let compared = (0..1500).map(made::compared);
    let few = (0..1500).map(made::few);
    for tables in small.chain(several).chain(compared).chain(few) {
        let size = tables.count(4) << tables.features.min(10);
        match checked(&tables) {
            Err(refusal) if is_of_typing(refusal.number) && size < 4000 => {
                assert_eq!(first_fault(&tables), Some(refusal), "{tables:?}");
            }
            _ => {}
        }
    }
}

#[test]
fn the_same_at_full_size() {
    for seed in 0..12 {
        demand_3(&made::full(seed));
    }
}

/// The rows hold no other bit than those of permitted configurations and
/// attributes of the head.
#[test]
fn all_other_bits_are_0() {
    for tables in cases().take(1500) {
        let Ok(rows) = checked(&tables) else { continue };
        let permitted: Vec<u64> = expression::permitted(&tables)
            .iter()
            .map(|at| at.configuration)
            .collect();
        for c in 0..1024 {
            let set = shown(&rows, c);
            assert!(set == 0 || permitted.contains(&c));
            assert!(attributes(set)
                .iter()
                .all(|&a| u64::from(a) < tables.attributes));
        }
    }
}

#[test]
fn configured_tables_are_accepted_and_show_the_same() {
    let mut random = Random::new(5);
    for tables in cases().take(4000) {
        let Ok(rows) = checked(&tables) else { continue };
        let permitted = expression::permitted(&tables);
        for _ in 0..3 {
            let c = permitted[random.below(permitted.len())].configuration;
            let longer = source_room(&tables).map(|words| words + random.below(3));
            let lent = configured_with(&tables, c, longer).expect("room is there");
            let plain = written(&tables, lent);
            let plain_rows = checked(&plain).expect("plain tables are accepted");
            assert_eq!(shown(&plain_rows, 0), shown(&rows, c));
            // Configured once more, they stay as they are.
            let again = configured_with(&plain, 0, source_room(&plain)).expect("accepted");
            assert_eq!(written(&plain, again), plain);
        }
    }
}

/// `checked_with` and `configured_with` look at the lent words of refused calls.
#[test]
fn refused_calls_change_nothing_and_agree() {
    let mut random = Random::new(6);
    for tables in cases().take(4000) {
        let checking = checked(&tables);
        let other_room = random.pick(&[0, 1, 1023, 1025]);
        let elsewhere = checked_with(&tables, other_room).expect_err("refused by 11 at last");
        match checking {
            Err(refusal) if is_of_form(refusal.number) => assert_eq!(elsewhere, refusal),
            _ => assert_eq!((elsewhere.number, elsewhere.place), (11, 0)),
        }
        let configuring = configured_with(&tables, random.word(), [0; 4]);
        match checking {
            Err(refusal) => assert_eq!(configuring.unwrap_err(), refusal),
            Ok(_) => assert_eq!(configuring.unwrap_err().number, 20),
        }
    }
}
