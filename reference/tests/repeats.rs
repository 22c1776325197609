//! "One column, two reasons": an attribute more than once in a list. The
//! sentences of the request one by one, worked out by hand, and then the demands
//! over generated tables that have repeats.

use crate::common::{checked, configured_with, find, first_that_hold, lists_at, made};
use crate::common::{refused, source_room, written};
use reference::check::shown;
use reference::generate::{self, Family, Kept};
use reference::plain::{self, Attributes, Tree};
use reference::random::Random;
use reference::refusal::is_of_typing;
use reference::{expression, form, Reading, Tables};

// The harbour of all tests: features swaps 0 and gates 1, attributes vessel 0,
// berth 1, ramp 2, and these expressions.
const TRUE: u16 = 0;
const SWAPS: u16 = 1;
const GATES: u16 = 2;
const NO_SWAPS: u16 = 3;
const FALSE: u16 = 4;
const BOTH: u16 = 5;

/// One relation, always there, is the report.
fn yard(entries: &[[u16; 2]]) -> Tables {
    let expressions = [
        [1, 0, 0],
        [2, 0, 0],
        [2, 1, 0],
        [3, SWAPS, 0],
        [0, 0, 0],
        [4, SWAPS, GATES],
    ];
    Tables {
        features: 2,
        attributes: 3,
        model: u64::from(TRUE),
        expressions: expressions.concat(),
        entries: entries.concat(),
        relations: vec![TRUE, entries.len() as u16],
        queries: vec![1, 0, 0, 0],
        ..Tables::default()
    }
    .of_moments()
}

/// A project over the yard's relation.
fn projected(entries: &[[u16; 2]], list: &[[u16; 2]]) -> Tables {
    let mut tables = yard(entries);
    tables.entries.extend(list.concat());
    tables.queries.extend([3, list.len() as u16, 0, 0]);
    tables
}

/// The columns at the four configurations.
fn columns(tables: &Tables) -> [u64; 4] {
    let rows = checked(tables).expect("accepted");
    [0, 1, 2, 3].map(|c| shown(&rows, c))
}

/// The attributes of each list that configuring writes: the relations', then
/// the projects'.
fn written_lists(tables: &Tables, c: u64) -> Vec<Vec<u16>> {
    let plain = written_at(tables, c);
    let lists = form::check(&plain).expect("sound in form");
    let is_project = |form: &usize| plain.query(*form)[0] == 3;
    let projects = (0..plain.count(4)).filter(is_project);
    let projects = projects.map(|form| lists.queries[form].clone());
    let all = lists.relations.iter().cloned().chain(projects);
    all.map(|list| list.map(|entry| plain.entry(entry)[0]).collect())
        .collect()
}

/// The tables that configuring writes. Every expression in them is 0.
fn written_at(tables: &Tables, c: u64) -> Tables {
    let lent = configured_with(tables, c, source_room(tables)).expect("accepted");
    let plain = written(tables, lent);
    assert!((0..plain.count(1)).all(|entry| plain.entry(entry)[1] == 0));
    plain
}

// "An attribute may now occur more than once in a list and is there when any of
// its entries holds."

#[test]
fn the_ramp_for_swaps_and_again_for_gates() {
    let tables = yard(&[[0, TRUE], [2, SWAPS], [1, TRUE], [2, GATES]]);
    assert_eq!(columns(&tables), [0b011, 0b111, 0b111, 0b111]);
}

#[test]
fn complementary_overlapping_and_equal_reasons() {
    let two = |one, other| columns(&yard(&[[2, one], [2, other]]));
    for (one, other, wanted) in [
        (SWAPS, NO_SWAPS, [4, 4, 4, 4]),
        (SWAPS, GATES, [0, 4, 4, 4]),
        (SWAPS, BOTH, [0, 4, 0, 4]),
        (NO_SWAPS, GATES, [4, 0, 4, 4]),
        (SWAPS, SWAPS, [0, 4, 0, 4]),
        (SWAPS, TRUE, [4, 4, 4, 4]),
    ] {
        assert_eq!(two(one, other), wanted, "{one} {other}");
        assert_eq!(two(other, one), wanted, "{other} {one}");
    }
}

#[test]
fn three_times_and_512_times() {
    let three = [[2, BOTH], [2, GATES], [2, NO_SWAPS]];
    assert_eq!(columns(&yard(&three)), [4, 0, 4, 4]);
    // Each place of the one entry that holds without swaps.
    for place in [0, 1, 255, 510, 511] {
        let mut entries = vec![[2, SWAPS]; 512];
        entries[place] = [2, NO_SWAPS];
        assert_eq!(columns(&yard(&entries)), [4, 4, 4, 4], "{place}");
    }
    let all = yard(&vec![[2, GATES]; 512]);
    assert_eq!(columns(&all), [0, 0, 4, 4]);
    assert_eq!(written_lists(&all, 0), [vec![]]);
    assert_eq!(written_lists(&all, 2), [vec![2]]);
}

#[test]
fn project_lists_are_joined_too() {
    let all = [[0, TRUE], [2, TRUE]];
    let two = projected(&all, &[[2, SWAPS], [0, TRUE], [2, GATES]]);
    assert_eq!(columns(&two), [1, 5, 5, 5]);
    // An entry of a project that holds nowhere is no fault.
    let never = projected(&all, &[[2, SWAPS], [2, FALSE]]);
    assert_eq!(columns(&never), [0, 4, 0, 4]);
}

// "Refusals 6 and 8 no longer cover repeats"

#[test]
fn form_has_nothing_against_repeats() {
    for tables in [
        yard(&[[2, TRUE], [2, TRUE]]),
        yard(&[[2, TRUE], [0, TRUE], [2, TRUE]]),
        projected(&[[2, TRUE]], &[[2, TRUE], [2, TRUE]]),
        projected(&[[2, TRUE]], &vec![[2, TRUE]; 511]),
    ] {
        assert!(form::check(&tables).is_ok() && checked(&tables).is_ok());
    }
}

#[test]
fn the_rest_of_6_8_and_10_stays() {
    let mut tables = yard(&[[2, TRUE], [2, TRUE]]);
    tables.relations[1] = 3;
    assert_eq!(checked(&tables), Err(refused(6, 0, 0, 0)));
    tables.relations[1] = 1;
    assert_eq!(checked(&tables), Err(refused(10, 1, 0, 0)));
    tables.relations = vec![6, 2];
    assert_eq!(checked(&tables), Err(refused(6, 0, 0, 0)));
    let mut tables = projected(&[[2, TRUE]], &[[2, TRUE], [2, TRUE]]);
    tables.queries[5] = 3;
    assert_eq!(checked(&tables), Err(refused(8, 1, 0, 0)));
    tables.queries[5] = 1;
    assert_eq!(checked(&tables), Err(refused(10, 2, 0, 0)));
    // 513 entries are too many, of one attribute too.
    let many = yard(&vec![[2, TRUE]; 513]);
    assert_eq!(checked(&many), Err(refused(2, 1, 0, 0)));
}

// "14 tests each entry by itself"

#[test]
fn an_entry_that_holds_nowhere_is_refused_though_its_attribute_is_there() {
    for entries in [
        vec![[2, TRUE], [2, FALSE]],
        vec![[2, FALSE], [2, TRUE]],
        vec![[2, SWAPS], [2, FALSE], [2, NO_SWAPS]],
        vec![[0, TRUE], [2, TRUE], [1, TRUE], [2, FALSE], [1, FALSE]],
    ] {
        let tables = yard(&entries);
        assert_eq!(checked(&tables), Err(refused(14, 0, 2, 0)), "{entries:?}");
    }
    let mut many = vec![[2, TRUE]; 512];
    many[511] = [2, FALSE];
    assert_eq!(checked(&yard(&many)), Err(refused(14, 0, 2, 0)));
}

#[test]
fn a_repeat_has_to_hold_with_its_relation_and_where_permitted() {
    let mut tables = yard(&[[2, TRUE], [2, NO_SWAPS]]);
    tables.relations[0] = SWAPS;
    tables.queries = vec![0, 0, 0, 0];
    assert_eq!(checked(&tables), Err(refused(14, 0, 2, 0)));
    tables.relations[0] = GATES;
    assert!(checked(&tables).is_ok());
    tables.model = u64::from(SWAPS);
    assert_eq!(checked(&tables), Err(refused(14, 0, 2, 0)));
}

// "Configuring keeps each attribute's first entry that holds."

#[test]
fn the_order_of_the_attributes_changes_with_the_configuration() {
    let tables = yard(&[[2, SWAPS], [0, TRUE], [2, GATES]]);
    assert_eq!(written_lists(&tables, 0), [[0].to_vec()]);
    assert_eq!(written_lists(&tables, 1), [[2, 0].to_vec()]);
    assert_eq!(written_lists(&tables, 2), [[0, 2].to_vec()]);
    assert_eq!(written_lists(&tables, 3), [[2, 0].to_vec()]);
    let by_turns = yard(&[[0, SWAPS], [1, GATES], [0, GATES], [1, SWAPS]]);
    assert_eq!(written_lists(&by_turns, 1), [[0, 1].to_vec()]);
    assert_eq!(written_lists(&by_turns, 2), [[1, 0].to_vec()]);
    assert_eq!(written_lists(&by_turns, 3), [[0, 1].to_vec()]);
}

#[test]
fn of_three_entries_the_first_that_holds() {
    let list = [[2, BOTH], [0, TRUE], [2, SWAPS], [1, TRUE], [2, NO_SWAPS]];
    let tables = yard(&list);
    assert_eq!(written_lists(&tables, 3), [[2, 0, 1].to_vec()]);
    assert_eq!(written_lists(&tables, 1), [[0, 2, 1].to_vec()]);
    assert_eq!(written_lists(&tables, 0), [[0, 1, 2].to_vec()]);
    let project = projected(&[[0, TRUE], [1, TRUE], [2, TRUE]], &list);
    assert_eq!(written_lists(&project, 1)[1], [0, 2, 1]);
    assert_eq!(written_lists(&project, 2)[1], [0, 1, 2]);
}

#[test]
fn the_last_of_512_entries_is_kept_when_no_other_holds() {
    let mut entries = vec![[2, SWAPS]; 512];
    entries[510] = [0, TRUE];
    entries[511] = [2, GATES];
    assert_eq!(written_lists(&yard(&entries), 2), [[0, 2].to_vec()]);
    assert_eq!(written_lists(&yard(&entries), 3), [[2, 0].to_vec()]);
}

#[test]
fn lists_of_forms_that_are_not_kept_go() {
    // With swaps the project, elsewhere empty.
    let mut tables = projected(&[[2, TRUE]], &[[2, GATES], [2, TRUE]]);
    tables.queries.extend([0, 0, 0, 0, 4, SWAPS, 1, 2]);
    assert_eq!(written_lists(&tables, 0), [[2].to_vec()]);
    assert_eq!(written_lists(&tables, 1), [[2].to_vec(), [2].to_vec()]);
    assert_eq!(columns(&tables), [0, 4, 0, 4]);
}

/// 21 asks for as many words as the source has, though fewer are written.
#[test]
fn room_is_for_the_source() {
    let tables = yard(&[[2, TRUE], [2, TRUE]]);
    let mut room = source_room(&tables);
    room[0] -= 1;
    assert_eq!(configured_with(&tables, 0, room), Err(refused(21, 1, 0, 0)));
}

// "Acceptance and the configured report are judged on the joined lists."

#[test]
fn a_projected_attribute_is_missing_by_any_of_its_entries() {
    // The ramp is there with swaps; it is asked for with gates too.
    for list in [
        vec![[2, SWAPS], [2, GATES]],
        vec![[2, GATES], [2, SWAPS]],
        vec![[2, SWAPS], [2, BOTH], [2, GATES]],
    ] {
        let tables = projected(&[[2, SWAPS]], &list);
        assert_eq!(checked(&tables), Err(refused(17, 1, 2, 2)), "{list:?}");
    }
    let fits = projected(&[[2, SWAPS], [2, GATES]], &[[2, GATES], [2, SWAPS]]);
    assert_eq!(columns(&fits), [0, 4, 4, 4]);
}

#[test]
fn a_form_reached_nowhere_breaks_nothing() {
    // The project is over empty, and reached where the expression holds.
    let over_empty = |expression: u16, list: &[[u16; 2]]| {
        let mut tables = yard(list);
        tables.relations.clear();
        let length = list.len() as u16;
        tables.queries = vec![0, 0, 0, 0, 3, length, 0, 0, 0, 0, 0, 0, 4, expression, 1, 2];
        tables
    };
    let repeats = [[2, NO_SWAPS], [2, SWAPS], [2, SWAPS]];
    assert_eq!(columns(&over_empty(FALSE, &repeats)), [0; 4]);
    let reached = over_empty(SWAPS, &repeats);
    assert_eq!(checked(&reached), Err(refused(17, 1, 2, 1)));
    // Reached where no entry holds.
    let apart = [[2, NO_SWAPS], [2, FALSE], [2, NO_SWAPS]];
    assert_eq!(columns(&over_empty(SWAPS, &apart)), [0; 4]);
}

#[test]
fn products_and_unions_look_at_the_joined_sets() {
    let pair = |kind: u16, first: &[[u16; 2]], second: &[[u16; 2]]| {
        let mut tables = yard(&[first, second].concat());
        tables.relations = vec![TRUE, first.len() as u16, TRUE, second.len() as u16];
        tables.queries = vec![1, 0, 0, 0, 1, 1, 0, 0, kind, 0, 1, 0];
        checked(&tables).map(|rows| [0, 1, 2, 3].map(|c| shown(&rows, c)))
    };
    let either = [[2, SWAPS], [2, GATES]];
    let always = [[2, NO_SWAPS], [2, SWAPS]];
    for kind in [6, 7] {
        assert_eq!(pair(kind, &always, &[[2, TRUE]]), Ok([4; 4]));
        assert_eq!(pair(kind, &always, &either), Err(refused(19, 2, 2, 0)));
    }
    assert_eq!(pair(5, &either, &[[0, TRUE]]), Ok([1, 5, 5, 5]));
    let shares = [[0, TRUE], [2, GATES]];
    assert_eq!(pair(5, &either, &shares), Err(refused(18, 2, 2, 2)));
}

#[test]
fn a_compared_attribute_is_there_by_any_of_its_entries() {
    let mut tables = yard(&[[2, NO_SWAPS], [2, GATES]]);
    tables.comparisons = vec![2, 0, 2, 7, 0];
    tables.queries.extend([2, 0, 0, 0]);
    assert_eq!(checked(&tables), Err(refused(16, 1, 2, 1)));
    tables.entries[1] = SWAPS;
    assert_eq!(checked(&tables), Err(refused(16, 1, 2, 0)));
    tables.model = u64::from(GATES);
    assert!(checked(&tables).is_ok());
}

#[test]
fn find_looks_at_the_joined_sets() {
    let tables = yard(&[[2, GATES], [0, GATES], [2, SWAPS]]);
    assert_eq!(find(&tables, 0b100), Ok(Some(1)));
    assert_eq!(find(&tables, 0b101), Ok(Some(2)));
}

/// The tree's project list and schema hold no attribute twice.
#[test]
fn the_configured_tree_has_joined_lists() {
    let list = [[2, SWAPS], [0, TRUE], [2, GATES]];
    let tables = projected(&list, &list);
    let lists = form::check(&tables).expect("sound in form");
    for (c, wanted) in [vec![0], vec![2, 0], vec![0, 2], vec![2, 0]]
        .iter()
        .enumerate()
    {
        let report = plain::configured(&tables, Reading::Strict, &lists, c as u64);
        let Tree::Project(list, _) = &report.tree else {
            panic!("the report is a project");
        };
        assert_eq!(list, wanted, "{c}");
        let schema: Attributes = wanted.iter().copied().collect();
        assert_eq!(report.schema[&0], schema, "{c}");
    }
}

// The demands, on generated tables with repeats

/// Tables with repeats, of all families.
fn with_repeats() -> impl Iterator<Item = Tables> {
    let varied = (0..1500).map(made::case);
    let small = (10_000..13_000).map(generate::small);
    let several = (0..500).map(|seed| generate::of_family(Family::Several, seed));
    let long = (0..60).map(|seed| generate::of_family(Family::Repeats, seed));
    let all = varied.chain(small).chain(several).chain(long);
    all.filter(generate::has_repeat)
}

/// Accepted: at every permitted configuration the configured report passes the
/// plain rules, and the rows show its columns. Refused by typing: at the
/// configuration named it breaks one.
#[test]
fn the_configured_report_passes_exactly_where_accepted() {
    let (mut accepted, mut refused) = (0, 0);
    for tables in with_repeats() {
        let lists = form::check(&tables).expect("sound in form");
        let at = |c: u64| plain::configured(&tables, Reading::Strict, &lists, c).columns();
        match checked(&tables) {
            Ok(rows) => {
                accepted += 1;
                for place in expression::permitted(&tables) {
                    let c = place.configuration;
                    let set = shown(&rows, c);
                    let set: Attributes = (0..64).filter(|a| set >> a & 1 == 1).collect();
                    assert_eq!(at(c), Some(set), "{tables:?} at {c}");
                }
            }
            Err(refusal) if is_of_typing(refusal.number) => {
                refused += 1;
                assert_eq!(at(refusal.configuration), None, "{tables:?} {refusal:?}");
            }
            Err(_) => {}
        }
    }
    println!("{accepted} accepted, {refused} refused by typing");
    assert!(accepted > 800 && refused > 150);
}

/// What is written has no repeats, is accepted, shows the same, and is in every
/// list what the sentence says.
#[test]
fn what_configuring_writes_has_no_repeats() {
    let mut random = Random::new(8);
    for tables in with_repeats() {
        let Ok(rows) = checked(&tables) else { continue };
        let permitted = expression::permitted(&tables);
        let c = permitted[random.below(permitted.len())].configuration;
        let plain = written_at(&tables, c);
        assert!(!generate::has_repeat(&plain), "{tables:?} at {c}");
        let plain_rows = checked(&plain).expect("accepted");
        assert_eq!(shown(&plain_rows, 0), shown(&rows, c));
        let kept: Vec<Vec<u16>> = lists_at(&tables, c).iter().map(first_that_hold).collect();
        assert_eq!(written_lists(&tables, c), kept);
    }
}

/// Joining by hand: each list with one entry an attribute, whose expression is
/// the "or" of its entries', has the same answer.
#[test]
fn the_lists_joined_by_hand_give_the_same_answer() {
    let mut compared = 0;
    for tables in with_repeats() {
        let answer = checked(&tables);
        // 14 tests the entries, and not the joined ones.
        if matches!(&answer, Err(refusal) if refusal.number == 14) {
            continue;
        }
        if let Some(joined) = joined_by_hand(&tables) {
            compared += 1;
            assert!(!generate::has_repeat(&joined));
            assert_eq!(checked(&joined), answer, "{tables:?}");
        }
    }
    println!("{compared} compared");
    assert!(compared > 800);
}

/// None where table 0 has no room for the "or"s.
fn joined_by_hand(tables: &Tables) -> Option<Tables> {
    let mut joined = generate::without_repeats(tables, Kept::First);
    let old = form::check(tables).ok()?;
    let new = form::check(&joined).ok()?;
    let both = old.relations.iter().chain(&old.queries);
    let both = both.zip(new.relations.iter().chain(&new.queries));
    for (old, new) in both {
        for entry in new.clone() {
            let [attribute, mut expression] = joined.entry(entry);
            let same = old.clone().map(|e| tables.entry(e));
            let same = same.filter(|other| other[0] == attribute);
            for [_, other] in same.skip(1) {
                joined.expressions.extend([5, expression, other]);
                expression = joined.count(0) as u16 - 1;
            }
            joined.entries[2 * entry + 1] = expression;
        }
    }
    (joined.count(0) <= 256).then_some(joined)
}
