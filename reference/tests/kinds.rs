//! The kinds of attributes and of constants: the sentences on them one by one;
//! generated cases against `plain`, and against the same with all kinds 0; and which
//! stored case tells which wrong program.

use std::collections::BTreeMap;

use crate::common::kind_readings::{self, without_kinds, RIGHT, WRONG};
use crate::common::{checked, checked_with, configured_with, find, h1, made, paged_with, refused};
use crate::common::{source_room, written};
use reference::cases::{Aimed, FILES};
use reference::check::{shown, ROWS};
use reference::file::{print_file, read_file, write_file, write_file_with_kinds};
use reference::generate::{self, Family};
use reference::plain;
use reference::random::Random;
use reference::refusal::{is_of_form, is_of_typing};
use reference::small::{self, Case, H1};
use reference::{expression, form, Reading, Refusal, Tables};

/// Features 0 and 1; attributes arrival 0 (a moment), passengers 1 (a count), crew 2 (a
/// count) and vessel 3 (a name), of which the second is listed under the expression:
/// 0 true, 1 and 2 the features, 3 both, 4 not both. The report selects by the last
/// comparison.
fn ferry(passengers: u16, comparisons: &[[u16; 5]]) -> Tables {
    Tables {
        features: 2,
        attributes: 4,
        model: 0,
        expressions: vec![1, 0, 0, 2, 0, 0, 2, 1, 0, 4, 1, 2, 3, 3, 0],
        entries: vec![0, 0, 1, passengers, 2, 0, 3, 0],
        relations: vec![0, 4],
        comparisons: comparisons.concat(),
        queries: vec![1, 0, 0, 0, 2, comparisons.len() as u16 - 1, 0, 0],
        kinds: vec![0, 1, 1, 2],
    }
}

const ALWAYS: [u16; 5] = [1, 0, 0, 0, 0];

// "A report compared an arrival with a passenger count."

#[test]
fn an_arrival_is_no_count() {
    let tables = ferry(0, &[[3, 0, 0, 1, 0]]);
    let fault = Err(refused(25, 1, 0, 0));
    assert_eq!(checked(&tables), fault.clone());
    assert_eq!(find(&tables, u64::MAX).map(|_| vec![]), fault);
    assert_eq!(paged_with(&tables, 0).map(|_| vec![]), fault);
    assert_eq!(
        configured_with(&tables, 9, [0; 4]),
        Err(refused(25, 1, 0, 0))
    );
    assert!(checked(&ferry(0, &[[3, 0, 1, 2, 0]])).is_ok());
}

// "Each attribute gets a kind in a lent table of m words: 0 moment, 1 count, 2 name."

#[test]
fn the_table_has_m_words_of_three_kinds() {
    for m in 0..=64 {
        for length in 0..=66 {
            let mut tables = h1();
            tables.attributes = m;
            tables.entries = vec![];
            tables.relations = vec![];
            tables.queries = vec![0; 4];
            tables.kinds = (0..length).map(|word| word % 3).collect();
            let is_sound = u64::from(length) == m;
            assert_eq!(checked(&tables).is_ok(), is_sound, "{m} {length}");
            if !is_sound {
                assert_eq!(checked(&tables), Err(refused(24, 0, 0, 0)));
            }
        }
    }
    for word in 0..3 {
        for kind in [3, 4, 255, 256, 258, 65535] {
            let mut tables = h1();
            tables.kinds[word] = kind;
            assert_eq!(checked(&tables), Err(refused(24, word as u64, 0, 0)));
        }
    }
}

// "A constant's kind stands in word c of comparison kind 2, which 7 no longer wants 0."

#[test]
fn word_c_is_a_kind_in_kind_2_only() {
    for c in 0..=2 {
        let answer = checked(&ferry(0, &[[2, 0, c, 7, c]]));
        // Attribute 2 is a count.
        let wanted = if c == 2 {
            Some(refused(25, 1, 2, 0))
        } else {
            None
        };
        assert_eq!(answer.err(), wanted);
    }
    for c in [3, 65535] {
        let tables = ferry(0, &[ALWAYS, [2, 0, 0, 7, c]]);
        assert_eq!(checked(&tables), Err(refused(24, 1, 0, 0)));
    }
    let others = [
        [0, 0, 0, 0, 1],
        [1, 0, 0, 0, 1],
        [3, 0, 1, 2, 1],
        [4, 0, 0, 0, 1],
        [5, 0, 0, 0, 1],
        [6, 0, 0, 0, 1],
    ];
    for other in others {
        let tables = ferry(0, &[ALWAYS, other]);
        assert_eq!(checked(&tables), Err(refused(7, 1, 0, 0)), "{other:?}");
    }
}

// "Both sides must have one kind at every configuration that reaches them."

#[test]
fn at_every_configuration_that_reaches_them() {
    let clash = [3, 0, 3, 0, 0];
    for (expression, at) in [(0, 0), (1, 1), (2, 2), (3, 3), (4, 0)] {
        let tables = ferry(0, &[clash, ALWAYS, [7, 0, expression, 0, 1]]);
        assert_eq!(checked(&tables), Err(refused(25, 1, 3, at)));
        let elsewhere = ferry(0, &[ALWAYS, clash, [7, 0, expression, 0, 1]]);
        let at = [None, Some(0), Some(0), Some(0), Some(3)][usize::from(expression)];
        let wanted = at.map(|at| refused(25, 1, 3, at));
        assert_eq!(checked(&elsewhere).err(), wanted, "{expression}");
    }
    // Under the model, and by a choice above the select.
    let mut tables = ferry(0, &[clash, ALWAYS, [7, 0, 1, 0, 1]]);
    tables.model = 3;
    assert_eq!(checked(&tables), Err(refused(25, 1, 3, 3)));
    tables.model = 2;
    tables.comparisons[12] = 4;
    assert_eq!(checked(&tables), Err(refused(25, 1, 3, 2)));
    tables.queries.extend([0, 0, 0, 0, 4, 1, 1, 2]);
    assert!(checked(&tables).is_ok());
}

#[test]
fn what_no_select_reaches_is_not_judged() {
    let mut tables = ferry(0, &[[3, 0, 0, 1, 0], ALWAYS]);
    assert!(checked(&tables).is_ok());
    tables.queries[5] = 0;
    assert_eq!(checked(&tables), Err(refused(25, 1, 0, 0)));
}

// "Where 24 finds nothing, a report with no comparisons is judged as before."

#[test]
fn a_report_with_no_comparisons_is_judged_the_same_whatever_the_kinds() {
    let mut random = Random::new(5);
    let mut compared = BTreeMap::new();
    for mut tables in (0..4000)
        .map(made::case)
        .chain((0..2000).map(generate::small))
    {
        if !tables.comparisons.is_empty() && random.chance(1, 2) {
            tables.comparisons.clear();
        }
        if !tables.comparisons.is_empty() || tables.attributes > 64 {
            continue;
        }
        tables.kinds = vec![0; tables.attributes as usize];
        let before = checked(&tables);
        for _ in 0..3 {
            tables.kinds.fill_with(|| random.below(3) as u16);
            assert_eq!(checked(&tables), before, "{tables:?}");
        }
        let number = before.err().map_or(0, |refusal| refusal.number);
        *compared.entry(number).or_insert(0) += 1;
    }
    println!("{compared:?}");
    assert!(compared[&0] > 800 && compared.len() > 12);
}

// "The plain rules gain the same sentence, over the same kind table."

#[test]
fn the_plain_rules_have_it_too() {
    let (mut accepted, mut refused) = (0, 0);
    for tables in (0..3000)
        .map(made::case)
        .chain((0..3000).map(generate::small))
    {
        let Ok(lists) = form::check(&tables) else {
            continue;
        };
        let passes = |c: u64| plain::configured(&tables, Reading::Strict, &lists, c).columns();
        match checked(&tables) {
            Ok(rows) => {
                accepted += 1;
                for at in expression::permitted(&tables) {
                    let set = shown(&rows, at.configuration);
                    let set = (0..64).filter(|a| set >> a & 1 == 1).collect();
                    assert_eq!(passes(at.configuration), Some(set));
                }
            }
            Err(refusal) if refusal.number == 25 => {
                refused += 1;
                assert_eq!(passes(refusal.configuration), None);
            }
            Err(_) => {}
        }
    }
    println!("{accepted} accepted, {refused} by 25");
    assert!(accepted > 2000 && refused > 150);
}

#[test]
fn what_configuring_writes_is_accepted_with_the_same_kinds() {
    let mut random = Random::new(9);
    let mut kinds = 0;
    for tables in (0..1500).map(generate::accepted) {
        let permitted = expression::permitted(&tables);
        let c = permitted[random.below(permitted.len())].configuration;
        let lent = configured_with(&tables, c, source_room(&tables)).expect("accepted");
        let plain = written(&tables, lent);
        assert_eq!(plain.kinds, tables.kinds);
        assert!(checked(&plain).is_ok());
        let constants = |tables: &Tables| {
            let forms = tables.comparisons.chunks(5).filter(|form| form[0] == 2);
            forms.map(<[u16]>::to_vec).collect::<Vec<_>>()
        };
        assert_eq!(constants(&plain), constants(&tables));
        kinds += u64::from(constants(&tables).iter().any(|form| form[4] > 0));
    }
    assert!(kinds > 400);
}

// "A harbour file may end in (kind k) lines, at most 64; with none, all kinds are 0."

fn printed(text: &str) -> String {
    String::from_utf8(print_file(text.as_bytes())).unwrap()
}

#[test]
fn kind_lines_end_a_file() {
    assert_eq!(h1().kinds, [0, 0, 0]);
    let kinds = "(kind 2)\n(kind 1)\n(kind 65535)\n";
    let tables = read_file(format!("{H1}{kinds}").as_bytes()).unwrap();
    assert_eq!(tables.kinds, [2, 1, 65535]);
    assert_eq!(printed(&format!("{H1}{kinds}")), "(refused 24 2 0 0)\n");
    for lines in (0..=64).filter(|&lines| lines != 3) {
        let text = format!("{H1}{}", "(kind 0)\n".repeat(lines));
        let wanted = match lines {
            0 => "(accepted)\n(at 0 (has 0))\n(at 1 (has 0))\n(at 2 (has 0 2))\n(at 3 (has 0 2))\n",
            _ => "(refused 24 0 0 0)\n",
        };
        assert_eq!(printed(&text), wanted);
    }
    let text = format!("{H1}{}", "(kind 0)\n".repeat(65));
    assert_eq!(printed(&text), "(unread 77)\n");
    assert_eq!(
        printed(&format!("{H1}(kind 0)\n(query 0 0 0 0)\n")),
        "(unread 14)\n"
    );
    for line in [
        "(kind)\n",
        "(kind 0 0)\n",
        "(kind 00)\n",
        "(kind 65536)\n",
        "(kind 0)",
    ] {
        assert_eq!(printed(&format!("{H1}{line}")), "(unread 13)\n", "{line}");
    }
    // 1 comes first where m is over 64, with no kind lines and with some.
    let wide = H1.replace("(head 2 3 0)", "(head 2 65 0)");
    assert_eq!(printed(&wide), "(refused 1 1 0 0)\n");
    assert_eq!(printed(&format!("{wide}(kind 9)\n")), "(refused 1 1 0 0)\n");
}

#[test]
fn a_file_with_kind_lines_of_0_is_the_same_as_without() {
    let mut compared = 0;
    for seed in 0..1500 {
        let tables = made::case(seed);
        let kinds = vec![0; tables.attributes.min(64) as usize];
        let tables = Tables { kinds, ..tables };
        let [without, with] = [write_file(&tables), write_file_with_kinds(&tables)];
        compared += u64::from(without != with);
        assert_eq!(print_file(&without), print_file(&with));
    }
    assert!(compared > 1000);
}

// 24: "not m words (place 0), else a kind over 2 there (place the word), else one in a
// comparison (place the form), checked after 10"

#[test]
fn the_parts_of_24_and_its_place() {
    let mut tables = ferry(0, &[ALWAYS, [2, 0, 0, 7, 3], [2, 0, 0, 7, 9]]);
    assert_eq!(checked(&tables), Err(refused(24, 1, 0, 0)));
    tables.kinds = vec![0, 1, 3, 3];
    assert_eq!(checked(&tables), Err(refused(24, 2, 0, 0)));
    tables.kinds.push(0);
    assert_eq!(checked(&tables), Err(refused(24, 0, 0, 0)));
    for room in [0, 1023, 1024, 1025] {
        assert_eq!(checked_with(&tables, room), Err(refused(24, 0, 0, 0)));
    }
    // Before 12 and what comes later.
    tables.expressions.extend([0, 0, 0]);
    tables.model = 5;
    assert_eq!(checked(&tables), Err(refused(24, 0, 0, 0)));
    // After 10.
    tables.entries.extend([0, 0]);
    assert_eq!(checked(&tables), Err(refused(10, 4, 0, 0)));
}

// 25: "a typing fault looked for in a form only when 16 fails there at no
// configuration, place form, item the lowest left attribute at fault, with the lowest
// configuration"

#[test]
fn in_one_form_16_comes_first() {
    // Attribute 1 is missing at 3, and arrival is below a count from 0 on.
    let both = [[2, 0, 0, 7, 1], [2, 0, 1, 7, 1], [5, 0, 0, 1, 0]];
    assert_eq!(checked(&ferry(4, &both)), Err(refused(16, 1, 1, 3)));
    assert_eq!(checked(&ferry(0, &both)), Err(refused(25, 1, 0, 0)));
    // Not permitted at 3, it fails there at no configuration.
    let mut tables = ferry(4, &both);
    tables.model = 4;
    assert_eq!(checked(&tables), Err(refused(25, 1, 0, 0)));
}

#[test]
fn a_lower_form_comes_first() {
    let forms = [[2, 0, 0, 7, 1], [2, 0, 1, 7, 1]];
    for (first, second, wanted) in [(0, 1, refused(25, 1, 0, 0)), (1, 0, refused(16, 1, 1, 3))] {
        let mut tables = ferry(4, &forms);
        tables.queries = vec![1, 0, 0, 0, 2, first, 0, 0, 2, second, 1, 0];
        assert_eq!(checked(&tables), Err(wanted));
    }
}

#[test]
fn the_item_is_the_lowest_left_attribute() {
    let forms = [[3, 0, 3, 0, 0], [3, 0, 2, 3, 0], [6, 0, 0, 1, 0]];
    assert_eq!(checked(&ferry(0, &forms)), Err(refused(25, 1, 2, 0)));
    assert_eq!(checked(&ferry(0, &forms[..1])), Err(refused(25, 1, 3, 0)));
    // Of the lowest configuration, not of all.
    let forms = [[2, 0, 3, 0, 0], [2, 0, 0, 0, 2], [7, 0, 1, 1, 0]];
    assert_eq!(checked(&ferry(0, &forms)), Err(refused(25, 1, 3, 0)));
}

#[test]
fn sharing_takes_no_time() {
    for (attribute, wanted) in [(1, None), (0, Some(refused(25, 1, 0, 0)))] {
        let mut forms = vec![[3, 0, attribute, 2, 0]];
        forms.extend((0..255).map(|last| [5, 0, last, last, 0]));
        assert_eq!(checked(&ferry(0, &forms)).err(), wanted);
    }
}

// Generated cases

/// Calls of all families, but for the largest, and small ones.
fn calls() -> impl Iterator<Item = Case> {
    let varied = (0..3000).map(made::case);
    let several = (0..500).map(|seed| generate::of_family(Family::Several, seed));
    let not_large = |tables: &Tables| tables.count(4) << tables.features.min(10) < 10_000;
    let checks = varied.chain(several).filter(not_large);
    let checks = checks.map(|tables| Case::check(tables, Reading::Strict, ROWS));
    checks.chain((0..6000).map(small::case))
}

/// What is answered is what was answered before there were kinds, but for 24 and 25,
/// which are found here in another way.
#[test]
fn all_else_is_as_before() {
    let mut compared = 0;
    for case in calls() {
        if let Some(answer) = kind_readings::answer(&case, &RIGHT) {
            compared += 1;
            assert_eq!(answer, small::answer(&case), "{case:?}");
        }
    }
    println!("{compared}");
    assert!(compared > 8000);
}

/// With all kinds 0, the constants' too, neither 24 nor 25 is given.
#[test]
fn with_all_kinds_0_there_is_no_fault_of_kinds() {
    for tables in (0..3000).map(made::case) {
        let tables = without_kinds(&tables);
        let number = checked(&tables).err().map_or(0, |refusal| refusal.number);
        assert!(number != 24 && number != 25, "{tables:?}");
    }
}

/// 25 changes a report to refused only: where 24 finds nothing, what is accepted has
/// the rows of the same report with all kinds 0, and what is refused for another
/// reason than 25 is so refused, or by 25 in a lower form.
#[test]
fn kinds_change_no_columns() {
    let mut kept: BTreeMap<u64, u64> = BTreeMap::new();
    for tables in (0..3000).map(made::case) {
        let before = checked(&without_kinds(&tables));
        let now = checked(&tables);
        match (&before, &now) {
            (_, Err(Refusal { number: 24, .. })) => continue,
            (Ok(_), Err(refusal)) => assert_eq!(refusal.number, 25),
            (Err(other), Err(refusal)) if refusal.number == 25 => {
                assert!(is_of_typing(other.number) && refusal.place < other.place);
            }
            _ => assert_eq!(before, now),
        }
        let number = now.err().map_or(0, |refusal: Refusal| refusal.number);
        *kept.entry(number).or_default() += 1;
        assert!(!is_of_form(number) || before.is_err());
    }
    println!("{kept:?}");
    assert!(kept[&0] > 1500 && kept[&25] > 40);
}

// Stored cases

/// The cases of `cases/kinds.txt`, with their numbers.
fn stored() -> Vec<(u64, Aimed)> {
    let mut files = FILES.iter();
    let file = files.find(|file| file.name == "kinds");
    file.expect("there is such a file").numbered()
}

/// For each wrong program the number of a case that tells it.
const TELLING: [(&str, u64); 29] = [
    ("a longer kind table let through", 5007),
    ("a kind table of 64 words let through", 5008),
    ("kind 3 let through", 5017),
    ("kinds in eight bits", 5020),
    ("a kind over 2 before the length", 5013),
    ("constants of any kind let through", 5023),
    ("constants over 2 only where a query names them", 5026),
    ("constants before the kind table", 5029),
    ("24 before 10", 5034),
    ("24 after 11", 5036),
    ("24 after 12", 5039),
    ("24 after 14", 5040),
    ("kinds never differ", 5042),
    ("constants have the kind that is wanted", 5052),
    ("only constants have kinds", 5042),
    ("the constant itself is the kind", 5054),
    ("the lower side is the item", 5060),
    ("the highest attribute is the item", 5059),
    ("both alternatives of a choice", 5067),
    ("the other alternative of a choice", 5068),
    ("every comparison, selected or not", 5066),
    ("the selected form alone, nothing under it", 5055),
    ("at the lowest permitted configuration only", 5068),
    ("at configurations that are not permitted too", 5079),
    ("where the select is not reached too", 5076),
    ("the comparison is the place", 5062),
    (
        "in one form the lowest configuration first, whether 16 or 25",
        5083,
    ),
    ("in one form 25 first", 5085),
    ("25 after all other typing faults", 5088),
];

#[test]
fn each_wrong_program_is_told_by_a_case() {
    let stored: BTreeMap<u64, Aimed> = stored().into_iter().collect();
    for (reading, (words, number)) in WRONG.iter().zip(TELLING) {
        assert_eq!(reading.words, words);
        let Aimed { case, answer, .. } = &stored[&number];
        let wrong = kind_readings::answer(case, reading).expect("no text");
        assert_ne!(&wrong, answer, "{words}");
    }
}

#[test]
fn the_stored_cases_in_another_way() {
    for (number, Aimed { case, answer, .. }) in stored() {
        if let Some(other) = kind_readings::answer(&case, &RIGHT) {
            assert_eq!(other, answer, "{number}");
        }
    }
}
