//! Each sentence on the filled reading: hand-worked tables, all small sets of places, and
//! which case of `cases/filled.txt` tells which wrong program.

use crate::common::filled_trees::{Report, RIGHT, WRONG};
use crate::common::{checked, checked_in, configured_in, h1, refused, source_room, written};
use reference::cases::FILES;
use reference::check::{shown, ROWS};
use reference::file::{page_file, print_file, write_file};
use reference::refusal::is_of_typing;
use reference::small::Case;
use reference::tables::{CHOICE, EMPTY, PROJECT, RELATION};
use reference::{find, page, Reading, Refusal, Tables};

const STRICT: Reading = Reading::Strict;
const FILLED: Reading = Reading::Filled;

/// The sets at configurations 0 to 3.
fn columns(answer: Result<Vec<u64>, Refusal>) -> Result<[u64; 4], Refusal> {
    answer.map(|rows| [0, 1, 2, 3].map(|c| shown(&rows, c)))
}

/// H1 with H10's queries.
fn h10() -> Tables {
    let mut tables = h1();
    tables.queries = vec![1, 0, 0, 0, 0, 0, 0, 0, 4, 2, 0, 1, 3, 2, 2, 0];
    tables
}

#[test]
fn h10_is_accepted_here() {
    assert_eq!(checked(&h10()), Err(refused(17, 3, 0, 0)));
    let filled = columns(checked_in(&h10(), FILLED));
    assert_eq!(filled, Ok([0, 0, 0b101, 0b101]));
}

#[test]
fn an_absent_relation_counts_as_empty() {
    let mut tables = h1();
    tables.relations[0] = 2;
    tables.entries.truncate(6);
    tables.queries.truncate(4);
    assert_eq!(checked(&tables), Err(refused(15, 0, 0, 0)));
    let filled = columns(checked_in(&tables, FILLED));
    assert_eq!(filled, Ok([0, 0, 0b111, 0b111]));
}

#[test]
fn a_projected_attribute_is_dropped_where_its_operand_lacks_it() {
    let mut h3 = h1();
    h3.entries[9] = 0;
    assert_eq!(checked(&h3), Err(refused(17, 1, 2, 0)));
    let filled = columns(checked_in(&h3, FILLED));
    assert_eq!(filled, Ok([0b001, 0b001, 0b101, 0b101]));
}

#[test]
fn each_call_that_types_is_told_the_reading() {
    let tables = h10();
    let fault = refused(17, 3, 0, 0);
    let room = source_room(&tables);
    assert_eq!(find(&tables, STRICT, 0b101), Err(fault));
    assert_eq!(find(&tables, FILLED, 0b101), Ok(Some(2)));
    assert_eq!(page(&tables, STRICT, &mut [0; 292]), Err(fault));
    assert_eq!(page(&tables, FILLED, &mut [0; 292]), Ok(4));
    assert_eq!(configured_in(&tables, STRICT, 0, room), Err(fault));
    assert!(configured_in(&tables, FILLED, 0, room).is_ok());
}

#[test]
fn the_programs_stay_strict() {
    let text = write_file(&h10());
    assert_eq!(print_file(&text), b"(refused 17 3 0 0)\n");
    assert_eq!(page_file(&text), b"(refused 17 3 0 0)\n");
}

#[test]
fn configuring_writes_empty_and_leaves_dropped_entries_out() {
    let mut absent = h1();
    absent.relations[0] = 2;
    let at = |tables: &Tables, c| {
        let lent = configured_in(tables, FILLED, c, source_room(tables));
        written(tables, lent.expect("accepted"))
    };
    let plain = at(&absent, 1);
    assert!(plain.relations.is_empty() && plain.entries.is_empty());
    assert_eq!(plain.queries, [EMPTY, 0, 0, 0, PROJECT, 0, 0, 0]);
    let plain = at(&h10(), 0);
    assert_eq!(plain.entries, [0, 0, 1, 0]);
    assert_eq!(plain.queries, [EMPTY, 0, 0, 0, PROJECT, 0, 0, 0]);
    let plain = at(&h10(), 3);
    assert_eq!(plain.entries, [0, 0, 1, 0, 2, 0, 0, 0, 2, 0]);
    assert_eq!(plain.queries, [RELATION, 0, 0, 0, PROJECT, 2, 0, 0]);
}

// All small sets of places

/// Two features. Expression 0 is false, 1 to 4 are the features and their negations, 5 + c
/// holds at configuration c alone, and 9 is true.
fn of_sets(attributes: u64) -> Tables {
    let features = [[2, 0, 0], [2, 1, 0], [3, 1, 0], [3, 2, 0]];
    let configurations = [[4, 3, 4], [4, 1, 4], [4, 3, 2], [4, 1, 2]];
    let expressions = [vec![[0, 0, 0]], features.into(), configurations.into()];
    Tables {
        features: 2,
        attributes,
        model: 9,
        expressions: [expressions.concat().concat(), vec![1, 0, 0]].concat(),
        ..Tables::default()
    }
    .of_moments()
}

/// The expression that holds at the configurations of the set.
fn holding_at(set: u16, tables: &mut Tables) -> u16 {
    let one = |c: u16| 5 + c;
    let configurations = (0..4).filter(|c| set >> c & 1 == 1);
    configurations.fold(0, |any, c| tables.add_expression([5, any, one(c)]))
}

fn lowest(set: u16) -> u64 {
    set.trailing_zeros().into()
}

/// The rows' word of attribute 0, or the refusal.
fn word_of_0(tables: &Tables) -> Result<u64, Refusal> {
    checked_in(tables, FILLED).map(|rows| rows[0])
}

/// "15 if, and only if, it is reached somewhere and absent everywhere it is reached": all
/// places where it is present, and where it is reached.
#[test]
fn fifteen_exactly_when() {
    for present in 1..16 {
        for reached in 0..16 {
            let mut tables = of_sets(1);
            let [presence, guard] = [present, reached].map(|set| holding_at(set, &mut tables));
            tables.entries = vec![0, 9];
            tables.relations = vec![presence, 1];
            tables.queries = vec![RELATION, 0, 0, 0, EMPTY, 0, 0, 0, CHOICE, guard, 0, 1];
            let both = present & reached;
            let answer = match reached != 0 && both == 0 {
                true => Err(refused(15, 0, 0, lowest(reached))),
                false => Ok(u64::from(both)),
            };
            assert_eq!(word_of_0(&tables), answer, "{present} {reached}");
        }
    }
}

/// "17 if, and only if, it holds somewhere reached and its attribute is missing at all such
/// places": all places where the attribute is there, where each of its two entries holds,
/// and where the project is reached.
#[test]
fn seventeen_exactly_when() {
    for there in 1..16 {
        for sets in 0..16 * 16 * 16 {
            let [one, other, reached] = [sets & 15, sets >> 4 & 15, sets >> 8];
            let mut tables = of_sets(1);
            let all = [there, one, other, reached].map(|set| holding_at(set, &mut tables));
            tables.entries = vec![0, all[0], 0, all[1], 0, all[2]];
            tables.relations = vec![9, 1];
            tables.queries = vec![RELATION, 0, 0, 0, PROJECT, 2, 0, 0, EMPTY, 0, 0, 0];
            tables.queries.extend([CHOICE, all[3], 1, 2]);
            let listed = (one | other) & reached;
            let answer = match listed != 0 && listed & there == 0 {
                true => Err(refused(17, 1, 0, lowest(listed))),
                false => Ok(u64::from(listed & there)),
            };
            assert_eq!(
                word_of_0(&tables),
                answer,
                "{there} {one} {other} {reached}"
            );
        }
    }
}

/// "Either gives the lowest such configuration": of two attributes at fault the one that
/// is listed at the lowest, and there the lowest of them.
#[test]
fn the_lowest_configuration_then_the_lowest_attribute() {
    for sets in 1..16 * 16 {
        let listed = [sets & 15, sets >> 4];
        let mut tables = of_sets(2);
        let [one, other] = listed.map(|set| holding_at(set, &mut tables));
        tables.entries = vec![1, other, 0, one];
        tables.queries = vec![EMPTY, 0, 0, 0, PROJECT, 2, 0, 0];
        let faults = (0..).zip(listed).filter(|(_, set)| *set != 0);
        let first = faults
            .map(|(attribute, set)| (lowest(set), attribute))
            .min();
        let (c, attribute) = first.expect("one is listed");
        let fault = Err(refused(17, 1, attribute, c));
        assert_eq!(word_of_0(&tables), fault, "{listed:?}");
    }
}

// The stored cases

/// The tables of the checks in `cases/filled.txt`, in the filled reading, that get as far
/// as typing.
fn stored() -> Vec<(u64, Tables)> {
    let mut files = FILES.iter();
    let file = files.find(|file| file.name == "filled");
    let mut all = Vec::new();
    for (number, aimed) in file.expect("there is such a file").numbered() {
        if let Case::Check {
            tables,
            reading: FILLED,
            room: ROWS,
        } = aimed.case
        {
            all.push((number, tables));
        }
    }
    all.retain(|(_, tables)| match checked_in(tables, FILLED) {
        Err(refusal) => is_of_typing(refusal.number),
        Ok(_) => true,
    });
    all
}

#[test]
fn the_stored_cases_in_another_way_and_each_wrong_program_told() {
    let mut told = [0; WRONG.len()];
    for (number, tables) in stored() {
        let fault = checked_in(&tables, FILLED).err();
        let report = Report::of(&tables);
        assert_eq!(report.first_fault(&RIGHT), fault, "{number}");
        for (wrong, told) in WRONG.iter().zip(&mut told) {
            *told += u64::from(report.first_fault(wrong) != fault);
        }
    }
    for (wrong, told) in WRONG.iter().zip(told) {
        println!("{}: {told}", wrong.words);
        assert!(told > 0, "{}", wrong.words);
    }
}
