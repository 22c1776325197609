//! The tables that are measured are what they are said to be, and all ways to their
//! answers agree.

use bench::measure::{same_answer, same_filled_answer};
use bench::reports::{self, BigSchema, LeftOut, FEATURES, MIDDLE};
use bench::walk;
use reference::check::{shown, ROWS};
use reference::generate::{self, Family};
use reference::{expression, form, vectors, Reading, Refusal, Tables};

/// All that `big_schema` measures.
fn big_schemas() -> Vec<BigSchema> {
    let all = BigSchema::growths().concat();
    all.into_iter().map(|(_, schema)| schema).collect()
}

/// How many nots stand above the end of an expression's chain, and the end.
fn chain(tables: &Tables, expression: u16) -> (u16, [u16; 3]) {
    match tables.expression(expression.into()) {
        [3, below, _] => {
            let (nots, end) = chain(tables, below);
            (nots + 1, end)
        }
        end => (0, end),
    }
}

#[test]
fn the_wished_schema_is_the_wished_one() {
    let tables = BigSchema::WISHED.tables();
    let counts = [0, 1, 2, 3, 4].map(|table| tables.count(table));
    assert_eq!(counts, [202, 512, 32, 0, 63]);
    assert_eq!((tables.features, tables.attributes), (10, 16));
    for entry in 0..512 {
        let [attribute, expression] = tables.entry(entry);
        assert_eq!(usize::from(attribute), entry % 16);
        assert_eq!(chain(&tables, expression), (200, [2, 9, 0]));
    }
    for relation in 0..32 {
        assert_eq!(tables.relation(relation), [0, 16]);
        assert_eq!(tables.query(relation), [1, relation as u16, 0, 0]);
    }
    assert!((32..63).all(|form| tables.query(form)[0] == 6));
}

#[test]
fn growths_change_one_number_and_have_the_wished_schema() {
    let [relations, nots, features] = BigSchema::growths();
    let numbers = |of: &BigSchema| (of.relations, of.nots, of.features);
    assert!(relations.iter().all(|(x, of)| numbers(of) == (*x, 200, 10)));
    assert!(nots.iter().all(|(x, of)| numbers(of) == (32, *x, 10)));
    assert!(features.iter().all(|(x, of)| numbers(of) == (32, 200, *x)));
    for growth in [relations, nots, features] {
        assert!(growth.iter().any(|(_, of)| numbers(of) == (32, 200, 10)));
    }
}

#[test]
fn big_schemas_are_of_their_numbers() {
    for schema in big_schemas() {
        let tables = schema.tables();
        assert_eq!(tables.features, schema.features.into());
        assert_eq!(tables.count(2), schema.relations.into());
        assert_eq!(tables.count(1), 16 * usize::from(schema.relations));
        assert_eq!(chain(&tables, tables.entry(0)[1]).0, schema.nots);
    }
}

/// The relations are alike, so that the report has an attribute where its entries
/// hold.
#[test]
fn walks_give_the_rows_of_big_schemas() {
    for schema in big_schemas() {
        let tables = schema.tables();
        let mut rows = [7; ROWS];
        assert_eq!(
            reference::check(&tables, Reading::Strict, &mut rows),
            Ok(())
        );
        for configuration in 0..tables.configurations() {
            let set = shown(&rows, configuration);
            for entry in 0..tables.count(1) {
                let [attribute, expression] = tables.entry(entry);
                let holds = walk::holds(&tables, expression, configuration);
                assert_eq!(holds, set >> attribute & 1 == 1);
            }
        }
    }
}

#[test]
fn walks_give_the_values_of_all_kinds() {
    let mut kinds = [0; 7];
    for seed in 0..3000 {
        let tables = generate::of_family(Family::Small, seed);
        if form::check(&tables).is_err() {
            continue;
        }
        for configuration in 0..tables.configurations() {
            let values = expression::values(&tables, configuration);
            for (number, value) in (0..).zip(values) {
                assert_eq!(walk::holds(&tables, number, configuration), value);
                kinds[usize::from(tables.expression(number.into())[0])] += 1;
            }
        }
    }
    assert!(kinds.iter().all(|&walked| walked > 100), "{kinds:?}");
}

#[test]
fn full_reports_are_full() {
    for features in 0..=FEATURES {
        let tables = reports::full(features);
        let counts = [0, 1, 2, 3, 4].map(|table| tables.count(table));
        assert_eq!(counts, [256, 512, 1, 256, 256]);
        assert_eq!((tables.features, tables.attributes), (features.into(), 64));
        assert_eq!(expression::permitted(&tables).len(), 1 << features);
        for form in 1..256 {
            let [kind, _, below, _] = tables.query(form);
            assert!(kind == 2 || kind == 3);
            assert_eq!(usize::from(below), form - 1);
        }
        assert_eq!(same_answer(&tables), Some(Ok(())), "{features} features");
    }
}

/// The last attribute is missing at the last configuration only.
#[test]
fn full_reports_have_all_attributes_but_at_the_last_configuration() {
    for features in 1..=FEATURES {
        let tables = reports::full(features);
        let mut rows = [7; ROWS];
        assert_eq!(
            reference::check(&tables, Reading::Strict, &mut rows),
            Ok(())
        );
        let last = tables.configurations() - 1;
        assert!((0..last).all(|configuration| shown(&rows, configuration) == u64::MAX));
        assert_eq!(shown(&rows, last), u64::MAX >> 1);
    }
}

#[test]
fn so_many_configurations_are_permitted() {
    for free in 0..=FEATURES {
        let tables = reports::full_permitting(free);
        let permitted = expression::permitted(&tables);
        assert_eq!(permitted.len(), 1 << free);
        let last = permitted.last().map(|at| at.configuration);
        assert_eq!(last, Some(1023));
        assert_eq!(same_answer(&tables), Some(Ok(())), "{free} free");
        let refused = reports::refused_last(tables);
        assert_eq!(expression::permitted(&refused).len(), 1 << free);
        let last_of_all = Refusal::new(16, 255, 63, 1023);
        assert_eq!(same_answer(&refused), Some(Err(last_of_all)), "{free} free");
    }
}

#[test]
fn configured_reports_have_no_features_and_the_same_columns() {
    let [(_, union), (_, deep), _] = reports::three_workloads();
    for tables in [union, deep] {
        let plain = reports::configured(&tables, MIDDLE);
        assert_eq!((plain.features, plain.count(0)), (0, 1));
        assert_eq!(plain.count(1), 512);
        let [mut source, mut written] = [[7; ROWS]; 2];
        assert_eq!(
            reference::check(&tables, Reading::Strict, &mut source),
            Ok(())
        );
        assert_eq!(
            reference::check(&plain, Reading::Strict, &mut written),
            Ok(())
        );
        assert_eq!(shown(&written, 0), shown(&source, MIDDLE));
    }
}

/// Ours, the reference's and that of all configurations at once.
#[test]
fn all_answers_to_what_is_measured_agree() {
    let named = |(name, tables): (&str, Tables)| (name.to_string(), tables);
    let mut measured: Vec<(String, Tables)> = Vec::new();
    measured.extend(reports::three_workloads().map(named));
    measured.extend(vectors::berths().into_iter().map(named));
    measured.extend(reports::by_features());
    measured.extend(reports::by_permitted());
    let schemas = big_schemas().into_iter().map(BigSchema::tables);
    measured.extend(schemas.map(|tables| ("a big schema".to_string(), tables)));
    for (name, tables) in measured {
        assert!(same_answer(&tables).is_some(), "{name}");
    }
}

/// Strictly the first is accepted and the second refused; read as filled both are accepted,
/// with the columns that the first has strictly.
#[test]
fn conditions_that_are_left_out_are_filled_in() {
    for (name, LeftOut { repeated, left_out }) in LeftOut::by_permitted() {
        let permitted = expression::permitted(&repeated).len();
        assert!(name.ends_with(&format!(" {permitted} permitted")), "{name}");
        assert_eq!(expression::permitted(&left_out).len(), permitted);
        assert_eq!(same_answer(&repeated), Some(Ok(())), "{name}");
        let number = if name.starts_with("relations") {
            15
        } else {
            17
        };
        let refused = same_answer(&left_out).expect("the same answers");
        assert_eq!(refused.map_err(|refusal| refusal.number), Err(number));
        assert_eq!(same_filled_answer(&left_out), Some(Ok(())), "{name}");
        assert_eq!(same_filled_answer(&repeated), Some(Ok(())), "{name}");
        let [mut strict, mut filled] = [[7; ROWS]; 2];
        assert_eq!(
            reference::check(&repeated, Reading::Strict, &mut strict),
            Ok(())
        );
        assert_eq!(
            reference::check(&left_out, Reading::Filled, &mut filled),
            Ok(())
        );
        assert!(strict == filled, "{name}");
    }
}
