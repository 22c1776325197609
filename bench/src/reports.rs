//! The tables that more than one program measures.

use reference::random::Random;
use reference::tables::WIDTHS;
use reference::{Reading, Tables};

pub const FEATURES: u16 = 10;
pub const ATTRIBUTES: u16 = 64;
pub const FORMS: u16 = 256;

/// A configuration in the middle: every other feature is on.
pub const MIDDLE: u64 = 0b10_1010_1010;

/// The union of relations that each list the same 16 attributes, every entry under one
/// chain of nots.
#[derive(Clone, Copy)]
pub struct BigSchema {
    pub features: u16,
    pub relations: u16,
    pub nots: u16,
}

impl BigSchema {
    /// As Wish 6 words it.
    pub const WISHED: BigSchema = BigSchema {
        features: FEATURES,
        relations: 32,
        nots: 200,
    };

    /// The attributes that each relation lists.
    pub const LISTED: u16 = 16;

    /// The number of the expression that the chain ends in.
    pub const LAST_FEATURE: u16 = 1;

    /// Schemas with other numbers of relations, of nots and of features, each number by
    /// itself: the number, and the schema.
    pub fn growths() -> [Vec<(u16, BigSchema)>; 3] {
        let wished = BigSchema::WISHED;
        let relations = [1, 4, 16, 32].map(|relations| BigSchema {
            relations,
            ..wished
        });
        let nots = [1, 10, 50, 100, 200, 250].map(|nots| BigSchema { nots, ..wished });
        let features = (0..=FEATURES).map(|features| BigSchema { features, ..wished });
        [
            relations.map(|of| (of.relations, of)).to_vec(),
            nots.map(|of| (of.nots, of)).to_vec(),
            features.map(|of| (of.features, of)).collect(),
        ]
    }

    /// The chain ends in the last feature, and without features in true.
    pub fn tables(self) -> Tables {
        let end = match self.features {
            0 => [1, 0, 0],
            features => [2, features - 1, 0],
        };
        let mut expressions = vec![[1, 0, 0], end];
        expressions.extend((1..=self.nots).map(|form| [3, form, 0]));
        let top = expressions.len() as u16 - 1;
        let list = (0..Self::LISTED).flat_map(|attribute| [attribute, top]);
        Tables {
            features: self.features.into(),
            attributes: Self::LISTED.into(),
            model: 0,
            expressions: expressions.concat(),
            entries: list.collect::<Vec<_>>().repeat(self.relations.into()),
            relations: [0, Self::LISTED].repeat(self.relations.into()),
            queries: self.union().concat(),
            ..Tables::default()
        }
        .of_moments()
    }

    /// The relations, and then each union of what is joined so far with one more.
    fn union(self) -> Vec<[u16; 4]> {
        let mut queries: Vec<[u16; 4]> = (0..self.relations).map(|r| [1, r, 0, 0]).collect();
        let mut joined = 0;
        for relation in 1..self.relations {
            queries.push([6, joined, relation, 0]);
            joined = queries.len() as u16 - 1;
        }
        queries
    }
}

/// In every expression table of a full report: true.
pub const ALWAYS: u16 = 0;

/// There too: the expression that holds at all configurations but the last. Without
/// features it would hold nowhere, and true stands for it.
pub const fn not_last(features: u16) -> u16 {
    2 * features
}

/// There too: the first so many features are on.
pub const fn first_on(features: u16, first: u16) -> u16 {
    match first {
        0 | 1 => first,
        _ => features + first - 1,
    }
}

/// True; the features; the first two, three and so on are on; and not all are.
pub fn first_expressions(features: u16) -> Vec<[u16; 3]> {
    let mut forms = vec![[1, 0, 0]];
    forms.extend((0..features).map(|feature| [2, feature, 0]));
    forms.extend((2..=features).map(|first| [4, first_on(features, first - 1), first]));
    if features > 0 {
        forms.push([3, first_on(features, features), 0]);
    }
    forms
}

pub fn mixed_expressions(features: u16) -> Vec<[u16; 3]> {
    let mut random = Random::new(1);
    let mut forms = first_expressions(features);
    while forms.len() < FORMS.into() {
        let mut lower = || random.below(forms.len()) as u16;
        let (a, b) = (lower(), lower());
        forms.push(random.pick(&[[3, a, 0], [4, a, b], [5, a, b]]));
    }
    forms
}

/// Comparison 63 names attribute 63 everywhere; all that is built on the others
/// names it where `not_last` holds only.
const LAST_NAMED: u16 = 63;

pub fn mixed_comparisons(features: u16) -> Vec<[u16; 5]> {
    let mut random = Random::new(2);
    let mut forms: Vec<[u16; 5]> = (0..ATTRIBUTES).map(|a| [2, a % 6, a, 500, 0]).collect();
    forms.push([7, 0, not_last(features), LAST_NAMED, 0]);
    while forms.len() < FORMS.into() {
        let mut lower = || match random.below(forms.len()) as u16 {
            LAST_NAMED => 64,
            other => other,
        };
        let (a, b) = (lower(), lower());
        let condition = random.below(FORMS.into()) as u16;
        forms.push(random.pick(&[
            [4, 0, a, 0, 0],
            [5, 0, a, b, 0],
            [6, 0, a, b, 0],
            [7, 0, condition, a, b],
        ]));
    }
    forms
}

/// A report of 256 forms, each on the one below it: a relation of 64 attributes,
/// seven projects that keep them all, and selects; 512 entries in all, of which
/// the last attribute's hold at all configurations but the last.
pub fn deep(features: u16, expressions: Vec<[u16; 3]>, comparisons: Vec<[u16; 5]>) -> Tables {
    let list = (0..ATTRIBUTES).map(|a| match a {
        63 => [a, not_last(features)],
        _ => [a, ALWAYS],
    });
    let mut queries = vec![[1, 0, 0, 0]];
    for form in 1..FORMS {
        queries.push(match (form % 32, form) {
            (0, _) => [3, ATTRIBUTES, form - 1, 0],
            (_, LAST_NAMED) => [2, 64, form - 1, 0],
            _ => [2, form, form - 1, 0],
        });
    }
    Tables {
        features: features.into(),
        attributes: ATTRIBUTES.into(),
        model: ALWAYS.into(),
        expressions: expressions.concat(),
        entries: list.collect::<Vec<_>>().concat().repeat(8),
        relations: vec![0, ATTRIBUTES],
        comparisons: comparisons.concat(),
        queries: queries.concat(),
        ..Tables::default()
    }
    .of_moments()
}

/// All tables but that of relations are full, and all configurations are permitted.
pub fn full(features: u16) -> Tables {
    let expressions = mixed_expressions(features);
    deep(features, expressions, mixed_comparisons(features))
}

/// The last form of a full report selects by an attribute that is missing at the last
/// configuration only.
pub fn refused_last(mut tables: Tables) -> Tables {
    let last = tables.queries.len() - 4;
    tables.queries[last..].copy_from_slice(&[2, LAST_NAMED, FORMS - 2, 0]);
    tables
}

/// The full report of ten features where the first of them, all but `free`, have to be
/// on: 2^free configurations are permitted, and the last is one of them.
pub fn full_permitting(free: u16) -> Tables {
    let mut tables = full(FEATURES);
    tables.model = first_on(FEATURES, FEATURES - free).into();
    // The relation has the last attribute everywhere. Where the last configuration
    // alone is permitted, its entry would else hold nowhere, which is refusal 14.
    let last_listed = usize::from(ATTRIBUTES) - 1;
    tables.entries[2 * last_listed + 1] = ALWAYS;
    tables
}

/// A report that repeats the schema's conditions, and the same report without them: read
/// as filled, the second has the columns that the first has strictly.
pub struct LeftOut {
    pub repeated: Tables,
    pub left_out: Tables,
}

impl LeftOut {
    /// A full report of ten features of which all but `free` have to be on. The relation
    /// has the last attribute but at the last configuration; the seven projects say so
    /// too, or not.
    pub fn projects(free: u16) -> LeftOut {
        let mut repeated = full(FEATURES);
        repeated.model = first_on(FEATURES, FEATURES - free).into();
        let mut left_out = repeated.clone();
        let lists = left_out
            .entries
            .chunks_exact_mut(2 * usize::from(ATTRIBUTES));
        for list in lists.skip(1) {
            list[2 * usize::from(ATTRIBUTES) - 1] = ALWAYS;
        }
        LeftOut { repeated, left_out }
    }

    /// The union of 32 relations that are there with the last feature only: with a choice
    /// between it and empty, or not. Of the ten features all but `free` have to be on.
    pub fn relations(free: u16) -> LeftOut {
        let mut left_out = BigSchema::WISHED.tables();
        // The first features are on, one after another: the last such expression is the model.
        let mut on = 0;
        for feature in 0..FEATURES - free {
            let number = left_out.count(0) as u16;
            left_out.expressions.extend([2, feature, 0, 4, on, number]);
            on = number + 1;
        }
        left_out.model = on.into();
        for relation in left_out.relations.chunks_exact_mut(2) {
            relation[0] = BigSchema::LAST_FEATURE;
        }
        let mut repeated = left_out.clone();
        let union = repeated.count(4) as u16 - 1;
        let choice = [4, BigSchema::LAST_FEATURE, union, union + 1];
        repeated.queries.extend([[0; 4], choice].concat());
        LeftOut { repeated, left_out }
    }

    /// Both by the number of configurations that are permitted, more than 64 first.
    pub fn by_permitted() -> Vec<(String, LeftOut)> {
        let name = |what: &str, free: u16| format!("{what}, {} permitted", 1 << free);
        let both = |free: u16| {
            [
                (name("relations", free), LeftOut::relations(free)),
                (name("projects", free), LeftOut::projects(free)),
            ]
        };
        [10, 8, 7, 6, 4, 2].into_iter().flat_map(both).collect()
    }
}

/// What configuring an accepted report writes, as tables of their own.
pub fn configured(tables: &Tables, configuration: u64) -> Tables {
    let mut words = [1, 2, 3, 4].map(|table| vec![0; tables.words(table).len()]);
    let lent = words.each_mut().map(Vec::as_mut_slice);
    let counts = reference::configure(tables, Reading::Strict, configuration, lent)
        .expect("the report is accepted and the configuration permitted");
    written(tables, counts, &words)
}

/// The tables that were written, with their head and table 0.
pub fn written(tables: &Tables, counts: [usize; 4], words: &[Vec<u16>; 4]) -> Tables {
    let table = |t: usize| words[t - 1][..counts[t - 1] * WIDTHS[t]].to_vec();
    Tables {
        features: 0,
        attributes: tables.attributes,
        model: 0,
        expressions: vec![1, 0, 0],
        entries: table(1),
        relations: table(2),
        comparisons: table(3),
        queries: table(4),
        kinds: tables.kinds.clone(),
    }
}

/// (a), (b) and (c) of `workloads`.
pub fn three_workloads() -> [(&'static str, Tables); 3] {
    let deep = full(FEATURES);
    [
        ("(a) union of 32 relations", BigSchema::WISHED.tables()),
        ("(b) deep, accepted", deep.clone()),
        ("(c) deep, refused last", refused_last(deep)),
    ]
}

/// Full reports of n features, n from 0 to 10, and (a) and (b) configured to 0 features.
pub fn by_features() -> Vec<(String, Tables)> {
    let features = 0..=FEATURES;
    let mut reports: Vec<(String, Tables)> = features
        .map(|features| (format!("n = {features}"), full(features)))
        .collect();
    let [(_, union), (_, deep), _] = three_workloads();
    for (name, tables) in [("(a)", union), ("(b)", deep)] {
        let name = format!("{name} configured at {MIDDLE}");
        reports.push((name, configured(&tables, MIDDLE)));
    }
    reports
}

/// Full reports of ten features by the number of configurations that are permitted,
/// each accepted and refused.
pub fn by_permitted() -> Vec<(String, Tables)> {
    let report = |free: u16| {
        let tables = full_permitting(free);
        let refused = refused_last(tables.clone());
        let name = |answer: &str| format!("{} permitted, {answer}", 1 << free);
        [(name("accepted"), tables), (name("refused"), refused)]
    };
    (0..=FEATURES).flat_map(report).collect()
}
