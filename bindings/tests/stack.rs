//! The stack that the calls take. No theorem bounds it: ../../include/gelvomas.h and
//! ../README.md state what is tried here, in both readings, on a report of full size that
//! is as deep as a report can be, where the walk over query forms recurses most.

use std::thread;

use gelvomas::{check, comparison, configure, expression, find, page, query};
use gelvomas::{Counts, Lent, Reading, Refusal, Tables};
use gelvomas::{MAX_ATTRIBUTES, MAX_COMPARISONS, MAX_EXPRESSIONS, MAX_FEATURES};
use gelvomas::{MAX_PAGE, MAX_QUERIES, ROWS};

/// What is stated, in bytes. The least that was enough, in either reading: 372 KiB for a
/// check, for finding and for the page, 375 KiB for configuring, of which the thread needs
/// some itself.
const STACK_OF_CHECK: usize = 400 << 10;
const STACK_OF_FIND: usize = 400 << 10;
const STACK_OF_PAGE: usize = 400 << 10;
const STACK_OF_CONFIGURE: usize = 450 << 10;

const FEATURES: u16 = MAX_FEATURES as u16;
const ATTRIBUTES: u16 = MAX_ATTRIBUTES as u16;
const LAST_ATTRIBUTE: u16 = ATTRIBUTES - 1;
const LAST_CONFIGURATION: u64 = (1 << MAX_FEATURES) - 1;

/// The expressions that hold everywhere, and everywhere but at the last
/// configuration.
const ALWAYS: u16 = 0;
const NOT_LAST: u16 = 2 * FEATURES;

fn expressions() -> Vec<u16> {
    let mut forms = vec![[expression::TRUE, 0, 0]];
    forms.extend((0..FEATURES).map(|feature| [expression::FEATURE, feature, 0]));
    // All features up to this one are on.
    forms.push([expression::AND, 1, 2]);
    forms.extend((3..=FEATURES).map(|form| [expression::AND, form + FEATURES - 2, form]));
    forms.push([expression::NOT, NOT_LAST - 1, 0]);
    for form in NOT_LAST + 1..MAX_EXPRESSIONS as u16 {
        forms.push(match form % 4 {
            0 => [expression::NOT, form - 1, 0],
            1 => [expression::AND, form - 1, form - 2],
            2 => [expression::OR, form - 1, form - 2],
            _ => [expression::EXACTLY_ONE, 0, FEATURES],
        });
    }
    forms.concat()
}

/// The comparison that names the last attribute everywhere; those above it do so
/// where NOT_LAST holds.
const NAMES_LAST: u16 = LAST_ATTRIBUTE;

fn comparisons() -> Vec<u16> {
    let mut forms = Vec::new();
    forms.extend((0..ATTRIBUTES).map(|a| [comparison::CONSTANT, a % 6, a, 500, a % 3]));
    forms.push([comparison::CHOICE, 0, NOT_LAST, NAMES_LAST, 0]);
    for form in ATTRIBUTES + 1..MAX_COMPARISONS as u16 {
        forms.push(match form % 4 {
            0 => [comparison::CHOICE, 0, form, form - 1, form - 2],
            1 => [comparison::NOT, 0, form - 1, 0, 0],
            2 => [comparison::AND, 0, form - 1, form - 2, 0],
            _ => [comparison::OR, 0, form - 1, form - 2, 0],
        });
    }
    forms.concat()
}

/// Eight times all attributes, the last one under these expressions: the list of the
/// relation and those of seven projects.
fn entries(in_relation: u16, in_projects: u16) -> Vec<u16> {
    let list = |last: u16| {
        let always = (0..LAST_ATTRIBUTE).flat_map(|a| [a, ALWAYS]);
        always.chain([LAST_ATTRIBUTE, last]).collect::<Vec<_>>()
    };
    [list(in_relation), list(in_projects).repeat(7)].concat()
}

/// A relation, and on it selects and seven projects, each on the form below it.
fn queries() -> Vec<[u16; 4]> {
    let mut forms = vec![[query::RELATION, 0, 0, 0]];
    for form in 1..MAX_QUERIES as u16 {
        forms.push(match form {
            NAMES_LAST => [query::SELECT, form + 1, form - 1, 0],
            _ if form % 32 == 0 => [query::PROJECT, ATTRIBUTES, form - 1, 0],
            _ => [query::SELECT, form, form - 1, 0],
        });
    }
    forms
}

/// The answer of a call in a thread with a stack of so many bytes.
fn with_stack<T: Send>(bytes: usize, call: impl FnOnce() -> T + Send) -> T {
    thread::scope(|scope| {
        let run = thread::Builder::new().stack_size(bytes);
        let thread = run.spawn_scoped(scope, call).expect("a thread");
        thread.join().expect("no panic")
    })
}

fn checked(tables: &Tables, reading: Reading, rows: &mut [u64; ROWS]) -> Result<(), Refusal> {
    with_stack(STACK_OF_CHECK, || check(tables, reading, rows))
}

fn found(tables: &Tables, reading: Reading) -> Result<Option<u64>, Refusal> {
    with_stack(STACK_OF_FIND, || find(tables, reading, u64::MAX))
}

fn paged(tables: &Tables, reading: Reading) -> Result<u64, Refusal> {
    let mut bytes = vec![0; MAX_PAGE];
    with_stack(STACK_OF_PAGE, || page(tables, reading, &mut bytes))
}

fn configured(tables: &Tables, reading: Reading, configuration: u64) -> Result<Counts, Refusal> {
    let mut entries = tables.entries.to_vec();
    let mut relations = tables.relations.to_vec();
    let mut comparisons = tables.comparisons.to_vec();
    let mut queries = tables.queries.to_vec();
    let lent = Lent {
        entries: &mut entries,
        relations: &mut relations,
        comparisons: &mut comparisons,
        queries: &mut queries,
    };
    with_stack(STACK_OF_CONFIGURE, || {
        configure(tables, reading, configuration, lent)
    })
}

/// A model: its expression, the configurations that it permits in each word of a row, the
/// lowest of them, and how many there are. Where they are at most 64, typing goes through
/// them one by one.
#[derive(Clone, Copy)]
struct Model {
    expression: u16,
    permits: u64,
    lowest: u64,
    count: u64,
}

const MODELS: [Model; 2] = [
    Model {
        expression: ALWAYS,
        permits: u64::MAX,
        lowest: 0,
        count: 1024,
    },
    // The first four features are on.
    Model {
        expression: FEATURES + 3,
        permits: 0x8000_8000_8000_8000,
        lowest: 15,
        count: 64,
    },
];

/// A report of full size, the reading and the model that it is given with, and what it is
/// refused for, if it is.
struct Case<'a> {
    tables: Tables<'a>,
    reading: Reading,
    model: Model,
    refusal: Option<Refusal>,
}

impl Case<'_> {
    fn expect_checked_found_and_paged(&self) {
        let answer = self.refusal.map_or(Ok(()), Err);
        let mut rows = [0; ROWS];
        assert_eq!(checked(&self.tables, self.reading, &mut rows), answer);
        // All attributes, the last one but at the last configuration.
        let mut wanted = [self.model.permits; ROWS];
        wanted[ROWS - 1] &= u64::MAX >> 1;
        assert!(self.refusal.is_some() || rows == wanted);
        let lowest = answer.map(|()| Some(self.model.lowest));
        assert_eq!(found(&self.tables, self.reading), lowest);
        let lines = answer.map(|()| self.model.count);
        assert_eq!(paged(&self.tables, self.reading), lines);
    }

    /// At the last configuration eight lists are without the last attribute.
    fn expect_configured(&self) {
        let forms = self.tables.comparisons.chunks(5);
        let kept = forms.filter(|form| form[0] != comparison::CHOICE).count();
        for (configuration, entries) in [(self.model.lowest, 512), (LAST_CONFIGURATION, 504)] {
            let counts = Counts {
                entries,
                relations: 1,
                comparisons: kept as u64,
                queries: 256,
            };
            let answer = self.refusal.map_or(Ok(counts), Err);
            let configured = configured(&self.tables, self.reading, configuration);
            assert_eq!(configured, answer);
        }
    }
}

/// The tables of the reports, and what stands in them for each refusal.
struct Parts {
    expressions: Vec<u16>,
    comparisons: Vec<u16>,
    entries: Vec<u16>,
    /// The projects do not say where the last attribute is.
    left_out: Vec<u16>,
    queries: Vec<u16>,
    /// The last form names the last attribute everywhere.
    named_last: Vec<u16>,
    kinds: Vec<u16>,
    /// The last attribute is of another kind than what it is compared with.
    kinds_differ: Vec<u16>,
}

impl Parts {
    fn new() -> Parts {
        let forms = queries();
        let last = forms.len() - 1;
        let mut named_last = forms.clone();
        named_last[last] = [query::SELECT, NAMES_LAST, last as u16 - 1, 0];
        // Moments, counts and names by turns, as the constants are.
        let kinds: Vec<u16> = (0..ATTRIBUTES).map(|a| a % 3).collect();
        let mut kinds_differ = kinds.clone();
        kinds_differ[usize::from(LAST_ATTRIBUTE)] = 1;
        Parts {
            expressions: expressions(),
            comparisons: comparisons(),
            entries: entries(NOT_LAST, NOT_LAST),
            left_out: entries(NOT_LAST, ALWAYS),
            queries: forms.concat(),
            named_last: named_last.concat(),
            kinds,
            kinds_differ,
        }
    }

    fn cases(&self, reading: Reading, model: Model) -> [Case<'_>; 4] {
        let deep = Tables {
            features: MAX_FEATURES,
            attributes: MAX_ATTRIBUTES,
            model: model.expression.into(),
            expressions: &self.expressions,
            entries: &self.entries,
            relations: &[ALWAYS, ATTRIBUTES],
            comparisons: &self.comparisons,
            queries: &self.queries,
            kinds: &self.kinds,
        };
        let (entries, queries, kinds) = (&self.left_out, &self.named_last, &self.kinds_differ);
        let missing = refused(Refusal::COMPARED_MISSING, 255, LAST_CONFIGURATION);
        let differ = refused(Refusal::KINDS_DIFFER, NAMES_LAST, model.lowest);
        // Form 32 is the first project.
        let projected = refused(Refusal::PROJECTED_MISSING, 32, LAST_CONFIGURATION);
        let strictly = Some(projected).filter(|_| reading == Reading::Strict);
        let case = |tables, refusal| Case {
            tables,
            reading,
            model,
            refusal,
        };
        [
            case(deep, None),
            case(Tables { queries, ..deep }, Some(missing)),
            case(Tables { kinds, ..deep }, Some(differ)),
            case(Tables { entries, ..deep }, strictly),
        ]
    }
}

fn refused(number: u64, place: u16, configuration: u64) -> Refusal {
    let item = LAST_ATTRIBUTE.into();
    [number, place.into(), item, configuration].into()
}

/// One test, the smaller stack first: a thread may be given the larger stack of one that
/// has ended.
#[test]
fn the_stated_stack_is_enough() {
    let parts = Parts::new();
    let mut cases = Vec::new();
    for reading in [Reading::Strict, Reading::Filled] {
        for model in MODELS {
            cases.extend(parts.cases(reading, model));
        }
    }
    cases.iter().for_each(Case::expect_checked_found_and_paged);
    cases.iter().for_each(Case::expect_configured);
}
