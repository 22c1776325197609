//! The plain rules of relational algebra, on the configured report as a tree
//! under the configured schema (docs/FORMAT.md, "Plain rules", "Configuring"), in either
//! reading.
//!
//! Used by tests only, to try demand 3. On purpose it shares nothing with
//! `typing` and `filled` but the values of the expressions: trees instead of passes, sorted
//! sets instead of bits, rules without expressions and choices.

use std::collections::{BTreeMap, BTreeSet};

use crate::expression;
use crate::form::Lists;
use crate::reading::Reading;
use crate::tables::{self, Tables};

pub type Attributes = BTreeSet<u16>;

/// A comparison without choices. Operands are shared, so they stay numbers.
#[derive(Clone, Debug)]
pub enum Comparison {
    Truth,
    /// Of an attribute with a constant of the kind.
    Constant(u16, u16),
    Attributes(u16, u16),
    Of(Vec<usize>),
}

/// A query without choices. Relations keep their old numbers.
#[derive(Clone, Debug)]
pub enum Tree {
    Empty,
    Relation(u16),
    Select(usize, Box<Tree>),
    Project(Vec<u16>, Box<Tree>),
    Product(Box<Tree>, Box<Tree>),
    Union(Box<Tree>, Box<Tree>),
    Intersection(Box<Tree>, Box<Tree>),
}

/// The configured report: the tree, the comparisons it refers to by their old
/// numbers, and the configured schema, from which absent relations are lacking.
#[derive(Clone, Debug)]
pub struct Report {
    pub schema: BTreeMap<u16, Attributes>,
    pub comparisons: BTreeMap<usize, Comparison>,
    pub tree: Tree,
    /// The kind of each attribute: the same at every configuration.
    pub kinds: BTreeMap<u16, u16>,
}

/// The report of tables sound in form and schema, accepted or refused, configured at `c`.
pub fn configured(tables: &Tables, reading: Reading, lists: &Lists, c: u64) -> Report {
    configured_form(tables, reading, lists, c, tables.count(4) - 1)
}

/// The same with the tree of some query form in place of the report.
pub fn configured_form(
    tables: &Tables,
    reading: Reading,
    lists: &Lists,
    c: u64,
    form: usize,
) -> Report {
    let holds = expression::values(tables, c);
    let configurer = Configurer {
        tables,
        lists,
        holds: &holds,
    };
    let mut report = Report {
        schema: configurer.schema(),
        comparisons: configurer.comparisons(),
        tree: configurer.tree(form),
        kinds: (0..).zip(tables.kinds.iter().copied()).collect(),
    };
    if reading == Reading::Filled {
        report.tree = report.filled(&report.tree);
    }
    report
}

/// The query forms reached at `c`: those that the walk from the report meets.
pub fn reached(tables: &Tables, c: u64) -> BTreeSet<usize> {
    let holds = expression::values(tables, c);
    let mut reached = BTreeSet::new();
    let mut waiting = vec![tables.count(4) - 1];
    while let Some(form) = waiting.pop() {
        reached.insert(form);
        let [kind, a, b, c] = tables.query(form).map(usize::from);
        match kind as u16 {
            tables::CHOICE => waiting.push(if holds[a] { b } else { c }),
            _ => waiting.extend(tables::operands(tables.query(form))),
        }
    }
    reached
}

struct Configurer<'a> {
    tables: &'a Tables,
    lists: &'a Lists,
    holds: &'a [bool],
}

impl Configurer<'_> {
    fn holds(&self, expression: u16) -> bool {
        self.holds[usize::from(expression)]
    }

    /// The attributes of a list there, each by its first entry that holds.
    fn list(&self, range: &std::ops::Range<usize>) -> Vec<u16> {
        let entries = range.clone().map(|number| self.tables.entry(number));
        let there = entries.filter(|&[_, expression]| self.holds(expression));
        let mut seen = Attributes::new();
        let first = there.filter(|&[attribute, _]| seen.insert(attribute));
        first.map(|[attribute, _]| attribute).collect()
    }

    fn schema(&self) -> BTreeMap<u16, Attributes> {
        let mut schema = BTreeMap::new();
        for (number, range) in self.lists.relations.iter().enumerate() {
            if self.holds(self.tables.relation(number)[0]) {
                let attributes = self.list(range).into_iter().collect();
                schema.insert(number as u16, attributes);
            }
        }
        schema
    }

    /// The form that a reference to a comparison leads to, through choices.
    fn leads_to(&self, mut form: u16) -> usize {
        loop {
            let [kind, _, a, b, c] = self.tables.comparison(usize::from(form));
            if kind != tables::COMPARISON_CHOICE {
                return usize::from(form);
            }
            form = if self.holds(a) { b } else { c };
        }
    }

    fn comparisons(&self) -> BTreeMap<usize, Comparison> {
        let mut kept = BTreeMap::new();
        for form in 0..self.tables.count(3) {
            let [kind, _, a, b, c] = self.tables.comparison(form);
            let comparison = match kind {
                2 => Comparison::Constant(a, c),
                3 => Comparison::Attributes(a, b),
                4 => Comparison::Of(vec![self.leads_to(a)]),
                5 | 6 => Comparison::Of(vec![self.leads_to(a), self.leads_to(b)]),
                7 => continue,
                _ => Comparison::Truth,
            };
            kept.insert(form, comparison);
        }
        kept
    }

    /// The tree under a query form. Each form is an operand once, so the walk
    /// meets each form at most once.
    fn tree(&self, form: usize) -> Tree {
        let [kind, a, b, c] = self.tables.query(form);
        let under = |operand: u16| Box::new(self.tree(usize::from(operand)));
        match kind {
            tables::RELATION => Tree::Relation(a),
            tables::SELECT => Tree::Select(self.leads_to(a), under(b)),
            tables::PROJECT => Tree::Project(self.list(&self.lists.queries[form]), under(b)),
            tables::CHOICE if self.holds(a) => self.tree(usize::from(b)),
            tables::CHOICE => self.tree(usize::from(c)),
            tables::PRODUCT => Tree::Product(under(a), under(b)),
            tables::UNION => Tree::Union(under(a), under(b)),
            tables::INTERSECTION => Tree::Intersection(under(a), under(b)),
            _ => Tree::Empty,
        }
    }
}

impl Report {
    /// The columns of the report when it passes; none when some form of the
    /// tree breaks a plain rule.
    pub fn columns(&self) -> Option<Attributes> {
        self.columns_of(&self.tree)
    }

    fn columns_of(&self, tree: &Tree) -> Option<Attributes> {
        match tree {
            Tree::Empty => Some(Attributes::new()),
            Tree::Relation(number) => self.schema.get(number).cloned(),
            Tree::Select(comparison, of) => {
                let columns = self.columns_of(of)?;
                let kept = self.named(*comparison).is_subset(&columns)
                    && self.of_two_kinds(*comparison).is_empty();
                kept.then_some(columns)
            }
            Tree::Project(list, of) => {
                let columns = self.columns_of(of)?;
                let list: Attributes = list.iter().copied().collect();
                list.is_subset(&columns).then_some(list)
            }
            Tree::Product(left, right) => {
                let (left, right) = (self.columns_of(left)?, self.columns_of(right)?);
                left.is_disjoint(&right).then(|| &left | &right)
            }
            Tree::Union(left, right) | Tree::Intersection(left, right) => {
                let (left, right) = (self.columns_of(left)?, self.columns_of(right)?);
                (left == right).then_some(left)
            }
        }
    }

    /// The tree in the filled reading: empty for a relation that the schema lacks, and a
    /// project keeps those of its attributes that are columns of its operand's own tree.
    /// An operand that breaks a rule has no columns: there nothing is dropped, and the
    /// report breaks that rule whatever is.
    fn filled(&self, tree: &Tree) -> Tree {
        let under = |operand: &Tree| Box::new(self.filled(operand));
        match tree {
            Tree::Empty => Tree::Empty,
            Tree::Relation(number) if !self.schema.contains_key(number) => Tree::Empty,
            Tree::Relation(number) => Tree::Relation(*number),
            Tree::Select(comparison, of) => Tree::Select(*comparison, under(of)),
            Tree::Project(list, of) => {
                let of = under(of);
                let mut list = list.clone();
                if let Some(columns) = self.columns_of(&of) {
                    list.retain(|attribute| columns.contains(attribute));
                }
                Tree::Project(list, of)
            }
            Tree::Product(left, right) => Tree::Product(under(left), under(right)),
            Tree::Union(left, right) => Tree::Union(under(left), under(right)),
            Tree::Intersection(left, right) => Tree::Intersection(under(left), under(right)),
        }
    }

    /// The number of the rule that the topmost form of the tree breaks, and the
    /// relation or the lowest attribute at fault. The trees under it have to
    /// pass.
    pub fn broken_on_top(&self) -> Option<(u64, u16)> {
        let columns = |tree: &Tree| self.columns_of(tree).expect("operands pass");
        let (number, at_fault) = match &self.tree {
            Tree::Empty => return None,
            Tree::Relation(r) if self.schema.contains_key(r) => return None,
            Tree::Relation(r) => (15, Attributes::from([*r])),
            Tree::Select(comparison, of) => {
                let missing = &self.named(*comparison) - &columns(of);
                match missing.is_empty() {
                    false => (16, missing),
                    true => (25, self.of_two_kinds(*comparison)),
                }
            }
            Tree::Project(list, of) => {
                let list: Attributes = list.iter().copied().collect();
                (17, &list - &columns(of))
            }
            Tree::Product(left, right) => (18, &columns(left) & &columns(right)),
            Tree::Union(left, right) | Tree::Intersection(left, right) => {
                (19, &columns(left) ^ &columns(right))
            }
        };
        at_fault.first().map(|&item| (number, item))
    }

    /// The attributes that a comparison names.
    fn named(&self, root: usize) -> Attributes {
        let mut attributes = Attributes::new();
        for comparison in self.without_operands(root) {
            match *comparison {
                Comparison::Constant(a, _) => attributes.extend([a]),
                Comparison::Attributes(a, b) => attributes.extend([a, b]),
                _ => {}
            }
        }
        attributes
    }

    /// The left attributes of the comparisons in it whose sides have two kinds.
    fn of_two_kinds(&self, root: usize) -> Attributes {
        let mut attributes = Attributes::new();
        for comparison in self.without_operands(root) {
            let (left, right) = match *comparison {
                Comparison::Constant(a, kind) => (a, kind),
                Comparison::Attributes(a, b) => (a, self.kinds[&b]),
                _ => continue,
            };
            if self.kinds[&left] != right {
                attributes.insert(left);
            }
        }
        attributes
    }

    /// The comparisons without operands that a comparison is made of. Each is
    /// visited once, however often it is shared.
    fn without_operands(&self, root: usize) -> Vec<&Comparison> {
        let mut found = Vec::new();
        let mut visited = BTreeSet::from([root]);
        let mut waiting = vec![root];
        while let Some(form) = waiting.pop() {
            match &self.comparisons[&form] {
                Comparison::Of(operands) => {
                    waiting.extend(operands.iter().filter(|&&o| visited.insert(o)));
                }
                comparison => found.push(comparison),
            }
        }
        found
    }
}
