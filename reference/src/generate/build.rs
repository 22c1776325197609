//! Builds tables that are accepted, with real variation.
//!
//! A report is made from the top with the configurations that reach each form,
//! and on the way back the columns of each form at each configuration are
//! known; so lists, comparisons and operands can be chosen that keep the rules.
//! At the end the query forms get numbers in a random order in which operands
//! are lower.

mod repeats;

use super::{feature_ranges, kinds};
use crate::random::Random;
use crate::tables::{Tables, CHOICE, COMPARISON_CHOICE, EMPTY, EXACTLY_ONE, INTERSECTION};
use crate::tables::{PRODUCT, PROJECT, RELATION, SELECT, UNION, WITH_ATTRIBUTE, WITH_CONSTANT};

/// How much of everything a case may have, and whether it has to have it all.
#[derive(Clone, Copy, Debug)]
pub struct Size {
    pub features: usize,
    pub attributes: usize,
    pub expressions: usize,
    pub entries: usize,
    pub relations: usize,
    pub comparisons: usize,
    pub queries: usize,
    pub full: bool,
}

/// An entry: attribute, expression.
type Entry = (u16, u16);

struct Relation {
    expression: u16,
    list: Vec<Entry>,
    /// Set of attributes by configuration, where the relation is present.
    sets: Vec<u64>,
}

struct Node {
    kind: u16,
    /// Relation, comparison or expression that the form names.
    names: u16,
    operands: Vec<usize>,
    list: Vec<Entry>,
    /// Set of attributes by configuration, right where the form is reached.
    sets: Vec<u64>,
}

/// How a comparison goes with a query, where that is reached.
#[derive(Clone, Copy)]
struct Fit {
    /// Does it name only what the query has, and do no kinds differ in it?
    keeps: bool,
    /// Does it name anything?
    names: bool,
}

impl Fit {
    /// That of a comparison made of two.
    fn joined(self, other: Fit) -> Fit {
        Fit {
            keeps: self.keeps && other.keeps,
            names: self.names || other.names,
        }
    }
}

pub struct Builder<'a> {
    random: &'a mut Random,
    size: Size,
    expressions: Vec<[u16; 3]>,
    /// Value by expression, then by configuration.
    holds: Vec<Vec<bool>>,
    always: u16,
    model: u16,
    permitted: Vec<usize>,
    relations: Vec<Relation>,
    entries: usize,
    /// The kind of each attribute.
    kinds: Vec<u16>,
    comparisons: Vec<[u16; 5]>,
    /// Set of attributes named, by comparison, then by configuration.
    named: Vec<Vec<u64>>,
    /// Do kinds differ, by comparison, then by configuration?
    clashes: Vec<Vec<bool>>,
    nodes: Vec<Node>,
}

/// Tables that are accepted, of at most the given size.
pub fn accepted(random: &mut Random, size: Size) -> Tables {
    for _ in 0..8 {
        let mut builder = Builder::new(random, size);
        let root = builder.report();
        if builder.varies(root) || size.features == 0 || size.attributes == 0 {
            return builder.tables(root);
        }
    }
    let mut builder = Builder::new(random, size);
    let root = builder.report();
    builder.tables(root)
}

impl<'a> Builder<'a> {
    fn new(random: &'a mut Random, size: Size) -> Builder<'a> {
        let kinds = kinds::sound(random, size.attributes);
        let mut builder = Builder {
            random,
            size,
            expressions: vec![],
            holds: vec![],
            always: 0,
            model: 0,
            permitted: vec![],
            relations: vec![],
            entries: 0,
            kinds,
            comparisons: vec![],
            named: vec![],
            clashes: vec![],
            nodes: vec![],
        };
        builder.make_expressions();
        builder.choose_model();
        builder.make_relations();
        builder.make_comparisons();
        builder
    }

    fn configurations(&self) -> usize {
        1 << self.size.features
    }

    // Expressions

    /// All features and true in a random order, then random forms over them.
    fn make_expressions(&mut self) {
        let most = self.size.expressions;
        let mut first: Vec<[u16; 3]> = vec![[1, 0, 0]];
        let features = self.size.features.min(most - 1);
        first.extend((0..features as u16).map(|feature| [2, feature, 0]));
        self.random.shuffle(&mut first);
        for form in first {
            let number = self.add_expression(form);
            if form[0] == 1 {
                self.always = number;
            }
        }
        let count = match self.size.full {
            true => most,
            false => self.random.between(self.expressions.len(), most),
        };
        while self.expressions.len() < count {
            let form = self.any_expression();
            self.add_expression(form);
        }
    }

    fn any_expression(&mut self) -> [u16; 3] {
        let count = self.expressions.len();
        let a = self.random.below(count) as u16;
        let b = self.random.below(count) as u16;
        let features = self.size.features;
        match self.random.below(16) {
            0 if features > 0 => [2, self.random.below(features) as u16, 0],
            1 => [self.random.below(2) as u16, 0, 0],
            2..=5 => [3, a, 0],
            6 => [self.random.pick(&[4, 5]), a, a],
            7..=8 => [4, a, b],
            9..=12 if features > 0 => {
                let [first, count] = feature_ranges::sound(self.random, features);
                [EXACTLY_ONE, first, count]
            }
            _ => [5, a, b],
        }
    }

    fn add_expression(&mut self, form: [u16; 3]) -> u16 {
        let [kind, a, b] = form.map(usize::from);
        let value = |c: usize| match kind {
            0 => false,
            1 => true,
            2 => c >> a & 1 == 1,
            3 => !self.holds[a][c],
            4 => self.holds[a][c] && self.holds[b][c],
            5 => self.holds[a][c] || self.holds[b][c],
            _ => (c >> a & ((1 << b) - 1)).count_ones() == 1,
        };
        let holds = (0..self.configurations()).map(value).collect();
        self.holds.push(holds);
        self.expressions.push(form);
        (self.expressions.len() - 1) as u16
    }

    fn some_expression(&mut self) -> u16 {
        self.random.below(self.expressions.len()) as u16
    }

    fn holds(&self, expression: u16, c: usize) -> bool {
        self.holds[usize::from(expression)][c]
    }

    /// A form of kind 6, where there is one.
    fn some_range(&mut self) -> Option<u16> {
        let is_range = |&number: &usize| self.expressions[number][0] == EXACTLY_ONE;
        let ranges: Vec<usize> = (0..self.expressions.len()).filter(is_range).collect();
        (!ranges.is_empty()).then(|| self.random.pick(&ranges) as u16)
    }

    /// Any expression, of kind 6 more often than others.
    fn any_model(&mut self) -> u16 {
        let range = match self.random.chance(1, 4) {
            true => self.some_range(),
            false => None,
        };
        range.unwrap_or_else(|| self.some_expression())
    }

    /// A model that permits more than one configuration, when there is one.
    fn choose_model(&mut self) {
        self.model = self.always;
        if self.random.chance(2, 3) {
            let wanted = self.configurations().min(2);
            for _ in 0..10 {
                let model = self.any_model();
                let permits = |c: &usize| self.holds(model, *c);
                if (0..self.configurations()).filter(permits).count() >= wanted {
                    self.model = model;
                    break;
                }
            }
        }
        let model = self.model;
        self.permitted = (0..self.configurations())
            .filter(|&c| self.holds(model, c))
            .collect();
    }

    // Relations

    fn make_relations(&mut self) {
        let most = self.size.relations;
        let count = match self.size.full {
            true => most,
            false => self.random.between(most.min(1), most),
        };
        // About half of the entries are kept for project lists.
        let for_relations = self.size.entries / 2;
        for _ in 0..count {
            let share = for_relations - self.entries.min(for_relations);
            let most = match self.size.full {
                true => (for_relations / count).min(share),
                false => share,
            };
            self.make_relation(most);
        }
    }

    fn make_relation(&mut self, most: usize) {
        let mut expression = self.always;
        if self.random.chance(1, 2) {
            expression = self.satisfied_with(expression);
        }
        let mut attributes: Vec<u16> = (0..self.size.attributes as u16).collect();
        self.random.shuffle(&mut attributes);
        let repeats = self.repeats(most.saturating_sub(1));
        let most = (most - repeats).min(attributes.len());
        let length = self.random.between(most.min(2), most);
        let mut list = Vec::new();
        for &attribute in &attributes[..length] {
            let condition = match self.random.chance(1, 2) {
                true => self.always,
                false => self.satisfied_with(expression),
            };
            list.push((attribute, condition));
        }
        self.repeat(&mut list, repeats, |builder, entry| {
            builder.reason_with(expression, entry)
        });
        self.entries += list.len();
        let sets = self.joined(&list);
        self.relations.push(Relation {
            expression,
            list,
            sets,
        });
    }

    /// An expression that holds together with the given one at some permitted
    /// configuration.
    fn satisfied_with(&mut self, other: u16) -> u16 {
        for _ in 0..12 {
            let expression = self.some_expression();
            if self.together(expression, other) {
                return expression;
            }
        }
        other
    }

    /// The set of a list at each configuration.
    fn joined(&self, list: &[Entry]) -> Vec<u64> {
        let mut sets = vec![0; self.configurations()];
        for &(attribute, expression) in list {
            for (c, set) in sets.iter_mut().enumerate() {
                if self.holds(expression, c) {
                    *set |= 1 << attribute;
                }
            }
        }
        sets
    }

    // Comparisons

    /// A few comparisons that the report may or may not use. At full size also
    /// long chains of shared operands.
    fn make_comparisons(&mut self) {
        let most = self.size.comparisons;
        let start = match self.size.full {
            true => most / 8,
            false => self.random.between(0, most / 2),
        };
        for _ in 0..start {
            let form = self.any_comparison();
            self.add_comparison(form);
        }
        while self.size.full && self.comparisons.len() < most * 3 / 4 {
            let last = (self.comparisons.len() - 1) as u16;
            let kind = self.random.pick(&[5, 6]);
            match self.random.chance(1, 24) {
                true => {
                    let form = self.any_comparison();
                    self.add_comparison(form)
                }
                false => self.add_comparison([kind, 0, last, last, 0]),
            };
        }
    }

    fn any_comparison(&mut self) -> [u16; 5] {
        let count = self.comparisons.len();
        if count == 0 || self.random.chance(1, 2) {
            return self.named_comparison();
        }
        let a = self.random.below(count) as u16;
        let b = self.random.below(count) as u16;
        match self.random.below(5) {
            0 => [4, 0, a, 0, 0],
            1 => [self.random.pick(&[5, 6]), 0, a, a, 0],
            2 => [self.random.pick(&[5, 6]), 0, a, b, 0],
            _ => [7, 0, self.some_expression(), a, b],
        }
    }

    /// A comparison without operands.
    fn named_comparison(&mut self) -> [u16; 5] {
        let attributes = self.size.attributes;
        if attributes == 0 || self.random.chance(1, 6) {
            return [self.random.below(2) as u16, 0, 0, 0, 0];
        }
        let a = self.random.below(attributes) as u16;
        // Kinds that differ, now and then: a report may have such forms, where
        // nothing reaches them.
        if self.random.chance(1, 12) {
            return self.clashing_with(a);
        }
        let all: Vec<u16> = (0..attributes as u16).collect();
        self.compared(a, &all)
    }

    /// A comparison of the attribute with a constant, or with one of the others,
    /// both sides of one kind.
    fn compared(&mut self, a: u16, others: &[u16]) -> [u16; 5] {
        let operator = self.random.below(6) as u16;
        let kind = self.kind(a);
        if self.random.chance(1, 2) {
            return [WITH_CONSTANT, operator, a, self.constant(), kind];
        }
        let same = others.iter().copied().filter(|&b| self.kind(b) == kind);
        let mut same: Vec<u16> = same.collect();
        same.push(a);
        [WITH_ATTRIBUTE, operator, a, self.random.pick(&same), 0]
    }

    /// A comparison of the attribute with something of another kind.
    fn clashing_with(&mut self, a: u16) -> [u16; 5] {
        let operator = self.random.below(6) as u16;
        let all = 0..self.kinds.len() as u16;
        let unlike: Vec<u16> = all.filter(|&b| self.kind(b) != self.kind(a)).collect();
        if unlike.is_empty() || self.random.chance(1, 2) {
            let kind = kinds::other(self.random, self.kind(a));
            return [WITH_CONSTANT, operator, a, self.constant(), kind];
        }
        [WITH_ATTRIBUTE, operator, a, self.random.pick(&unlike), 0]
    }

    fn kind(&self, attribute: u16) -> u16 {
        self.kinds[usize::from(attribute)]
    }

    fn constant(&mut self) -> u16 {
        let any = self.random.word() as u16;
        self.random.pick(&[0, 1, 65535, any])
    }

    fn add_comparison(&mut self, form: [u16; 5]) -> u16 {
        let [kind, _, a, b, c] = form.map(usize::from);
        let set = |at: usize| match kind {
            0 | 1 => 0,
            2 => 1u64 << a,
            3 => 1 << a | 1 << b,
            4 => self.named[a][at],
            5 | 6 => self.named[a][at] | self.named[b][at],
            _ if self.holds[a][at] => self.named[b][at],
            _ => self.named[c][at],
        };
        let clashes = |at: usize| match kind {
            2 => self.kinds[a] != form[4],
            3 => self.kinds[a] != self.kinds[b],
            4 => self.clashes[a][at],
            5 | 6 => self.clashes[a][at] || self.clashes[b][at],
            7 if self.holds[a][at] => self.clashes[b][at],
            7 => self.clashes[c][at],
            _ => false,
        };
        let named = (0..self.configurations()).map(set).collect();
        let clashes = (0..self.configurations()).map(clashes).collect();
        self.named.push(named);
        self.clashes.push(clashes);
        self.comparisons.push(form);
        (self.comparisons.len() - 1) as u16
    }

    // Queries

    /// Makes a report and returns its form; at full size all tables are full.
    fn report(&mut self) -> usize {
        let reach = self.permitted.clone();
        let budget = match self.size.full {
            true => self.size.queries * 4 / 5,
            false => self.random.between(1, self.size.queries),
        };
        let root = self.query(&reach, budget);
        match self.size.full {
            true => self.fill(root),
            false => root,
        }
    }

    /// A query of at most `budget` forms that keeps its rules where it is
    /// reached.
    fn query(&mut self, reach: &[usize], budget: usize) -> usize {
        if budget == 1 || (!self.size.full && self.random.chance(1, 10)) {
            return self.leaf(reach);
        }
        if budget == 2 {
            return match self.random.chance(1, 2) {
                true => self.select(reach, budget),
                false => self.project(reach, budget),
            };
        }
        match self.random.below(16) {
            0..=2 => self.select(reach, budget),
            3..=4 => self.project(reach, budget),
            5..=6 => self.choice(reach, budget),
            7..=8 => self.guarded(reach, budget),
            9..=11 if budget >= 5 => self.product(reach, budget),
            12..=14 if budget >= 5 => self.same_columns(reach, budget),
            _ => self.copies(reach, budget),
        }
    }

    fn add(&mut self, node: Node) -> usize {
        self.nodes.push(node);
        self.nodes.len() - 1
    }

    /// A relation that is present wherever it is reached, or empty.
    fn leaf(&mut self, reach: &[usize]) -> usize {
        let mut fitting = Vec::new();
        for (number, relation) in self.relations.iter().enumerate() {
            if reach.iter().all(|&c| self.holds(relation.expression, c)) {
                fitting.push(number);
            }
        }
        if fitting.is_empty() || self.random.chance(1, 20) {
            return self.empty();
        }
        let number = self.random.pick(&fitting);
        self.relation(number)
    }

    fn empty(&mut self) -> usize {
        let sets = vec![0; self.configurations()];
        self.add(Node {
            kind: EMPTY,
            names: 0,
            operands: vec![],
            list: vec![],
            sets,
        })
    }

    fn relation(&mut self, number: usize) -> usize {
        let sets = self.relations[number].sets.clone();
        self.add(Node {
            kind: RELATION,
            names: number as u16,
            operands: vec![],
            list: vec![],
            sets,
        })
    }

    fn select(&mut self, reach: &[usize], budget: usize) -> usize {
        let of = self.query(reach, budget - 1);
        match self.fitting_comparison(reach, of) {
            Some(comparison) => self.select_by(comparison, of),
            None => of,
        }
    }

    fn select_by(&mut self, comparison: u16, of: usize) -> usize {
        let sets = self.nodes[of].sets.clone();
        self.add(Node {
            kind: SELECT,
            names: comparison,
            operands: vec![of],
            list: vec![],
            sets,
        })
    }

    /// How each comparison goes with the query. At full size most are made of others, in
    /// long chains, and need no look at the configurations.
    fn fits_of_comparisons(&self, reach: &[usize], of: usize) -> Vec<Fit> {
        let mut fits: Vec<Fit> = Vec::new();
        for (number, form) in self.comparisons.iter().enumerate() {
            let [kind, _, a, b, _] = form.map(usize::from);
            fits.push(match kind {
                4 => fits[a],
                5 | 6 => fits[a].joined(fits[b]),
                _ => self.fit(number, reach, of),
            });
        }
        fits
    }

    fn fit(&self, comparison: usize, reach: &[usize], of: usize) -> Fit {
        let named = &self.named[comparison];
        let clashes = &self.clashes[comparison];
        let sets = &self.nodes[of].sets;
        let keeps = |&c: &usize| named[c] & !sets[c] == 0 && !clashes[c];
        Fit {
            keeps: reach.iter().all(keeps),
            names: reach.iter().any(|&c| named[c] != 0),
        }
    }

    /// A comparison that names only what the query has, and in which no kinds
    /// differ where it is reached, old or new.
    fn fitting_comparison(&mut self, reach: &[usize], of: usize) -> Option<u16> {
        if self.random.chance(1, 2) && self.comparisons.len() < self.size.comparisons {
            self.new_comparison(reach, of);
        }
        let mut fitting = Vec::new();
        let mut naming = Vec::new();
        for (number, fit) in (0..).zip(self.fits_of_comparisons(reach, of)) {
            if fit.keeps {
                fitting.push(number);
                if fit.names {
                    naming.push(number);
                }
            }
        }
        if !naming.is_empty() && self.random.chance(5, 6) {
            return Some(self.random.pick(&naming));
        }
        (!fitting.is_empty()).then(|| self.random.pick(&fitting))
    }

    /// Adds a comparison on attributes that the query has, under a choice where
    /// it has them only at times.
    fn new_comparison(&mut self, reach: &[usize], of: usize) {
        let sets = &self.nodes[of].sets;
        let everywhere = reach.iter().fold(u64::MAX, |all, &c| all & sets[c]);
        let somewhere = reach.iter().fold(0, |some, &c| some | sets[c]);
        let operator = self.random.below(6) as u16;
        let known: Vec<u16> = bits(everywhere & below(self.size.attributes));
        let varying: Vec<u16> = bits(somewhere & !everywhere);
        let room = self.size.comparisons - self.comparisons.len();
        if !varying.is_empty() && room >= 3 && self.random.chance(2, 3) {
            let attribute = self.random.pick(&varying);
            let where_held = self.fitting_expression(reach, of, attribute);
            if let Some(expression) = where_held {
                let constant = self.constant();
                let kind = self.kind(attribute);
                let one = self.add_comparison([WITH_CONSTANT, operator, attribute, constant, kind]);
                let kind = self.random.below(2) as u16;
                let none = self.add_comparison([kind, 0, 0, 0, 0]);
                self.add_comparison([7, 0, expression, one, none]);
                return;
            }
        }
        if known.is_empty() {
            return;
        }
        let a = self.random.pick(&known);
        let form = self.compared(a, &known);
        let new = self.add_comparison(form);
        let room = self.size.comparisons - self.comparisons.len();
        if room >= 2 && self.random.chance(1, 4) {
            let clash = self.clashing_with(a);
            let clash = self.add_comparison(clash);
            let expression = self.held_throughout(reach);
            self.add_comparison([COMPARISON_CHOICE, 0, expression, new, clash]);
        } else if room >= 1 && self.random.chance(1, 2) {
            let other = self.random.below(self.comparisons.len()) as u16;
            let kind = self.random.pick(&[5, 6]);
            let expression = self.some_expression();
            let form = match self.random.below(3) {
                0 => [4, 0, new, 0, 0],
                1 => [kind, 0, new, other, 0],
                _ => [7, 0, expression, other, new],
            };
            self.add_comparison(form);
        }
    }

    /// An expression that holds wherever the query is reached; the model does.
    fn held_throughout(&mut self, reach: &[usize]) -> u16 {
        for _ in 0..6 {
            let expression = self.some_expression();
            if reach.iter().all(|&c| self.holds(expression, c)) {
                return expression;
            }
        }
        self.model
    }

    /// An expression that holds, where reached, only where the query has the
    /// attribute; one that holds somewhere is preferred.
    fn fitting_expression(&mut self, reach: &[usize], of: usize, attribute: u16) -> Option<u16> {
        let mut candidates = vec![self.always];
        for relation in &self.relations {
            let entries = relation.list.iter();
            let same = entries.filter(|&&(other, _)| other == attribute);
            candidates.extend(same.map(|&(_, expression)| expression));
            candidates.push(relation.expression);
        }
        self.random.shuffle(&mut candidates);
        candidates.truncate(6);
        for _ in 0..4 {
            candidates.push(self.some_expression());
        }
        if self.random.chance(1, 3) {
            candidates.reverse();
        }
        candidates.retain(|&e| self.fits(reach, of, (attribute, e)));
        let somewhere = |&&e: &&u16| reach.iter().any(|&c| self.holds(e, c));
        let live = candidates.iter().find(somewhere).copied();
        match live {
            Some(expression) => Some(expression),
            None if self.random.chance(1, 3) => candidates.first().copied(),
            None => None,
        }
    }

    /// A list of entries that a project over the query may have, out of the
    /// attributes in `allowed`.
    fn fitting_list(&mut self, reach: &[usize], of: usize, allowed: u64) -> Vec<Entry> {
        let sets = &self.nodes[of].sets;
        let mut somewhere = reach.iter().fold(0, |some, &c| some | sets[c]);
        if reach.is_empty() || self.random.chance(1, 12) {
            somewhere |= self.random.word() & self.random.word();
        }
        let mut attributes = bits(somewhere & allowed & below(self.size.attributes));
        self.random.shuffle(&mut attributes);
        let keep = self.random.between(3, 6);
        let room = self.size.entries - self.entries;
        let most = room.min(if self.size.full { 8 } else { 64 });
        let mut list = Vec::new();
        for attribute in attributes {
            if list.len() < most && self.random.chance(keep, 6) {
                if let Some(expression) = self.fitting_expression(reach, of, attribute) {
                    list.push((attribute, expression));
                }
            }
        }
        let repeats = self.repeats(most - list.len());
        self.repeat(&mut list, repeats, |builder, entry| {
            builder.reason_over(reach, of, entry)
        });
        list
    }

    fn project(&mut self, reach: &[usize], budget: usize) -> usize {
        let of = self.query(reach, budget - 1);
        let list = self.fitting_list(reach, of, u64::MAX);
        if list.is_empty() && self.random.chance(3, 4) {
            return of;
        }
        self.project_to(list, of)
    }

    fn project_to(&mut self, list: Vec<Entry>, of: usize) -> usize {
        self.entries += list.len();
        let sets = self.joined(&list);
        self.add(Node {
            kind: PROJECT,
            names: 0,
            operands: vec![of],
            list,
            sets,
        })
    }

    /// Any choice; an alternative may be reached nowhere.
    fn choice(&mut self, reach: &[usize], budget: usize) -> usize {
        let expression = self.some_expression();
        let (there, elsewhere) = self.split(reach, expression);
        let (first, second) = self.share(budget - 1);
        let there = self.query(&there, first);
        let elsewhere = self.query(&elsewhere, second);
        self.choice_of(expression, there, elsewhere)
    }

    /// A relation guarded by its own expression under a choice.
    fn guarded(&mut self, reach: &[usize], budget: usize) -> usize {
        let mut partly = Vec::new();
        for (number, relation) in self.relations.iter().enumerate() {
            if !reach.iter().all(|&c| self.holds(relation.expression, c)) {
                partly.push(number);
            }
        }
        if partly.is_empty() {
            return self.choice(reach, budget);
        }
        let number = self.random.pick(&partly);
        let expression = self.relations[number].expression;
        let (there, elsewhere) = self.split(reach, expression);
        let (first, second) = self.share(budget - 1);
        let mut held = self.relation(number);
        if first > 1 && self.random.chance(1, 2) {
            let list = self.fitting_list(&there, held, u64::MAX);
            held = self.project_to(list, held);
        }
        let elsewhere = self.query(&elsewhere, second);
        self.choice_of(expression, held, elsewhere)
    }

    fn split(&self, reach: &[usize], expression: u16) -> (Vec<usize>, Vec<usize>) {
        reach.iter().partition(|&&c| self.holds(expression, c))
    }

    /// Two parts of a budget of at least 2, each at least 1.
    fn share(&mut self, budget: usize) -> (usize, usize) {
        let first = self.random.between(1, budget - 1);
        (first, budget - first)
    }

    fn choice_of(&mut self, expression: u16, there: usize, elsewhere: usize) -> usize {
        let taken = |c: usize| {
            let node = if self.holds(expression, c) {
                there
            } else {
                elsewhere
            };
            self.nodes[node].sets[c]
        };
        let sets = (0..self.configurations()).map(taken).collect();
        self.add(Node {
            kind: CHOICE,
            names: expression,
            operands: vec![there, elsewhere],
            list: vec![],
            sets,
        })
    }

    /// A product of two queries, projected to different attributes where they
    /// share some.
    fn product(&mut self, reach: &[usize], budget: usize) -> usize {
        let (first, second) = self.share(budget - 3);
        let mut left = self.query(reach, first);
        let mut right = self.query(reach, second);
        let share = |&c: &usize| self.nodes[left].sets[c] & self.nodes[right].sets[c] != 0;
        if reach.iter().any(share) {
            let half = self.random.word();
            let list = self.fitting_list(reach, left, half);
            left = self.project_to(list, left);
            let list = self.fitting_list(reach, right, !half);
            right = self.project_to(list, right);
        }
        let both = |c: usize| self.nodes[left].sets[c] | self.nodes[right].sets[c];
        let sets = (0..self.configurations()).map(both).collect();
        self.pair(PRODUCT, left, right, sets)
    }

    /// Union or intersection of two queries projected to the same columns.
    fn same_columns(&mut self, reach: &[usize], budget: usize) -> usize {
        let (first, second) = self.share(budget - 3);
        let left = self.query(reach, first);
        let right = self.query(reach, second);
        let equal = |&c: &usize| self.nodes[left].sets[c] == self.nodes[right].sets[c];
        if reach.iter().all(equal) {
            return self.union_of(left, right);
        }
        let mut list = self.fitting_list(reach, left, u64::MAX);
        list.retain(|&entry| self.fits(reach, right, entry));
        list.truncate((self.size.entries - self.entries) / 2);
        let left = self.project_to(list.clone(), left);
        self.random.shuffle(&mut list);
        let room = self.size.entries - self.entries - list.len();
        self.same_set(&mut list, room);
        let right = self.project_to(list, right);
        self.union_of(left, right)
    }

    /// Union or intersection of a query with a copy of itself.
    fn copies(&mut self, reach: &[usize], budget: usize) -> usize {
        let left = self.query(reach, (budget - 1) / 2);
        if self.entries_under(left) > self.size.entries - self.entries {
            return left;
        }
        let right = self.copy(left);
        self.union_of(left, right)
    }

    fn entries_under(&self, node: usize) -> usize {
        let node = &self.nodes[node];
        let under = node.operands.iter().map(|&o| self.entries_under(o));
        node.list.len() + under.sum::<usize>()
    }

    fn copy(&mut self, node: usize) -> usize {
        let mut operands = Vec::new();
        for operand in self.nodes[node].operands.clone() {
            operands.push(self.copy(operand));
        }
        let Node {
            mut kind,
            names,
            ref list,
            ref sets,
            ..
        } = self.nodes[node];
        let (mut list, sets) = (list.clone(), sets.clone());
        if kind >= PRODUCT {
            self.random.shuffle(&mut operands);
        }
        if kind >= UNION {
            kind = self.random.pick(&[UNION, INTERSECTION]);
        }
        self.random.shuffle(&mut list);
        self.entries += list.len();
        self.add(Node {
            kind,
            names,
            operands,
            list,
            sets,
        })
    }

    fn union_of(&mut self, left: usize, right: usize) -> usize {
        let kind = self.random.pick(&[UNION, INTERSECTION]);
        let sets = self.nodes[left].sets.clone();
        self.pair(kind, left, right, sets)
    }

    fn pair(&mut self, kind: u16, left: usize, right: usize, sets: Vec<u64>) -> usize {
        self.add(Node {
            kind,
            names: 0,
            operands: vec![left, right],
            list: vec![],
            sets,
        })
    }

    /// Fills up the tables: comparisons that nothing names, entries and queries
    /// in an alternative reached nowhere, selects above.
    fn fill(&mut self, mut root: usize) -> usize {
        while self.comparisons.len() < self.size.comparisons {
            let form = self.any_comparison();
            self.add_comparison(form);
        }
        let mut nowhere = self.empty();
        while self.entries < self.size.entries {
            let room = self.size.entries - self.entries;
            let length = self.random.pick(&[64, 64, 200]);
            let list = self.unreached_list(room.min(length));
            nowhere = self.project_to(list, nowhere);
        }
        root = self.choice_of(self.model, root, nowhere);
        let reach = self.permitted.clone();
        while self.nodes.len() < self.size.queries {
            root = match self.fitting_comparison(&reach, root) {
                Some(comparison) if self.nodes.len() + 1 == self.size.queries => {
                    self.select_by(comparison, root)
                }
                Some(comparison) if self.random.chance(2, 3) => self.select_by(comparison, root),
                _ => {
                    let sets = self.nodes[root].sets.clone();
                    let empty = self.empty();
                    self.pair(PRODUCT, empty, root, sets)
                }
            };
        }
        root
    }

    /// Does the report have more than one set of columns, over more than one
    /// permitted configuration?
    fn varies(&self, root: usize) -> bool {
        let sets = &self.nodes[root].sets;
        let first = sets[self.permitted[0]];
        self.permitted.iter().any(|&c| sets[c] != first)
    }

    // Tables

    fn tables(mut self, root: usize) -> Tables {
        let order = self.order(root);
        let mut new = vec![0u16; self.nodes.len()];
        for (number, &node) in order.iter().enumerate() {
            new[node] = number as u16;
        }
        let mut tables = Tables {
            features: self.size.features as u64,
            attributes: self.size.attributes as u64,
            model: u64::from(self.model),
            expressions: self.expressions.concat(),
            comparisons: self.comparisons.concat(),
            kinds: self.kinds.clone(),
            ..Tables::default()
        };
        for relation in &self.relations {
            let length = relation.list.len() as u16;
            tables.relations.extend([relation.expression, length]);
            put_list(&mut tables, &relation.list);
        }
        for node in order {
            let node = &self.nodes[node];
            let to = |index: usize| new[node.operands[index]];
            let form = match node.kind {
                RELATION => [node.kind, node.names, 0, 0],
                SELECT => [node.kind, node.names, to(0), 0],
                PROJECT => [node.kind, node.list.len() as u16, to(0), 0],
                CHOICE => [node.kind, node.names, to(0), to(1)],
                PRODUCT | UNION | INTERSECTION => [node.kind, to(0), to(1), 0],
                _ => [node.kind, 0, 0, 0],
            };
            tables.queries.extend(form);
            put_list(&mut tables, &node.list);
        }
        tables
    }

    /// A random order of the forms in which operands come before their taker.
    fn order(&mut self, root: usize) -> Vec<usize> {
        let mut taker = vec![root; self.nodes.len()];
        let mut waits: Vec<usize> = self.nodes.iter().map(|n| n.operands.len()).collect();
        for (number, node) in self.nodes.iter().enumerate() {
            for &operand in &node.operands {
                taker[operand] = number;
            }
        }
        let mut ready: Vec<usize> = (0..waits.len()).filter(|&n| waits[n] == 0).collect();
        let mut order = Vec::new();
        while !ready.is_empty() {
            let next = ready.swap_remove(self.random.below(ready.len()));
            order.push(next);
            if next != root {
                waits[taker[next]] -= 1;
                if waits[taker[next]] == 0 {
                    ready.push(taker[next]);
                }
            }
        }
        order
    }
}

fn put_list(tables: &mut Tables, list: &[Entry]) {
    for &(attribute, expression) in list {
        tables.entries.extend([attribute, expression]);
    }
}

/// The attributes of a set, ascending.
pub(super) fn bits(set: u64) -> Vec<u16> {
    (0..64).filter(|a| set >> a & 1 == 1).collect()
}

/// The set of all attributes below a number.
pub(super) fn below(attributes: usize) -> u64 {
    match attributes {
        64 => u64::MAX,
        _ => (1 << attributes) - 1,
    }
}
