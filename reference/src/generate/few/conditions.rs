//! Expressions: a model that permits exactly so many configurations, and conditions
//! that hold at the first of them, at the last, or elsewhere.

use super::{Few, CRAMPED};
use crate::expression;
use crate::generate::feature_ranges;
use crate::tables::EXACTLY_ONE;

const FALSE: [u16; 3] = [0, 0, 0];
const TRUE: [u16; 3] = [1, 0, 0];
const FEATURE: u16 = 2;
const NOT: u16 = 3;
const AND: u16 = 4;
const OR: u16 = 5;

/// Places among the permitted configurations beside a power of two.
const PLACES: [usize; 16] = [1, 2, 6, 7, 8, 9, 15, 16, 17, 31, 32, 33, 63, 64, 127, 128];

/// A feature, or its negation where it is not on.
type Literal = (u16, bool);

impl Few<'_> {
    /// The number of an expression, which is there once.
    fn expression(&mut self, form: [u16; 3]) -> u16 {
        let mut forms = self.tables.expressions.chunks(3);
        match forms.position(|other| other == form) {
            Some(number) => number as u16,
            None => self.tables.add_expression(form),
        }
    }

    pub(super) fn negation(&mut self, of: u16) -> u16 {
        self.expression([NOT, of, 0])
    }

    fn literal(&mut self, (feature, on): Literal) -> u16 {
        let expression = self.expression([FEATURE, feature, 0]);
        match on {
            true => expression,
            false => self.negation(expression),
        }
    }

    /// How many expressions may still come.
    pub(super) fn room(&self) -> usize {
        let most = match self.expressions {
            0 => 256,
            expressions => expressions,
        };
        most.saturating_sub(self.tables.count(0))
    }

    /// Does the expression hold at each permitted configuration?
    pub(super) fn values(&self, expression: u16) -> Vec<bool> {
        let value = |&c: &u64| expression::values(&self.tables, c)[usize::from(expression)];
        self.permitted.iter().map(value).collect()
    }

    pub(super) fn holds_somewhere(&self, expression: u16) -> bool {
        self.hold_together(expression, expression)
    }

    pub(super) fn hold_together(&self, one: u16, other: u16) -> bool {
        self.permitted.iter().any(|&c| {
            let holds = expression::values(&self.tables, c);
            holds[usize::from(one)] && holds[usize::from(other)]
        })
    }

    // The model

    /// Exactly so many configurations are permitted: the lowest, the highest, every
    /// other one, some together, some in the last word alone, or scattered ones. One
    /// expression alone permits as many as it does.
    pub(super) fn choose_model(&mut self, count: u64) {
        match self.expressions {
            1 => self.choose_one_expression(),
            _ => {
                self.choose_expressions_before();
                let model = self.counted(count);
                self.tables.model = u64::from(model);
                self.always = match self.random.chance(1, 2) {
                    true => self.expression(TRUE),
                    false => model,
                };
            }
        }
        let permitted = expression::permitted(&self.tables);
        self.permitted = permitted.iter().map(|at| at.configuration).collect();
    }

    fn choose_one_expression(&mut self) {
        let features = self.tables.features as usize;
        let form = match self.random.below(3) {
            0 if features > 0 => {
                let [first, count] = feature_ranges::sound(self.random, features);
                [EXACTLY_ONE, first, count]
            }
            1 if features > 0 => [FEATURE, self.random.below(features) as u16, 0],
            _ => TRUE,
        };
        self.tables.expressions = form.to_vec();
    }

    /// Expressions that come first, so that all others have high numbers.
    fn choose_expressions_before(&mut self) {
        if self.expressions > 120 && self.random.chance(1, 2) {
            self.any_expressions(self.expressions - 110);
        }
    }

    /// The features, the lowest first.
    fn in_order(&self) -> Vec<Literal> {
        let features = 0..self.tables.features as u16;
        features.map(|feature| (feature, true)).collect()
    }

    /// A model that holds at exactly so many configurations.
    fn counted(&mut self, count: u64) -> u16 {
        let all = self.tables.configurations();
        let spare = all - count;
        let mut order = self.in_order();
        let ways = match self.expressions {
            1..=CRAMPED => 4,
            _ => 8,
        };
        let any = self.random.word() % (spare + 1);
        let first = match self.random.below(ways) {
            0 => 0,
            1 => spare,
            2 | 3 => {
                // Feature 0 decides first.
                let first = order.len().min(1);
                order.rotate_left(first);
                self.random.pick(&[0, spare])
            }
            4 => any,
            5 => spare - any % 64.min(spare + 1),
            _ => {
                self.random.shuffle(&mut order);
                order
                    .iter_mut()
                    .for_each(|literal| literal.1 = self.random.chance(1, 2));
                any
            }
        };
        self.between(&order, first, first + count)
    }

    /// Holds where the features, of which those in the order count more and more, give
    /// a number from the first one on and below the end.
    fn between(&mut self, order: &[Literal], first: u64, end: u64) -> u16 {
        let lower = self.at_least(order, first);
        if end == self.tables.configurations() {
            return lower.unwrap_or_else(|| self.expression(TRUE));
        }
        let upper = self.at_least(order, end);
        let upper = upper.unwrap_or_else(|| self.expression(TRUE));
        let upper = self.negation(upper);
        match lower {
            None => upper,
            Some(lower) => self.expression([AND, lower, upper]),
        }
    }

    /// Holds where they give at least the number; none is needed for 0.
    fn at_least(&mut self, order: &[Literal], number: u64) -> Option<u16> {
        let mut lower = None;
        for (place, &literal) in order.iter().enumerate() {
            lower = match (number >> place & 1 == 1, lower) {
                (false, None) => None,
                (true, None) => Some(self.literal(literal)),
                (decides, Some(lower)) => {
                    let kind = if decides { AND } else { OR };
                    let literal = self.literal(literal);
                    Some(self.expression([kind, literal, lower]))
                }
            };
        }
        lower
    }

    // Conditions

    /// Holds at one configuration alone.
    pub(super) fn only(&mut self, c: u64) -> u16 {
        let mut all = None;
        for feature in 0..self.tables.features as u16 {
            let literal = self.literal((feature, c >> feature & 1 == 1));
            all = Some(match all {
                None => literal,
                Some(all) => self.expression([AND, all, literal]),
            });
        }
        all.unwrap_or_else(|| self.expression(TRUE))
    }

    /// A feature that is on, or that is off, at some permitted configuration.
    pub(super) fn somewhere(&mut self, feature: u16) -> u16 {
        let on = self.expression([FEATURE, feature, 0]);
        let values = self.values(on);
        let both = values.contains(&true) && values.contains(&false);
        let negated = both && self.room() > CRAMPED && self.random.chance(1, 2);
        match negated || !values.contains(&true) {
            true => self.negation(on),
            false => on,
        }
    }

    /// A condition that holds at the first permitted configuration alone, at the last, at
    /// one beside a power of two, from one on, with a feature or without, or always.
    pub(super) fn condition(&mut self) -> u16 {
        let features = self.tables.features as usize;
        if self.expressions == 1 || features == 0 || self.room() < 2 {
            return self.always;
        }
        if self.room() < 2 * features + 4 {
            return self.any_literal();
        }
        match self.random.below(10) {
            0 | 1 => self.only(self.permitted[0]),
            2..=4 => self.only(self.permitted[self.permitted.len() - 1]),
            5 | 6 => {
                let c = self.beside_a_power();
                self.only(c)
            }
            7 => {
                let from = self.random.pick(&self.permitted);
                let order = self.in_order();
                self.at_least(&order, from).unwrap_or(self.always)
            }
            8 => self.any_literal(),
            _ => self.always,
        }
    }

    fn any_literal(&mut self) -> u16 {
        let feature = self.random.below(self.tables.features as usize) as u16;
        let on = self.random.chance(1, 2);
        self.literal((feature, on))
    }

    /// A permitted configuration whose place among them is beside a power of two.
    fn beside_a_power(&mut self) -> u64 {
        let mut places = PLACES.to_vec();
        places.retain(|&place| place < self.permitted.len());
        match places.is_empty() {
            true => self.permitted[0],
            false => self.permitted[self.random.pick(&places)],
        }
    }

    /// Holds at no permitted configuration, where there is room for it.
    pub(super) fn never(&mut self) -> Option<u16> {
        let features = self.tables.features as usize;
        if self.expressions == 1 || self.room() < 2 * features + 4 {
            return None;
        }
        let all = 0..self.tables.configurations();
        let others: Vec<u64> = all.filter(|c| !self.permitted.contains(c)).collect();
        Some(match others.is_empty() {
            true => self.expression(FALSE),
            false if self.random.chance(1, 2) => self.negation(self.tables.model as u16),
            false => {
                let c = self.random.pick(&others);
                self.only(c)
            }
        })
    }

    /// An expression that holds at some permitted configurations and not at others, as
    /// far as some tries give it; or, that holds elsewhere than the given one, if it holds
    /// somewhere.
    pub(super) fn presence(&mut self, absent: Option<u16>) -> Option<u16> {
        if self.expressions == 1 || self.room() == 0 {
            return None;
        }
        if let Some(absent) = absent {
            let presence = self.negation(absent);
            return self.holds_somewhere(presence).then_some(presence);
        }
        for _ in 0..6 {
            let condition = self.condition();
            let values = self.values(condition);
            if values.contains(&true) && values.contains(&false) {
                return Some(match self.random.chance(2, 3) && self.room() > 0 {
                    true => self.negation(condition),
                    false => condition,
                });
            }
        }
        None
    }

    // As many as there may be

    /// So many expressions of any kind.
    fn any_expressions(&mut self, count: usize) {
        for _ in 0..count {
            let number = self.tables.count(0);
            let any = |few: &mut Self| few.random.below(number) as u16;
            let form = match self.random.below(5) {
                0 if number > 0 => [NOT, any(self), 0],
                1 if number > 0 => [AND, any(self), any(self)],
                2 | 3 if number > 0 => [OR, any(self), any(self)],
                _ => TRUE,
            };
            self.tables.expressions.extend(form);
        }
    }

    /// As many expressions as there are to be; the last may be the model.
    pub(super) fn fill_expressions(&mut self) {
        if self.expressions == 0 {
            return;
        }
        let twice = self.room() > 1 && self.random.chance(1, 2);
        self.any_expressions(self.room().saturating_sub(2 * usize::from(twice)));
        if twice {
            let not = self
                .tables
                .add_expression([NOT, self.tables.model as u16, 0]);
            let model = self.tables.add_expression([NOT, not, 0]);
            self.tables.model = u64::from(model);
        }
    }
}
