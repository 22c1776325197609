//! Tables aimed at the limits of the wall page: which configurations have a
//! line, how many lines there are, and how many columns stand on them.

use super::{feature_ranges, kinds};
use crate::expression::{self, Permitted};
use crate::random::Random;
use crate::tables::{Tables, CHOICE, EMPTY, EXACTLY_ONE, PROJECT, RELATION};

/// The lowest and the highest configuration, and those around which the number
/// gets a digit more.
pub const DIGITS: [u16; 8] = [0, 9, 10, 99, 100, 999, 1000, 1023];

/// Numbers of lines: few, around those, and where the bytes of a page are just
/// below 65,536 (897) and just over (898).
const LINES: [u16; 14] = [
    1, 2, 9, 10, 11, 99, 100, 101, 897, 898, 999, 1000, 1001, 1023,
];

/// Numbers of columns that are always there, and of more: together they go from
/// none to 64, and over 9 and 10.
const ALWAYS: [usize; 8] = [0, 0, 1, 8, 9, 10, 63, 64];
const MORE: [usize; 8] = [0, 1, 1, 1, 9, 10, 55, 64];

/// Expressions that every wall has. Those of the features follow.
const FALSE: u16 = 0;
const TRUE: u16 = 1;

const NOT: u16 = 3;
const AND: u16 = 4;
const OR: u16 = 5;

/// The expression of a feature, or of its negation.
fn literal(feature: u16, on: bool) -> u16 {
    2 + 2 * feature + u16::from(!on)
}

/// Tables that are accepted.
pub fn tables(random: &mut Random) -> Tables {
    let features = random.pick(&[0, 1, 2, 4, 4, 7, 7, 10, 10, 10, 10, 10]);
    let attributes = random.pick(&[0, 1, 2, 9, 10, 11, 63, 63, 64, 64, 64, 64]);
    let mut wall = Wall::new(random, features, attributes);
    wall.choose_model();
    wall.choose_report();
    // Nothing is compared, so any kinds do.
    wall.tables.kinds = kinds::sound(wall.random, attributes as usize);
    wall.tables
}

struct Wall<'a> {
    random: &'a mut Random,
    tables: Tables,
}

impl Wall<'_> {
    fn new(random: &mut Random, features: u16, attributes: u64) -> Wall<'_> {
        let mut expressions = vec![[0, 0, 0], [1, 0, 0]];
        for feature in 0..features {
            let on = literal(feature, true);
            expressions.extend([[2, feature, 0], [NOT, on, 0]]);
        }
        let tables = Tables {
            features: u64::from(features),
            attributes,
            model: u64::from(TRUE),
            expressions: expressions.concat(),
            ..Tables::default()
        };
        Wall { random, tables }
    }

    // Expressions

    fn features(&self) -> std::ops::Range<u16> {
        0..self.tables.features as u16
    }

    fn add(&mut self, form: [u16; 3]) -> u16 {
        self.tables.add_expression(form)
    }

    /// Holds at one configuration alone.
    fn only(&mut self, c: u64) -> u16 {
        let literals = self.features().map(|f| literal(f, c >> f & 1 == 1));
        literals.fold(TRUE, |all, one| self.add([AND, all, one]))
    }

    /// Holds at the given configurations alone.
    fn any_of(&mut self, configurations: &[u64]) -> u16 {
        configurations.iter().fold(FALSE, |any, &c| {
            let one = self.only(c);
            self.add([OR, any, one])
        })
    }

    /// Holds below the given number, which is below 2^n: feature by feature from
    /// the lowest, so that the highest one decides last.
    fn below(&mut self, number: u64) -> u16 {
        self.features().fold(FALSE, |lower, feature| {
            let kind = if number >> feature & 1 == 1 { OR } else { AND };
            self.add([kind, literal(feature, false), lower])
        })
    }

    /// One of the given numbers that is a configuration, or any configuration.
    fn number(&mut self, of: &[u16]) -> u64 {
        let all = self.tables.configurations();
        let number = u64::from(self.random.pick(of));
        match number < all {
            true => number,
            false => self.random.word() % all,
        }
    }

    /// A feature, or its negation; true where there is no feature.
    fn any_literal(&mut self) -> u16 {
        match self.tables.features as usize {
            0 => TRUE,
            features => {
                let feature = self.random.below(features) as u16;
                literal(feature, self.random.chance(1, 2))
            }
        }
    }

    /// Exactly one of a range of features; true where there is no feature.
    fn any_range(&mut self) -> u16 {
        match self.tables.features as usize {
            0 => TRUE,
            features => {
                let [first, count] = feature_ranges::sound(self.random, features);
                self.add([EXACTLY_ONE, first, count])
            }
        }
    }

    /// What the expression says at each permitted configuration.
    fn values(&self, expression: u16) -> Vec<bool> {
        let permitted = expression::permitted(&self.tables);
        let value = |at: &Permitted| at.holds[usize::from(expression)];
        permitted.iter().map(value).collect()
    }

    // Lines

    /// All configurations, one, some far apart, all but one, the lowest, all but
    /// the lowest, those with exactly one feature of a range, or half.
    fn choose_model(&mut self) {
        let model = match self.random.below(9) {
            0 => TRUE,
            1 | 2 => {
                let c = self.number(&DIGITS);
                self.only(c)
            }
            3 => {
                let count = self.random.between(2, 8);
                let some: Vec<u64> = (0..count).map(|_| self.number(&DIGITS)).collect();
                self.any_of(&some)
            }
            4 => {
                let c = self.number(&DIGITS);
                let one = self.only(c);
                self.add([NOT, one, 0])
            }
            5 => {
                let count = self.number(&LINES);
                self.below(count)
            }
            6 => {
                let first = self.number(&DIGITS);
                let lower = self.below(first);
                self.add([NOT, lower, 0])
            }
            7 => self.any_range(),
            _ => self.any_literal(),
        };
        if self.values(model).contains(&true) {
            self.tables.model = u64::from(model);
        }
    }

    // Columns

    /// An expression that holds at some permitted configurations and not at
    /// others, as far as some tries give it; else true.
    fn condition(&mut self) -> u16 {
        for _ in 0..3 {
            let expression = self.any_condition();
            let values = self.values(expression);
            if values.contains(&true) && values.contains(&false) {
                return expression;
            }
        }
        TRUE
    }

    fn any_condition(&mut self) -> u16 {
        match self.random.below(5) {
            0 => {
                let c = self.number(&DIGITS);
                self.only(c)
            }
            1 => {
                let first = self.number(&LINES);
                self.below(first)
            }
            2 => {
                let permitted = expression::permitted(&self.tables);
                let at = &permitted[self.random.below(permitted.len())];
                self.only(at.configuration)
            }
            3 => self.any_range(),
            _ => self.any_literal(),
        }
    }

    /// A list: some attributes always, and some more under one condition or two.
    /// Its attributes stand from the first, from the last, or anyhow.
    fn list(&mut self) -> Vec<[u16; 2]> {
        let mut attributes: Vec<u16> = (0..self.tables.attributes as u16).collect();
        match self.random.below(3) {
            0 => {}
            1 => attributes.reverse(),
            _ => self.random.shuffle(&mut attributes),
        }
        let always = self.random.pick(&ALWAYS);
        let more = self.random.pick(&MORE);
        let conditions = [self.condition(), self.condition()];
        let conditions = &conditions[..self.random.between(1, 2)];
        let listed = attributes.into_iter().take(always + more).enumerate();
        let condition = |place: usize, random: &mut Random| match place < always {
            true => TRUE,
            false => random.pick(conditions),
        };
        listed
            .map(|(place, attribute)| [attribute, condition(place, self.random)])
            .collect()
    }

    /// A relation with the list; a project of a relation that has all; or a
    /// choice, without columns elsewhere.
    fn choose_report(&mut self) {
        let list = self.list();
        let length = list.len() as u16;
        self.tables.relations = vec![TRUE, length];
        self.tables.entries = list.concat();
        self.tables.queries = vec![RELATION, 0, 0, 0];
        match self.random.below(4) {
            0 => {
                let all = list.iter().map(|[attribute, _]| [*attribute, TRUE]);
                let both: Vec<[u16; 2]> = all.chain(list.iter().copied()).collect();
                self.tables.entries = both.concat();
                self.tables.queries.extend([PROJECT, length, 0, 0]);
            }
            1 => {
                let condition = self.condition();
                let choice = [EMPTY, 0, 0, 0, CHOICE, condition, 0, 1];
                self.tables.queries.extend(choice);
            }
            _ => {}
        }
    }
}
