//! Reports aimed at the limits of the filled reading: steps above the base, and forms beside
//! it, that leave out a condition.

use super::{features_for, Entry, Few};
use crate::generate::kinds;
use crate::random::Random;
use crate::refusal::TYPING;
use crate::tables::{Tables, COMPARISON_CHOICE, WITH_CONSTANT};
use crate::tables::{CHOICE, EMPTY, INTERSECTION, PRODUCT, SELECT, UNION};

/// Numbers of permitted configurations, 64, 65 and all of ten features most often.
const COUNTS: [u64; 22] = [
    1, 2, 2, 3, 4, 8, 16, 63, 64, 64, 64, 64, 65, 65, 65, 65, 128, 1023, 1024, 1024, 1024, 1024,
];

/// No form comes beside the base when there are so many relations.
const MANY_RELATIONS: usize = 28;

/// A step above a form that has the base's columns, which leaves them where it breaks no
/// rule; none where there is no occasion.
type Step = fn(&mut Few<'_>, u16) -> Option<u16>;

/// A form of its own, whose columns are no columns of the base.
type Beside = fn(&mut Few<'_>, &Side) -> u16;

/// What a form beside the base is made of: an attribute that the base lacks, an expression
/// that holds at some permitted configurations and not at others, and its negation.
struct Side {
    attribute: u16,
    there: u16,
    gone: u16,
}

const STEPS: [Step; 5] = [
    |few, of| few.dropped(of),
    |few, of| few.found_once(of),
    |few, of| few.found_nowhere(of),
    |few, of| few.nested(of),
    |few, of| few.of_strict_fault(of),
];

const BESIDES: [Beside; 10] = [
    |few, side| few.absent_somewhere(side),
    |few, side| few.absent_everywhere(side),
    |few, side| few.reached_nowhere(side),
    |few, side| few.all_dropped(side),
    |few, side| few.all_dropped_of_absent(side),
    |few, side| few.compared_of_absent(side),
    |few, side| few.united_with_absent(side),
    |few, side| few.united_and_dropped(side),
    |few, side| few.shared_by_two(side),
    |few, side| few.missing_apart(side),
];

/// Tables of any size.
pub fn filled(random: &mut Random) -> Tables {
    let count = random.pick(&COUNTS);
    let features = features_for(random, count);
    let attributes = random.pick(&[3, 4, 12, 20, 63, 64]);
    let mut few = Few::new(random, features, attributes);
    if few.random.chance(2, 3) {
        // As many as it takes: most reports are short.
        few.queries = 0;
        few.expressions = 0;
    }
    few.choose_model(count);
    few.choose_schema();
    few.choose_filled_report();
    few.fill_up();
    few.tables()
}

/// Tables of which many are small.
pub fn small_filled(random: &mut Random) -> Tables {
    let features = random.pick(&[1, 2, 2, 2, 3]);
    let attributes = random.pick(&[1, 2, 2, 3, 3, 4]);
    let mut few = Few::new(random, features, attributes);
    few.expressions = few.random.between(3, 6);
    few.queries = 0;
    let all = 1 << features;
    let count = few.random.pick(&[all, all, all, all - 1, all / 2]);
    few.choose_model(count);
    let alone = match few.random.chance(1, 2) {
        true => few.side(),
        false => None,
    };
    match alone {
        Some(side) => {
            few.beside(&side);
        }
        None => {
            few.choose_schema();
            few.choose_small_report();
        }
    }
    few.fill_expressions();
    few.tables()
}

impl Few<'_> {
    /// Steps above the base and forms beside it, one to three.
    fn choose_filled_report(&mut self) {
        let mut report = self.base();
        if self.queries == 1 {
            return;
        }
        for _ in 0..self.random.pick(&[1, 1, 1, 2, 2, 3]) {
            report = self.some_steps(report);
            report = self.filled_step(report);
            if self.random.chance(1, 6) {
                report = self.guarded(report);
            }
        }
        self.fill_queries(report);
    }

    fn choose_small_report(&mut self) {
        let report = self.base();
        let report = self.filled_step(report);
        if self.random.chance(1, 4) {
            self.selected(report);
        }
    }

    /// A step above the form, or a product with a form beside it.
    fn filled_step(&mut self, of: u16) -> u16 {
        let has_room = self.has_room_for_lists();
        if has_room && self.random.chance(1, 2) {
            let step = self.random.pick(&STEPS);
            return step(self, of).unwrap_or_else(|| self.selected(of));
        }
        match self.side() {
            Some(side) if has_room => {
                let beside = self.beside(&side);
                let both = self.pair(PRODUCT, of, beside);
                match self.random.chance(2, 3) {
                    true => self.project(self.columns(), both),
                    false => both,
                }
            }
            _ => self.selected(of),
        }
    }

    fn beside(&mut self, side: &Side) -> u16 {
        let beside = self.random.pick(&BESIDES);
        beside(self, side)
    }

    /// What it takes for a form beside the base, where there is room for it. The attribute
    /// or the relation is there at the last permitted configuration alone, or elsewhere.
    fn side(&mut self) -> Option<Side> {
        if self.relations.len() > MANY_RELATIONS || self.room() < 3 {
            return None;
        }
        let missing = self.not_of_the_base();
        if missing.is_empty() {
            return None;
        }
        let spacious = self.room() > 2 * self.tables.features as usize + 4;
        let there = match self.permitted.len() > 1 && spacious && self.random.chance(1, 2) {
            true => self.only(self.permitted[self.permitted.len() - 1]),
            false => self.presence(None)?,
        };
        Some(Side {
            attribute: self.random.pick(&missing),
            there,
            gone: self.negation(there),
        })
    }

    /// The attributes that the base lacks, if there is a base.
    fn not_of_the_base(&self) -> Vec<u16> {
        match self.relations.is_empty() {
            true => (0..self.tables.attributes as u16).collect(),
            false => self.missing.clone(),
        }
    }

    /// The relation of the one attribute, present where the expression holds.
    fn of_one(&mut self, presence: u16, side: &Side) -> u16 {
        let list = vec![[side.attribute, self.always]];
        self.relation(presence, list).expect("there is room for it")
    }

    /// A project that lists the attribute always, once or twice.
    fn listed_always(&mut self, side: &Side, of: u16) -> u16 {
        let entry = [side.attribute, self.always];
        let again = [side.attribute, self.random.pick(&[side.there, side.gone])];
        let list = match self.random.below(3) {
            0 => vec![entry, again],
            1 => vec![again, entry],
            _ => vec![entry],
        };
        self.project(list, of)
    }

    // Forms beside the base

    /// "An absent relation counts as empty".
    fn absent_somewhere(&mut self, side: &Side) -> u16 {
        self.of_one(side.there, side)
    }

    /// Present elsewhere, and "absent everywhere it is reached".
    fn absent_everywhere(&mut self, side: &Side) -> u16 {
        let relation = self.of_one(side.there, side);
        let empty = self.form([EMPTY, 0, 0, 0]);
        match self.random.chance(1, 2) {
            true => self.form([CHOICE, side.gone, relation, empty]),
            false => self.form([CHOICE, side.there, empty, relation]),
        }
    }

    /// "A form reached nowhere breaks nothing."
    fn reached_nowhere(&mut self, side: &Side) -> u16 {
        let relation = self.of_one(side.there, side);
        let empty = self.form([EMPTY, 0, 0, 0]);
        let inner = self.form([CHOICE, side.gone, relation, empty]);
        let other = self.form([EMPTY, 0, 0, 0]);
        self.form([CHOICE, side.there, inner, other])
    }

    /// A project that loses all its entries where the operand lacks the attribute.
    fn all_dropped(&mut self, side: &Side) -> u16 {
        let list = vec![[side.attribute, side.there]];
        let relation = self.relation(self.always, list);
        self.listed_always(side, relation.expect("there is room for it"))
    }

    /// The same where the operand's relation is absent; or listed only there.
    fn all_dropped_of_absent(&mut self, side: &Side) -> u16 {
        let relation = self.of_one(side.there, side);
        match self.random.chance(1, 3) {
            true => self.project(vec![[side.attribute, side.gone]; 2], relation),
            false => self.listed_always(side, relation),
        }
    }

    /// 16 where the relation is absent, 25 where the kinds differ, or neither.
    fn compared_of_absent(&mut self, side: &Side) -> u16 {
        let relation = self.of_one(side.there, side);
        let kind = self.kind(side.attribute);
        let kind = match self.random.chance(1, 2) {
            true => kinds::other(self.random, kind),
            false => kind,
        };
        let compared = self.comparison([WITH_CONSTANT, 2, side.attribute, 7, kind]);
        let comparison = match self.random.chance(1, 2) {
            true => compared,
            false => {
                let elsewhere = self.comparison([1, 0, 0, 0, 0]);
                self.comparison([COMPARISON_CHOICE, 0, side.there, compared, elsewhere])
            }
        };
        self.form([SELECT, comparison, relation, 0])
    }

    /// 19 where the other relation is absent.
    fn united_with_absent(&mut self, side: &Side) -> u16 {
        let one = self.of_one(self.always, side);
        let other = self.of_one(side.there, side);
        let kind = self.random.pick(&[UNION, INTERSECTION]);
        self.pair(kind, one, other)
    }

    /// Equal sets, because both are filled in.
    fn united_and_dropped(&mut self, side: &Side) -> u16 {
        let one = self.all_dropped(side);
        let other = self.of_one(side.there, side);
        let kind = self.random.pick(&[UNION, INTERSECTION]);
        self.pair(kind, one, other)
    }

    /// 18 where both are present, if anywhere.
    fn shared_by_two(&mut self, side: &Side) -> u16 {
        let one = self.of_one(side.there, side);
        let presence = match self.random.chance(2, 3) {
            true => side.gone,
            false => self.condition(),
        };
        let presence = match self.holds_somewhere(presence) {
            true => presence,
            false => side.there,
        };
        let other = self.of_one(presence, side);
        self.pair(PRODUCT, one, other)
    }

    /// Two that are found nowhere, of which the higher is listed at lower configurations.
    fn missing_apart(&mut self, side: &Side) -> u16 {
        let mut two = self.not_of_the_base();
        self.random.shuffle(&mut two);
        two.truncate(2);
        two.sort_unstable();
        let at_the_first = self.values(side.there)[0];
        let early = if at_the_first { side.there } else { side.gone };
        let late = if at_the_first { side.gone } else { side.there };
        let list = two.into_iter().zip([late, early]);
        let list = list
            .map(|(attribute, listed)| [attribute, listed])
            .collect();
        let empty = self.form([EMPTY, 0, 0, 0]);
        self.project(list, empty)
    }

    // Steps

    /// "A projected attribute is dropped where its operand lacks it."
    fn dropped(&mut self, of: u16) -> Option<u16> {
        let always = |[attribute, _]: Entry| [attribute, self.always];
        let mut list: Vec<Entry> = self.columns().into_iter().map(always).collect();
        self.random.shuffle(&mut list);
        Some(self.project(list, of))
    }

    /// An attribute listed for more than one reason, and found by one of them.
    fn found_once(&mut self, of: u16) -> Option<u16> {
        if self.varying.is_empty() {
            return None;
        }
        let [attribute, _] = self.random.pick(&self.varying);
        let mut list = self.columns();
        list.push([attribute, self.condition()]);
        list.push([attribute, self.condition()]);
        self.random.shuffle(&mut list);
        Some(self.project(list, of))
    }

    /// An attribute listed for one reason or two, and found by none.
    fn found_nowhere(&mut self, of: u16) -> Option<u16> {
        if self.varying.is_empty() || self.room() < 2 {
            return None;
        }
        let [attribute, there] = self.random.pick(&self.varying);
        let gone = self.negation(there);
        let mut list = self.columns();
        list.retain(|&[other, _]| other != attribute);
        list.extend(vec![[attribute, gone]; self.random.between(1, 2)]);
        self.random.shuffle(&mut list);
        Some(self.project(list, of))
    }

    /// A project that drops, under one that lists what is found nowhere.
    fn nested(&mut self, of: u16) -> Option<u16> {
        let inner = self.dropped(of)?;
        let outer = self.found_nowhere(inner);
        Some(outer.unwrap_or(inner))
    }

    /// A step that breaks a strict rule, and may break it in this reading too.
    fn of_strict_fault(&mut self, of: u16) -> Option<u16> {
        let number = self.random.pick(&TYPING);
        Some(self.broken(number, of, None))
    }
}
