//! Steps of a report: those that break nothing, and those that break a rule where a
//! condition holds. Each leaves the columns of the base.

use super::{Entry, Few};
use crate::generate::kinds;
use crate::refusal::TYPING;
use crate::tables::{CHOICE, EMPTY, INTERSECTION, PRODUCT, PROJECT, RELATION, SELECT, UNION};
use crate::tables::{COMPARISON_CHOICE, WITH_CONSTANT};

const ALWAYS: [u16; 5] = [1, 0, 0, 0, 0];

/// Projects are left out when their lists have so many entries, and no comparison comes for
/// a select when there are so many.
const MOST_ENTRIES: usize = 300;
const MOST_HARMLESS: usize = 60;
const MOST_COMPARISONS: usize = 200;

/// One more is left for a list as long as it may be.
const MOST_RELATIONS: usize = 31;

impl Few<'_> {
    // Forms

    pub(super) fn form(&mut self, query: [u16; 4]) -> u16 {
        self.forms.push((query, vec![]));
        self.forms.len() as u16 - 1
    }

    pub(super) fn base(&mut self) -> u16 {
        self.form([RELATION, self.base, 0, 0])
    }

    pub(super) fn project(&mut self, list: Vec<Entry>, of: u16) -> u16 {
        let form = self.form([PROJECT, list.len() as u16, of, 0]);
        self.forms[usize::from(form)].1 = list;
        form
    }

    pub(super) fn has_room_for_lists(&self) -> bool {
        let lists = self.forms.iter().map(|(_, list)| list.len());
        lists.sum::<usize>() < MOST_ENTRIES
    }

    /// Two forms, either of which comes first.
    pub(super) fn pair(&mut self, kind: u16, one: u16, other: u16) -> u16 {
        match self.random.chance(1, 2) {
            true => self.form([kind, one, other, 0]),
            false => self.form([kind, other, one, 0]),
        }
    }

    /// Adds a comparison, and gives its number.
    pub(super) fn comparison(&mut self, form: [u16; 5]) -> u16 {
        self.tables.comparisons.extend(form);
        self.tables.count(3) as u16 - 1
    }

    // Steps that break nothing

    /// A select, a product with nothing, a choice whose other alternative is reached
    /// nowhere, or a project of all columns.
    pub(super) fn harmless(&mut self, of: u16) -> u16 {
        match self.random.below(6) {
            0 | 1 => {
                let empty = self.form([EMPTY, 0, 0, 0]);
                self.pair(PRODUCT, of, empty)
            }
            2 => {
                let empty = self.form([EMPTY, 0, 0, 0]);
                self.form([CHOICE, self.always, of, empty])
            }
            3 if self.has_room_for_lists() => {
                let list = self.columns();
                self.project(list, of)
            }
            _ => self.selected(of),
        }
    }

    /// A select that breaks nothing.
    pub(super) fn selected(&mut self, of: u16) -> u16 {
        let comparison = match self.random.chance(1, 4) && self.tables.count(3) < MOST_HARMLESS {
            true => None,
            false => self.any_harmless(),
        };
        let comparison = comparison.unwrap_or_else(|| {
            let form = self.harmless_form();
            let new = self.comparison(form);
            self.harmless.push(new);
            new
        });
        self.form([SELECT, comparison, of, 0])
    }

    fn any_harmless(&mut self) -> Option<u16> {
        match self.harmless.is_empty() {
            true => None,
            false => Some(self.random.pick(&self.harmless)),
        }
    }

    /// A comparison that breaks no rule above the base.
    pub(super) fn harmless_form(&mut self) -> [u16; 5] {
        let any = [self.any_harmless(), self.any_harmless()];
        let operator = self.random.below(6) as u16;
        match (self.random.below(6), any) {
            (0, _) => [0, 0, 0, 0, 0],
            (1 | 2, _) if !self.there.is_empty() => {
                let attribute = self.random.pick(&self.there);
                let constant = self.random.word() as u16;
                [
                    WITH_CONSTANT,
                    operator,
                    attribute,
                    constant,
                    self.kind(attribute),
                ]
            }
            (3, [Some(one), Some(other)]) => {
                let kind = self.random.pick(&[5, 6]);
                [kind, 0, one, other, 0]
            }
            (4, [Some(one), _]) => [4, 0, one, 0, 0],
            (5, [Some(one), _]) => {
                let other = self.random.below(self.tables.count(3)) as u16;
                [COMPARISON_CHOICE, 0, self.always, one, other]
            }
            _ => ALWAYS,
        }
    }

    pub(super) fn kind(&self, attribute: u16) -> u16 {
        self.tables.kinds[usize::from(attribute)]
    }

    /// A step that would break a rule at configurations that are not permitted.
    pub(super) fn broken_nowhere(&mut self, of: u16) -> u16 {
        let number = self.random.pick(&TYPING);
        match self.never() {
            Some(never) => self.broken(number, of, Some(never)),
            None => self.harmless(of),
        }
    }

    /// A choice whose other alternative breaks a rule where it is not reached.
    pub(super) fn unreached(&mut self, of: u16) -> u16 {
        let condition = self.condition();
        let number = self.random.pick(&TYPING);
        let base = self.base();
        let other = self.broken(number, base, Some(condition));
        self.form([CHOICE, condition, of, other])
    }

    /// A choice of the form and of the base, which may break a rule.
    pub(super) fn guarded(&mut self, of: u16) -> u16 {
        let condition = self.condition();
        let mut other = self.base();
        if self.random.chance(1, 2) {
            let number = self.random.pick(&TYPING);
            other = self.broken(number, other, None);
        }
        match self.random.chance(1, 2) {
            true => self.form([CHOICE, condition, of, other]),
            false => self.form([CHOICE, condition, other, of]),
        }
    }

    // Steps that break a rule

    /// A step that breaks the rule of the number where the condition holds, or at some
    /// permitted configurations; where there is no such step, one that breaks nothing.
    pub(super) fn broken(&mut self, number: u64, of: u16, at: Option<u16>) -> u16 {
        let step = match number {
            15 => self.absent(of, at),
            17 => self.projected(of, at),
            18 => self.shared(of, at),
            19 => self.unequal(of, at),
            _ => self.compared(number, of, at),
        };
        step.unwrap_or_else(|| self.harmless(of))
    }

    /// Some attributes, and a condition for each.
    fn entries(&mut self, mut of: Vec<u16>, at: Option<u16>) -> Option<Vec<Entry>> {
        self.random.shuffle(&mut of);
        of.truncate(self.random.pick(&[1, 1, 2, 3]));
        let entry = |attribute| [attribute, at.unwrap_or_else(|| self.condition())];
        let entries: Vec<Entry> = of.into_iter().map(entry).collect();
        (!entries.is_empty()).then_some(entries)
    }

    /// The attributes, and now and then those that depend on a feature.
    fn or_varying(&mut self, mut attributes: Vec<u16>) -> Vec<u16> {
        if self.random.chance(1, 3) {
            attributes.extend(self.varying.iter().map(|[attribute, _]| attribute));
        }
        attributes
    }

    pub(super) fn relation(&mut self, presence: u16, list: Vec<Entry>) -> Option<u16> {
        if self.relations.len() == MOST_RELATIONS {
            return None;
        }
        self.relations.push((presence, list));
        let number = self.relations.len() as u16 - 1;
        Some(self.form([RELATION, number, 0, 0]))
    }

    /// 15: a product with a relation that is absent there.
    fn absent(&mut self, of: u16, at: Option<u16>) -> Option<u16> {
        let presence = self.presence(at)?;
        let relation = self.relation(presence, vec![])?;
        Some(self.pair(PRODUCT, of, relation))
    }

    /// 16 and 25: a select by attributes that are missing, or of another kind.
    fn compared(&mut self, number: u64, of: u16, at: Option<u16>) -> Option<u16> {
        if self.tables.count(3) > MOST_COMPARISONS {
            return None;
        }
        let mut parts = Vec::new();
        if number == 16 || self.random.chance(1, 5) {
            let missing = self.or_varying(self.missing.clone());
            for [attribute, condition] in self.entries(missing, at).unwrap_or_default() {
                parts.push((condition, attribute, self.kind(attribute)));
            }
        }
        if number == 25 || self.random.chance(1, 2) {
            let there = self.or_varying(self.there.clone());
            for [attribute, condition] in self.entries(there, at).unwrap_or_default() {
                let kind = kinds::other(self.random, self.kind(attribute));
                parts.push((condition, attribute, kind));
            }
        }
        self.random.shuffle(&mut parts);
        let mut all = None;
        for (condition, attribute, kind) in parts {
            let part = self.compared_where(condition, attribute, kind);
            all = Some(match all {
                None => part,
                Some(all) => {
                    let joined = self.random.pick(&[5, 6]);
                    self.comparison([joined, 0, all, part, 0])
                }
            });
        }
        all.map(|comparison| self.form([SELECT, comparison, of, 0]))
    }

    /// The attribute with a constant of the kind where the condition holds.
    fn compared_where(&mut self, condition: u16, attribute: u16, kind: u16) -> u16 {
        let operator = self.random.below(6) as u16;
        let constant = self.random.word() as u16;
        let form = [WITH_CONSTANT, operator, attribute, constant, kind];
        let compared = self.comparison(form);
        if condition == self.always && self.random.chance(1, 2) {
            return compared;
        }
        let elsewhere = self.comparison(ALWAYS);
        self.comparison([COMPARISON_CHOICE, 0, condition, compared, elsewhere])
    }

    /// 17: a project of all columns and more.
    fn projected(&mut self, of: u16, at: Option<u16>) -> Option<u16> {
        if !self.has_room_for_lists() {
            return None;
        }
        let missing = self.or_varying(self.missing.clone());
        let mut list = self.entries(missing, at)?;
        list.extend(self.columns());
        self.random.shuffle(&mut list);
        Some(self.project(list, of))
    }

    /// 18: a product with columns of the base.
    fn shared(&mut self, of: u16, at: Option<u16>) -> Option<u16> {
        let there = self.or_varying(self.there.clone());
        let list = self.entries(there, at)?;
        let more = self.listed(list)?;
        Some(self.pair(PRODUCT, of, more))
    }

    /// 19: a union or an intersection with the base and more columns.
    fn unequal(&mut self, of: u16, at: Option<u16>) -> Option<u16> {
        let list = self.entries(self.missing.clone(), at)?;
        let more = self.listed(list)?;
        let base = self.base();
        let other = self.pair(PRODUCT, base, more);
        let kind = self.random.pick(&[UNION, INTERSECTION]);
        Some(self.pair(kind, of, other))
    }

    /// A relation with the list; where its entries hold at no permitted configuration, a
    /// project of nothing with them.
    fn listed(&mut self, list: Vec<Entry>) -> Option<u16> {
        let mut holding = list.clone();
        holding.retain(|&[_, expression]| self.holds_somewhere(expression));
        if !holding.is_empty() {
            return self.relation(self.always, holding);
        }
        if !self.has_room_for_lists() {
            return None;
        }
        let empty = self.form([EMPTY, 0, 0, 0]);
        Some(self.project(list, empty))
    }
}
