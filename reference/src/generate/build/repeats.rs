//! Repeats: more entries of an attribute that a list has already.

use super::{Builder, Entry};

impl Builder<'_> {
    /// How many repeats a list gets, of the entries that there is room for: none
    /// in half of the lists, now and then many.
    pub(super) fn repeats(&mut self, room: usize) -> usize {
        if room == 0 || self.random.chance(1, 2) {
            return 0;
        }
        self.random.pick(&[1, 1, 1, 2, 2, 3, 6, 24]).min(room)
    }

    /// Puts repeats into a list, each at a random place, so that the order of the
    /// attributes may change with the configuration. `reason` gives the
    /// expression of a repeat of an entry, if it finds one.
    pub(super) fn repeat(
        &mut self,
        list: &mut Vec<Entry>,
        times: usize,
        mut reason: impl FnMut(&mut Self, Entry) -> Option<u16>,
    ) {
        let mut last = None;
        for _ in 0..times {
            if list.is_empty() {
                return;
            }
            // Now and then the same attribute again: three times or more.
            let entry = match last {
                Some(entry) if self.random.chance(1, 3) => entry,
                _ => self.random.pick(list),
            };
            if let Some(expression) = reason(self, entry) {
                let place = self.random.below(list.len() + 1);
                list.insert(place, (entry.0, expression));
                last = Some(entry);
            }
        }
    }

    /// The reason of a repeat that holds together with the relation somewhere.
    pub(super) fn reason_with(&mut self, relation: u16, (_, expression): Entry) -> Option<u16> {
        for _ in 0..4 {
            let other = self.other_reason(expression);
            if self.together(relation, other) {
                return Some(other);
            }
        }
        None
    }

    /// The reason of a repeat in a project over the query: where reached it
    /// holds only where the query has the attribute.
    pub(super) fn reason_over(
        &mut self,
        reach: &[usize],
        of: usize,
        (attribute, expression): Entry,
    ) -> Option<u16> {
        if self.random.chance(1, 3) {
            return self.fitting_expression(reach, of, attribute);
        }
        for _ in 0..4 {
            let other = self.other_reason(expression);
            if self.fits(reach, of, (attribute, other)) {
                return Some(other);
            }
        }
        None
    }

    /// Another list with the same set everywhere: repeats that hold only where
    /// their attribute is there already, and without an entry that the others
    /// make up for.
    pub(super) fn same_set(&mut self, list: &mut Vec<Entry>, room: usize) {
        let sets = self.joined(list);
        let times = self.repeats(room);
        self.repeat(list, times, |builder, (attribute, expression)| {
            let other = builder.other_reason(expression);
            let there = |c: usize| !builder.holds(other, c) || sets[c] >> attribute & 1 == 1;
            (0..builder.configurations()).all(there).then_some(other)
        });
        for _ in 0..times.min(list.len()) {
            let mut fewer = list.clone();
            fewer.remove(self.random.below(list.len()));
            if self.joined(&fewer) == sets {
                *list = fewer;
            }
        }
    }

    /// A list of entries that nothing reaches: any attributes, for any reasons.
    pub(super) fn unreached_list(&mut self, length: usize) -> Vec<Entry> {
        let attributes = self.random.between(1, self.size.attributes);
        let entry = |_| {
            let attribute = self.random.below(attributes) as u16;
            (attribute, self.some_expression())
        };
        (0..length).map(entry).collect()
    }

    /// An expression for an attribute that is listed under the given one:
    /// the same, its complement, one that holds nowhere, or any.
    fn other_reason(&mut self, expression: u16) -> u16 {
        match self.random.below(8) {
            0 => expression,
            1..=3 => self.complement(expression),
            4 => self.nowhere(),
            _ => self.some_expression(),
        }
    }

    /// An expression that holds, of the permitted configurations, exactly where
    /// the given one does not; any where there is none and no room for one.
    fn complement(&mut self, of: u16) -> u16 {
        let opposite = |&e: &u16| {
            let mut permitted = self.permitted.iter();
            permitted.all(|&c| self.holds(e, c) != self.holds(of, c))
        };
        let known = self.numbers().find(opposite);
        known.unwrap_or_else(|| self.new_or_any([3, of, 0]))
    }

    /// An expression that holds at no permitted configuration; any where there
    /// is none and no room for one.
    fn nowhere(&mut self) -> u16 {
        let never = |&e: &u16| !self.permitted.iter().any(|&c| self.holds(e, c));
        let known = self.numbers().find(never);
        known.unwrap_or_else(|| self.new_or_any([0, 0, 0]))
    }

    /// The numbers of all expressions.
    fn numbers(&self) -> std::ops::Range<u16> {
        0..self.expressions.len() as u16
    }

    fn new_or_any(&mut self, form: [u16; 3]) -> u16 {
        match self.expressions.len() < self.size.expressions {
            true => self.add_expression(form),
            false => self.some_expression(),
        }
    }

    /// Do the expressions hold together at some permitted configuration?
    pub(super) fn together(&self, one: u16, other: u16) -> bool {
        let both = |&c: &usize| self.holds(one, c) && self.holds(other, c);
        self.permitted.iter().any(both)
    }

    /// Does an entry of a project over the query keep the rule where reached?
    pub(super) fn fits(&self, reach: &[usize], of: usize, (attribute, e): Entry) -> bool {
        let sets = &self.nodes[of].sets;
        let kept = |&c: &usize| !self.holds(e, c) || sets[c] >> attribute & 1 == 1;
        reach.iter().all(kept)
    }
}
