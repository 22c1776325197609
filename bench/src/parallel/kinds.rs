//! 25: comparisons whose sides differ in kind.

use reference::tables::{self, Tables, WITH_ATTRIBUTE, WITH_CONSTANT};
use reference::typing::Set;
use reference::Refusal;

use super::{Checker, Id, ALWAYS, FORMS, NEVER};

/// The left attribute of a comparison without operands, where its sides differ.
pub(super) fn clash(tables: &Tables, [kind, _, a, b, c]: [usize; 5]) -> Set {
    let of = |attribute: usize| tables.kinds[attribute];
    let differ = match kind as u16 {
        WITH_CONSTANT => usize::from(of(a)) != c,
        WITH_ATTRIBUTE => of(a) != of(b),
        _ => false,
    };
    Set::from(differ) << (a & 63)
}

impl Checker<'_> {
    /// 25: the lowest select in which kinds differ, where it is lower than the form of
    /// the other fault. (In the same form 16 comes first.)
    pub(super) fn kinds(&mut self, other: Option<&Refusal>) -> Result<(), Refusal> {
        // Most reports have no such comparison at all.
        if self.clashing.iter().fold(0, |any, set| any | set) == 0 {
            return Ok(());
        }
        let rows = self.clashing_rows();
        let top = other.map_or(self.tables.count(4), |fault| fault.place as usize);
        for form in 0..top {
            let [kind, comparison, ..] = self.tables.query(form);
            let here = self.reach[form];
            if kind != tables::SELECT || here == NEVER {
                continue;
            }
            let row = rows[usize::from(comparison)];
            if row == NEVER {
                continue;
            }
            if let Some(configuration) = self.first(here, row, NEVER, |x, _| x) {
                let items = self.clashing_at(configuration)[usize::from(comparison)];
                let item = u64::from(items.trailing_zeros());
                return Err(Refusal::new(25, form as u64, item, configuration));
            }
        }
        Ok(())
    }

    /// Where kinds differ in each comparison, its choices taken.
    fn clashing_rows(&mut self) -> [Id; FORMS] {
        let mut rows = [NEVER; FORMS];
        for form in 0..self.tables.count(3) {
            if self.clashing[form] == 0 {
                continue;
            }
            let [kind, _, a, b, c] = self.tables.comparison(form).map(usize::from);
            rows[form] = match kind {
                4 => rows[a],
                5 | 6 => self.either(rows[a], rows[b]),
                7 => self.mixed(self.known[a], rows[b], rows[c]),
                _ => ALWAYS,
            };
        }
        rows
    }

    /// The left attributes of two kinds in each comparison at a configuration.
    fn clashing_at(&self, configuration: u64) -> [Set; FORMS] {
        let mut sets = [0; FORMS];
        let (word, bit) = (configuration as usize / 64, configuration % 64);
        for form in 0..self.tables.count(3) {
            let comparison = self.tables.comparison(form).map(usize::from);
            let [kind, _, a, b, c] = comparison;
            sets[form] = match kind {
                4 => sets[a],
                5 | 6 => sets[a] | sets[b],
                7 => match self.row(self.known[a])[word] >> bit & 1 {
                    1 => sets[b],
                    _ => sets[c],
                },
                _ => clash(self.tables, comparison),
            };
        }
        sets
    }
}
