//! The checking call at all configurations at once: one bit a configuration.
//! The product is measured against this; it is written to be fast. Checks 1 to
//! 10 and 24 are the reference's.
//!
//! A row is known by its number. First come the expressions, so that the rows
//! of entries need no work; a row is made only where a choice, a product or a
//! joined comparison gives a new one. What is the same at all permitted
//! configurations is settled for all attributes at once, by sets; then each
//! attribute that is left goes up the forms that it matters to.

mod kinds;
mod rows;

use std::cell::Cell;
use std::ops::Range;

use reference::check::ROWS;
use reference::form::{self, Lists};
use reference::tables;
use reference::typing::Set;
use reference::{Refusal, Tables};

use rows::{Row, FORMS, WORDS};

/// The number of a row: below `FORMS` an expression's.
type Id = u16;

/// The rows of no configuration and of all permitted ones.
const NEVER: Id = 256;
const ALWAYS: Id = 257;

/// The attributes that something has at every permitted configuration that
/// matters, and those that it may have at one.
#[derive(Clone, Copy, Default)]
struct Bounds {
    must: Set,
    may: Set,
}

impl Bounds {
    const fn of(set: Set) -> Bounds {
        Bounds {
            must: set,
            may: set,
        }
    }

    fn varies(self) -> Set {
        self.may & !self.must
    }

    fn both(self, other: Bounds) -> Bounds {
        Bounds {
            must: self.must | other.must,
            may: self.may | other.may,
        }
    }

    fn either(self, other: Bounds) -> Bounds {
        Bounds {
            must: self.must & other.must,
            may: self.may | other.may,
        }
    }
}

thread_local! {
    /// Room for rows, kept from call to call.
    static ROOM: Cell<Vec<Row>> = const { Cell::new(Vec::new()) };
}

/// Checks the tables and writes the column rows, as `reference::check` does.
pub fn check(tables: &Tables, rows: &mut [u64]) -> Result<(), Refusal> {
    let lists = form::check(tables)?;
    if rows.len() != ROWS {
        return Err(Refusal::at(11, 0));
    }
    let mut room = ROOM.take();
    let answer = schema_and_typing(tables, &lists, &mut room, rows);
    ROOM.set(room);
    answer
}

/// Checks 12 to 19 and 25, on tables sound in form.
fn schema_and_typing(
    tables: &Tables,
    lists: &Lists,
    room: &mut Vec<Row>,
    rows: &mut [u64],
) -> Result<(), Refusal> {
    let mut checker = Checker::new(tables, room)?;
    checker.schema(lists)?;
    checker.reaches();
    checker.named();
    checker.bounds(lists);
    checker.demands();
    let columns = checker.attributes(lists);
    checker.kinds(columns.as_ref().err())?;
    checker.write(&columns?, rows);
    Ok(())
}

/// A broken rule, with the form and the configuration.
#[derive(Clone, Copy)]
struct Fault {
    form: usize,
    configuration: u64,
    item: u64,
}

struct Checker<'a> {
    tables: &'a Tables,
    rows: &'a mut Vec<Row>,
    /// The row of each expression, `NEVER` and `ALWAYS` where it is so at the
    /// permitted configurations.
    known: [Id; FORMS],
    /// Of each list that varies the rows of those attributes, ascending, from
    /// the list's start.
    varying: Vec<Id>,
    relations: [Bounds; 32],
    comparisons: [Bounds; FORMS],
    /// The left attributes of two kinds that each comparison may have.
    clashing: [Set; FORMS],
    queries: [Bounds; FORMS],
    /// The bounds of a project's list.
    projected: [Bounds; FORMS],
    reach: [Id; FORMS],
    /// The forms below this are looked at; above, a lower form surely fails.
    top: usize,
    absent: Option<Fault>,
    /// Attributes by which a form may fail.
    doubtful: [Set; FORMS],
    /// Attributes whose rows are asked of a form.
    asked: [Set; FORMS],
    asked_comparisons: [Set; FORMS],
}

impl<'a> Checker<'a> {
    /// Makes the rows of the expressions; 12: no configuration permitted.
    #[inline(always)]
    fn new(tables: &'a Tables, rows: &'a mut Vec<Row>) -> Result<Checker<'a>, Refusal> {
        rows.resize(FORMS, [0; WORDS]);
        if let Ok(expressions) = rows.as_mut_slice().try_into() {
            rows::fill(tables.features, &tables.expressions, expressions);
        }
        rows.push([0; WORDS]);
        rows.push([u64::MAX; WORDS]);
        let permitted = rows[tables.model as usize];
        if permitted == [0; WORDS] {
            return Err(Refusal::at(12, 0));
        }
        let mut known = [NEVER; FORMS];
        for form in 0..tables.count(0) {
            let (mut here, mut lacking) = (0, 0);
            for (row, permitted) in rows[form].iter().zip(&permitted) {
                here |= row & permitted;
                lacking |= !row & permitted;
            }
            known[form] = match (here, lacking) {
                (0, _) => NEVER,
                (_, 0) => ALWAYS,
                _ => form as Id,
            };
        }
        Ok(Checker {
            tables,
            rows,
            known,
            varying: vec![NEVER; tables.count(1)],
            relations: [Bounds::of(0); 32],
            comparisons: [Bounds::of(0); FORMS],
            clashing: [0; FORMS],
            queries: [Bounds::of(0); FORMS],
            projected: [Bounds::of(0); FORMS],
            reach: [NEVER; FORMS],
            top: tables.count(4),
            absent: None,
            doubtful: [0; FORMS],
            asked: [0; FORMS],
            asked_comparisons: [0; FORMS],
        })
    }

    fn row(&self, id: Id) -> &Row {
        &self.rows[usize::from(id)]
    }

    fn make(&mut self, row: Row) -> Id {
        self.rows.push(row);
        (self.rows.len() - 1) as Id
    }

    /// 13 and 14, relation by relation.
    fn schema(&mut self, lists: &Lists) -> Result<(), Refusal> {
        let model = self.tables.model as Id;
        for (number, list) in lists.relations.iter().enumerate() {
            let presence = self.known[usize::from(self.tables.relation(number)[0])];
            if presence == NEVER {
                return Err(Refusal::at(13, number));
            }
            for entry in list.clone() {
                let [attribute, expression] = self.tables.entry(entry);
                let holds = self.known[usize::from(expression)];
                let surely = presence == ALWAYS || holds == ALWAYS || presence == holds;
                if holds == NEVER || !surely && self.never_meet(model, presence, holds) {
                    let item = u64::from(attribute);
                    return Err(Refusal::new(14, number as u64, item, 0));
                }
            }
            self.relations[number] = self.list(list);
        }
        Ok(())
    }

    fn never_meet(&self, x: Id, y: Id, z: Id) -> bool {
        let (x, y, z) = (self.row(x), self.row(y), self.row(z));
        (0..WORDS).fold(0, |any, word| any | x[word] & y[word] & z[word]) == 0
    }

    /// The bounds of a list; notes the rows of what varies in it.
    fn list(&mut self, list: &Range<usize>) -> Bounds {
        let mut bounds = Bounds::default();
        let tables = self.tables;
        let entries = &tables.entries[2 * list.start..2 * list.end];
        for entry in entries.chunks_exact(2) {
            let bit = 1 << (entry[0] & 63);
            let holds = self.known[usize::from(entry[1]) & 255];
            bounds.may |= if holds == NEVER { 0 } else { bit };
            bounds.must |= if holds == ALWAYS { bit } else { 0 };
        }
        let varies = bounds.varies();
        if varies != 0 {
            for entry in entries.chunks_exact(2) {
                if varies >> (entry[0] & 63) & 1 == 1 {
                    let place = list.start + rank(varies, u32::from(entry[0]));
                    // An attribute is there when any of its entries holds.
                    let holds = self.known[usize::from(entry[1]) & 255];
                    self.varying[place] = self.either(self.varying[place], holds);
                }
            }
        }
        bounds
    }

    /// Where each form is reached, downwards. Each form is an operand once.
    fn reaches(&mut self) {
        let count = self.tables.count(4);
        self.reach[count - 1] = self.tables.model as Id;
        for form in (0..count).rev() {
            let here = self.reach[form];
            if here == NEVER {
                continue;
            }
            let query = self.tables.query(form);
            let [_, a, b, c] = query.map(|word| usize::from(word) & 255);
            match query[0] {
                tables::SELECT | tables::PROJECT => self.reach[b] = here,
                tables::CHOICE => {
                    let parts = self.parts(here, self.known[a]);
                    [self.reach[b], self.reach[c]] = parts;
                }
                tables::PRODUCT | tables::UNION | tables::INTERSECTION => {
                    self.reach[a] = here;
                    self.reach[b] = here;
                }
                _ => {}
            }
        }
    }

    /// A row where a condition holds, and elsewhere.
    fn parts(&mut self, here: Id, condition: Id) -> [Id; 2] {
        match condition {
            ALWAYS => [here, NEVER],
            NEVER => [NEVER, here],
            _ => {
                let (x, y) = (self.row(here), self.row(condition));
                let yes: Row = std::array::from_fn(|word| x[word] & y[word]);
                let no: Row = std::array::from_fn(|word| x[word] & !y[word]);
                match (yes == [0; WORDS], no == [0; WORDS]) {
                    (true, _) => [NEVER, here],
                    (_, true) => [here, NEVER],
                    _ => [self.make(yes), self.make(no)],
                }
            }
        }
    }

    /// The bounds of what each comparison names, and of where its kinds differ.
    fn named(&mut self) {
        for form in 0..self.tables.count(3) {
            let comparison = self.tables.comparison(form).map(usize::from);
            let [kind, _, a, b, c] = comparison;
            let of = |form: usize| self.clashing[form & 255];
            self.clashing[form] = match kind {
                0..=3 => kinds::clash(self.tables, comparison),
                4 => of(a),
                5 | 6 => of(a) | of(b),
                _ => match self.known[a & 255] {
                    ALWAYS => of(b),
                    NEVER => of(c),
                    _ => of(b) | of(c),
                },
            };
            let of = |form: usize| self.comparisons[form & 255];
            self.comparisons[form] = match kind {
                0 | 1 => Bounds::of(0),
                2 => Bounds::of(1 << (a & 63)),
                3 => Bounds::of(1 << (a & 63) | 1 << (b & 63)),
                4 => of(a),
                5 | 6 => of(a).both(of(b)),
                _ => match self.known[a & 255] {
                    ALWAYS => of(b),
                    NEVER => of(c),
                    _ => of(b).either(of(c)),
                },
            };
        }
    }

    /// 15, and the bounds of each form, upwards as far as no form surely fails.
    /// The bounds of a form are right where no form below it fails.
    fn bounds(&mut self, lists: &Lists) {
        for form in 0..self.top {
            let here = self.reach[form];
            if here == NEVER {
                continue;
            }
            let query = self.tables.query(form);
            let [_, a, b, c] = query.map(|word| usize::from(word) & 255);
            let of = |form: usize| self.queries[form];
            // The bounds, by what it may fail, and by what it surely fails.
            let (bounds, doubtful, surely) = match query[0] {
                tables::EMPTY => (Bounds::of(0), 0, 0),
                tables::RELATION => {
                    let presence = self.known[usize::from(self.tables.relation(a)[0])];
                    if let Some(configuration) = self.first_missing(here, ALWAYS, presence) {
                        self.absent = Some(Fault {
                            form,
                            configuration,
                            item: a as u64,
                        });
                        self.top = form;
                        return;
                    }
                    (self.relations[a & 31], 0, 0)
                }
                tables::SELECT => {
                    let (named, set) = (self.comparisons[a], of(b));
                    (set, named.may & !set.must, named.must & !set.may)
                }
                tables::PROJECT => {
                    let set = of(b);
                    let list = self.list(&lists.queries[form]);
                    self.projected[form] = list;
                    (list, list.may & !set.must, list.must & !set.may)
                }
                tables::CHOICE => match (self.reach[b], self.reach[c]) {
                    (_, NEVER) => (of(b), 0, 0),
                    (NEVER, _) => (of(c), 0, 0),
                    _ => (of(b).either(of(c)), 0, 0),
                },
                tables::PRODUCT => {
                    let (x, y) = (of(a), of(b));
                    (x.both(y), x.may & y.may, x.must & y.must)
                }
                _ => {
                    let (x, y) = (of(a), of(b));
                    let set = Bounds {
                        must: x.must | y.must,
                        may: x.may & y.may,
                    };
                    let doubtful = (x.may | y.may) & !(x.must & y.must);
                    (set, doubtful, x.must & !y.may | y.must & !x.may)
                }
            };
            self.queries[form] = bounds;
            self.doubtful[form] = doubtful;
            if surely != 0 {
                self.top = form + 1;
                return;
            }
        }
    }

    /// Which rows are asked of each form and comparison, downwards.
    fn demands(&mut self) {
        let count = self.tables.count(4);
        let asked = &mut self.asked;
        if self.top == count {
            asked[count - 1] = self.queries[count - 1].varies();
        }
        for form in (0..self.top).rev() {
            let (own, doubtful) = (asked[form], self.doubtful[form]);
            if own | doubtful == 0 {
                continue;
            }
            let query = self.tables.query(form);
            let [_, a, b, c] = query.map(|word| usize::from(word) & 255);
            let of = |form: usize, set: Set| set & self.queries[form].varies();
            match query[0] {
                tables::SELECT => {
                    asked[b] = of(b, own | doubtful);
                    self.asked_comparisons[a] |= doubtful & self.comparisons[a].varies();
                }
                tables::PROJECT => asked[b] = of(b, doubtful),
                tables::CHOICE => {
                    asked[b] = of(b, own);
                    asked[c] = of(c, own);
                }
                tables::PRODUCT => {
                    asked[a] = of(a, own | doubtful);
                    asked[b] = of(b, own | doubtful);
                }
                tables::UNION | tables::INTERSECTION => {
                    asked[a] = of(a, own | doubtful);
                    asked[b] = of(b, doubtful);
                }
                _ => {}
            }
        }
        for form in (0..self.tables.count(3)).rev() {
            let own = self.asked_comparisons[form];
            if own == 0 {
                continue;
            }
            let [kind, _, a, b, c] = self.tables.comparison(form).map(usize::from);
            let operands: &[usize] = match kind {
                4 => &[a],
                5 | 6 => &[a, b],
                7 => &[b, c],
                _ => &[],
            };
            for &operand in operands {
                self.asked_comparisons[operand] |= own & self.comparisons[operand].varies();
            }
        }
    }

    /// 16 to 19, attribute by attribute; else the rows of the report's
    /// attributes that vary.
    fn attributes(&mut self, lists: &Lists) -> Result<[Id; 64], Refusal> {
        let mut matters = self.asked;
        let mut attributes = 0;
        for (set, doubtful) in matters.iter_mut().zip(&self.doubtful).take(self.top) {
            *set |= doubtful;
            attributes |= *set;
        }
        let mut columns = [NEVER; 64];
        let mut fault: Option<Fault> = None;
        if attributes != 0 {
            let comparisons = turned(&self.asked_comparisons);
            let forms = turned(&matters);
            let mut kept = self.rows.len();
            let last = self.tables.count(4) - 1;
            let mut names = [NEVER; FORMS];
            let mut sets = [NEVER; FORMS];
            for attribute in ones(attributes) {
                let of_attribute = |forms: &[[u64; 64]; 4]| {
                    std::array::from_fn(|block| forms[block][attribute as usize & 63])
                };
                self.names(attribute, of_attribute(&comparisons), &mut names);
                let of_forms = of_attribute(&forms);
                let bound = fault.map_or(self.top, |fault| fault.form + 1);
                let found = self.sets(lists, attribute, of_forms, bound, &names, &mut sets);
                if let Some(found) = found {
                    let before = |old: Fault| {
                        (found.form, found.configuration) < (old.form, old.configuration)
                    };
                    if fault.is_none_or(before) {
                        fault = Some(found);
                    }
                }
                // A row made for the report stays; others give way.
                let mut column = sets[last];
                if usize::from(column) >= kept {
                    self.rows.swap(kept, usize::from(column));
                    column = kept as Id;
                    kept += 1;
                }
                self.rows.truncate(kept);
                columns[attribute as usize & 63] = column;
                sets[last] = NEVER;
            }
        }
        match fault.or(self.absent) {
            None => Ok(columns),
            Some(fault) => {
                let number = match self.tables.query(fault.form)[0] {
                    tables::RELATION => 15,
                    tables::SELECT => 16,
                    tables::PROJECT => 17,
                    tables::PRODUCT => 18,
                    _ => 19,
                };
                let place = fault.form as u64;
                Err(Refusal::new(number, place, fault.item, fault.configuration))
            }
        }
    }

    /// Where the comparisons asked for name an attribute.
    fn names(&mut self, attribute: u32, asked: [u64; 4], names: &mut [Id; FORMS]) {
        for (block, bits) in asked.into_iter().enumerate() {
            for bit in ones(bits) {
                let form = 64 * block + bit as usize;
                let [kind, _, a, b, c] = self.tables.comparison(form).map(usize::from);
                let comparisons = &self.comparisons;
                let of =
                    |form: usize| constant(comparisons[form & 255], attribute, &names[form & 255]);
                names[form & 255] = match kind {
                    4 => of(a),
                    5 | 6 => {
                        let (x, y) = (of(a), of(b));
                        self.either(x, y)
                    }
                    _ => {
                        let (x, y) = (of(b), of(c));
                        self.mixed(self.known[a & 255], x, y)
                    }
                };
            }
        }
    }

    /// The rows of an attribute in the forms that it matters to, up to the
    /// lowest that fails by it.
    fn sets(
        &mut self,
        lists: &Lists,
        attribute: u32,
        matters: [u64; 4],
        bound: usize,
        names: &[Id; FORMS],
        sets: &mut [Id; FORMS],
    ) -> Option<Fault> {
        for (block, bits) in matters.into_iter().enumerate() {
            for bit in ones(bits) {
                let form = (64 * block + bit as usize) & 255;
                if form >= bound {
                    return None;
                }
                let query = self.tables.query(form);
                let [_, a, b, c] = query.map(|word| usize::from(word) & 255);
                let here = self.reach[form];
                let queries = &self.queries;
                let of = |form: usize| constant(queries[form], attribute, &sets[form]);
                let is = |sets: &[Set; FORMS]| sets[form] >> attribute & 1 == 1;
                if is(&self.doubtful) {
                    let first = match query[0] {
                        tables::SELECT => {
                            let name = constant(self.comparisons[a], attribute, &names[a]);
                            self.first_missing(here, name, of(b))
                        }
                        tables::PROJECT => {
                            let listed = self.projected[form];
                            let listed = self.listed(listed, &lists.queries[form], attribute);
                            self.first_missing(here, listed, of(b))
                        }
                        tables::PRODUCT => self.first(here, of(a), of(b), |x, y| x & y),
                        _ if of(a) == of(b) => None,
                        _ => self.first(here, of(a), of(b), |x, y| x ^ y),
                    };
                    if let Some(configuration) = first {
                        return Some(Fault {
                            form,
                            configuration,
                            item: u64::from(attribute),
                        });
                    }
                }
                if is(&self.asked) {
                    sets[form] = match query[0] {
                        tables::RELATION => {
                            self.listed(self.relations[a & 31], &lists.relations[a], attribute)
                        }
                        tables::SELECT => of(b),
                        tables::PROJECT => {
                            let listed = self.projected[form];
                            self.listed(listed, &lists.queries[form], attribute)
                        }
                        tables::CHOICE => match (self.reach[b], self.reach[c]) {
                            (_, NEVER) => of(b),
                            (NEVER, _) => of(c),
                            _ => {
                                let (x, y) = (of(b), of(c));
                                self.mixed(self.known[a], x, y)
                            }
                        },
                        tables::PRODUCT => {
                            let (x, y) = (of(a), of(b));
                            self.either(x, y)
                        }
                        _ => of(a),
                    };
                }
            }
        }
        None
    }

    /// The row of a list's attribute.
    fn listed(&self, bounds: Bounds, list: &Range<usize>, attribute: u32) -> Id {
        let varies = bounds.varies();
        match varies >> attribute & 1 {
            1 => self.varying[list.start + rank(varies, attribute)],
            _ => constant(bounds, attribute, &NEVER),
        }
    }

    fn either(&mut self, x: Id, y: Id) -> Id {
        if x == y || y == NEVER || x == ALWAYS {
            return x;
        }
        if x == NEVER || y == ALWAYS {
            return y;
        }
        let (x, y) = (self.row(x), self.row(y));
        self.make(std::array::from_fn(|word| x[word] | y[word]))
    }

    /// One row where the condition holds, the other elsewhere.
    fn mixed(&mut self, condition: Id, x: Id, y: Id) -> Id {
        if x == y || condition == ALWAYS {
            return x;
        }
        if condition == NEVER {
            return y;
        }
        if x == ALWAYS && y == NEVER {
            return condition;
        }
        let (condition, x, y) = (self.row(condition), self.row(x), self.row(y));
        self.make(std::array::from_fn(|word| {
            y[word] ^ condition[word] & (x[word] ^ y[word])
        }))
    }

    /// The lowest configuration of a row that is in x and not in y.
    #[inline(always)]
    fn first_missing(&self, here: Id, x: Id, y: Id) -> Option<u64> {
        if x == y || y == ALWAYS {
            return None;
        }
        self.first(here, x, y, |x, y| x & !y)
    }

    /// The lowest configuration of a row at which two others are at fault.
    #[inline(always)]
    fn first(&self, here: Id, x: Id, y: Id, fault: impl Fn(u64, u64) -> u64) -> Option<u64> {
        let (here, x, y) = (self.row(here), self.row(x), self.row(y));
        let row: Row = std::array::from_fn(|word| here[word] & fault(x[word], y[word]));
        if row.iter().fold(0, |any, word| any | word) == 0 {
            return None;
        }
        let word = row.iter().position(|&word| word != 0)?;
        Some(64 * word as u64 + u64::from(row[word].trailing_zeros()))
    }

    /// The column rows of an accepted report.
    fn write(&self, columns: &[Id; 64], rows: &mut [u64]) {
        let bounds = self.queries[self.tables.count(4) - 1];
        let permitted = self.row(self.tables.model as Id);
        for (attribute, words) in rows.chunks_exact_mut(WORDS).enumerate() {
            let attribute = attribute as u32 & 63;
            let id = constant(bounds, attribute, &columns[attribute as usize]);
            let row = self.row(id);
            for (word, to) in words.iter_mut().enumerate() {
                *to = permitted[word] & row[word];
            }
        }
    }
}

/// The row of an attribute: that given where its bounds leave it open.
#[inline(always)]
fn constant(bounds: Bounds, attribute: u32, varying: &Id) -> Id {
    if bounds.must >> attribute & 1 == 1 {
        ALWAYS
    } else if bounds.may >> attribute & 1 == 0 {
        NEVER
    } else {
        *varying
    }
}

/// How many of the set are below an attribute.
fn rank(set: Set, attribute: u32) -> usize {
    (set & ((1 << (attribute & 63)) - 1)).count_ones() as usize
}

/// The numbers of the bits that are 1, ascending.
fn ones(mut bits: u64) -> impl Iterator<Item = u32> {
    std::iter::from_fn(move || {
        let lowest = (bits != 0).then(|| bits.trailing_zeros());
        bits &= bits.wrapping_sub(1);
        lowest
    })
}

/// Sets by form as forms by attribute, in four blocks of 64 forms.
fn turned(sets: &[Set; FORMS]) -> [[u64; 64]; 4] {
    let mut blocks = [[0; 64]; 4];
    for (block, sets) in blocks.iter_mut().zip(sets.chunks_exact(64)) {
        block.copy_from_slice(sets);
        if block.iter().fold(0, |any, set| any | set) == 0 {
            continue;
        }
        let (mut width, mut mask) = (32, u64::from(u32::MAX));
        while width != 0 {
            let mut low = 0;
            while low < 64 {
                let moved = (block[low] >> width ^ block[low + width]) & mask;
                block[low] ^= moved << width;
                block[low + width] ^= moved;
                low = (low + width + 1) & !width;
            }
            width >>= 1;
            mask ^= mask << width;
        }
    }
    blocks
}
