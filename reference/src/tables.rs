//! The head, the five tables of docs/FORMAT.md, "Tables", and the kind table.

/// Number of words of one form, by table.
pub const WIDTHS: [usize; 5] = [3, 2, 2, 5, 4];

/// Lowest and highest number of forms, by table.
pub const RANGES: [(usize, usize); 5] = [(1, 256), (0, 512), (0, 32), (0, 256), (1, 256)];

/// "At most 10 features and 64 attributes".
pub const MOST_FEATURES: u64 = 10;
pub const MOST_ATTRIBUTES: u64 = 64;

/// The kind of table 0 that holds when exactly one of a range of features is on:
/// a is the first of them, b how many.
pub const EXACTLY_ONE: u16 = 6;

/// A range has "1 to 10" features.
pub const MOST_IN_RANGE: u16 = 10;

/// Kinds of table 4 that the code names.
pub const EMPTY: u16 = 0;
pub const RELATION: u16 = 1;
pub const SELECT: u16 = 2;
pub const PROJECT: u16 = 3;
pub const CHOICE: u16 = 4;
pub const PRODUCT: u16 = 5;
pub const UNION: u16 = 6;
pub const INTERSECTION: u16 = 7;

/// Kinds of table 3 that the code names. Those of one attribute with a constant and of
/// two attributes have kinds on both sides.
pub const WITH_CONSTANT: u16 = 2;
pub const WITH_ATTRIBUTE: u16 = 3;
pub const COMPARISON_CHOICE: u16 = 7;

/// Kinds of attributes and of constants.
pub const MOMENT: u16 = 0;
pub const COUNT: u16 = 1;
pub const NAME: u16 = 2;

/// The head (three numbers), the words of tables 0 to 4, and the kind table. The
/// words may be anything: also of a length that is no multiple of a form.
#[derive(Clone, Debug, Default, PartialEq, Eq, Hash)]
pub struct Tables {
    pub features: u64,
    pub attributes: u64,
    pub model: u64,
    pub expressions: Vec<u16>,
    pub entries: Vec<u16>,
    pub relations: Vec<u16>,
    pub comparisons: Vec<u16>,
    pub queries: Vec<u16>,
    /// The kind of each attribute.
    pub kinds: Vec<u16>,
}

impl Tables {
    /// The words of a table, by its number.
    pub fn words(&self, table: usize) -> &[u16] {
        match table {
            0 => &self.expressions,
            1 => &self.entries,
            2 => &self.relations,
            3 => &self.comparisons,
            4 => &self.queries,
            _ => panic!("there are tables 0 to 4 only"),
        }
    }

    /// The words of a table, to be changed.
    pub fn words_mut(&mut self, table: usize) -> &mut Vec<u16> {
        match table {
            0 => &mut self.expressions,
            1 => &mut self.entries,
            2 => &mut self.relations,
            3 => &mut self.comparisons,
            4 => &mut self.queries,
            _ => panic!("there are tables 0 to 4 only"),
        }
    }

    /// Number of whole forms in a table.
    pub fn count(&self, table: usize) -> usize {
        self.words(table).len() / WIDTHS[table]
    }

    /// Expression: kind, a, b.
    pub fn expression(&self, number: usize) -> [u16; 3] {
        form(&self.expressions, number)
    }

    /// Entry: attribute, expression.
    pub fn entry(&self, number: usize) -> [u16; 2] {
        form(&self.entries, number)
    }

    /// Relation: expression, number of entries.
    pub fn relation(&self, number: usize) -> [u16; 2] {
        form(&self.relations, number)
    }

    /// Comparison: kind, operator, a, b, c.
    pub fn comparison(&self, number: usize) -> [u16; 5] {
        form(&self.comparisons, number)
    }

    /// Query: kind, a, b, c.
    pub fn query(&self, number: usize) -> [u16; 4] {
        form(&self.queries, number)
    }

    /// Adds an expression, and gives its number.
    pub fn add_expression(&mut self, form: [u16; 3]) -> u16 {
        self.expressions.extend(form);
        self.count(0) as u16 - 1
    }

    /// The same with all attributes moments.
    pub fn of_moments(self) -> Tables {
        let kinds = moments(self.attributes);
        Tables { kinds, ..self }
    }

    /// Number of configurations: "they run from 0 to 2^n - 1". To be asked
    /// only when check 1 has passed.
    pub fn configurations(&self) -> u64 {
        1 << self.features
    }
}

/// A kind table of moments. Where there are more attributes than there may be, 1 comes
/// first, and 64 words are enough.
pub fn moments(attributes: u64) -> Vec<u16> {
    vec![MOMENT; attributes.min(MOST_ATTRIBUTES) as usize]
}

/// One form out of a table's words.
fn form<const WIDTH: usize>(words: &[u16], number: usize) -> [u16; WIDTH] {
    let start = number * WIDTH;
    let mut form = [0; WIDTH];
    form.copy_from_slice(&words[start..start + WIDTH]);
    form
}

/// The query forms that a query form has as its operands, in the order of its
/// words. An unknown kind has none.
pub fn operands(query: [u16; 4]) -> Vec<usize> {
    let [kind, a, b, c] = query.map(usize::from);
    match kind as u16 {
        SELECT | PROJECT => vec![b],
        CHOICE => vec![b, c],
        PRODUCT | UNION | INTERSECTION => vec![a, b],
        _ => vec![],
    }
}
