//! The numbers that stand in the words of tables, named as in
//! ../../include/gelvomas.h.

/// Kinds of expressions: word 0 of a form of table 0.
pub mod expression {
    pub const FALSE: u16 = 0;
    pub const TRUE: u16 = 1;
    /// Feature a.
    pub const FEATURE: u16 = 2;
    /// Not expression a.
    pub const NOT: u16 = 3;
    /// Expressions a and b.
    pub const AND: u16 = 4;
    /// Expression a or b.
    pub const OR: u16 = 5;
    /// Exactly one of the b features from feature a on is on. b is 1 to 10, and a + b
    /// at most the number of features.
    ///
    /// ```
    /// use gelvomas::{expression, query, Reading, Tables};
    ///
    /// // The model: a quay is tidal (feature 0), locked (1) or floating (2), never two.
    /// let quay = Tables {
    ///     features: 3,
    ///     model: 0,
    ///     expressions: &[expression::EXACTLY_ONE, 0, 3],
    ///     queries: &[query::EMPTY, 0, 0, 0],
    ///     ..Tables::default()
    /// };
    /// let mut bytes = [0; gelvomas::MAX_PAGE];
    /// let lines = gelvomas::page(&quay, Reading::Strict, &mut bytes);
    /// assert_eq!(lines, Ok(3)); // of configurations 1, 2 and 4
    /// ```
    pub const EXACTLY_ONE: u16 = 6;
}

/// Kinds of comparisons: word 0 of a form of table 3.
pub mod comparison {
    pub const NEVER: u16 = 0;
    pub const ALWAYS: u16 = 1;
    /// Attribute a with constant b, whose [`kind`](super::kind) is c.
    pub const CONSTANT: u16 = 2;
    /// Attribute a with attribute b.
    pub const ATTRIBUTE: u16 = 3;
    /// Not comparison a.
    pub const NOT: u16 = 4;
    /// Comparisons a and b.
    pub const AND: u16 = 5;
    /// Comparison a or b.
    pub const OR: u16 = 6;
    /// Comparison b where expression a holds, c elsewhere.
    pub const CHOICE: u16 = 7;
}

/// Kinds of attributes, one for each in the kind table, and of constants: word c of
/// [`comparison::CONSTANT`]. What is compared has one kind on both sides.
///
/// ```
/// use gelvomas::{comparison, expression, kind, operator, query, Reading, Refusal, Tables, ROWS};
///
/// // An arrival (attribute 0) at or before a number of passengers (attribute 1).
/// let arrivals = Tables {
///     attributes: 2,
///     expressions: &[expression::TRUE, 0, 0],
///     entries: &[0, 0, 1, 0],
///     relations: &[0, 2],
///     comparisons: &[comparison::ATTRIBUTE, operator::LESS_OR_EQUAL, 0, 1, 0],
///     queries: &[query::RELATION, 0, 0, 0, query::SELECT, 0, 0, 0],
///     kinds: &[kind::MOMENT, kind::COUNT],
///     ..Tables::default()
/// };
/// let refusal = gelvomas::check(&arrivals, Reading::Strict, &mut [0; ROWS]).unwrap_err();
/// assert_eq!(refusal.number, Refusal::KINDS_DIFFER);
/// ```
pub mod kind {
    pub const MOMENT: u16 = 0;
    pub const COUNT: u16 = 1;
    pub const NAME: u16 = 2;
}

/// Operators of comparisons with a constant or an attribute: word 1 of a form of
/// table 3, which is 0 in other kinds.
pub mod operator {
    pub const LESS: u16 = 0;
    pub const LESS_OR_EQUAL: u16 = 1;
    pub const EQUAL: u16 = 2;
    pub const NOT_EQUAL: u16 = 3;
    pub const GREATER: u16 = 4;
    pub const GREATER_OR_EQUAL: u16 = 5;
}

/// Kinds of queries: word 0 of a form of table 4.
pub mod query {
    pub const EMPTY: u16 = 0;
    /// Relation a.
    pub const RELATION: u16 = 1;
    /// By comparison a, of query b.
    pub const SELECT: u16 = 2;
    /// To a entries, of query b.
    pub const PROJECT: u16 = 3;
    /// Query b where expression a holds, c elsewhere.
    pub const CHOICE: u16 = 4;
    /// Of queries a and b.
    pub const PRODUCT: u16 = 5;
    /// Of queries a and b.
    pub const UNION: u16 = 6;
    /// Of queries a and b.
    pub const INTERSECTION: u16 = 7;
}
