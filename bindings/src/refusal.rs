//! Why a report is refused.

use core::error::Error;
use core::fmt::{self, Display, Formatter};

use crate::{MAX_ATTRIBUTES, MAX_FEATURES, PAGE_LINE, ROWS};

/// Why a report is refused: the number of the check, and what it names. What
/// the check does not name is 0. `Display` says it in words.
#[derive(Clone, Copy, Debug, PartialEq, Eq, Hash, PartialOrd, Ord)]
pub struct Refusal {
    pub number: u64,
    pub place: u64,
    pub item: u64,
    pub configuration: u64,
}

/// The numbers of the checks, named as in ../../include/gelvomas.h, which says for
/// each what its place, its item and its configuration are.
impl Refusal {
    pub const LIMIT: u64 = 1;
    pub const LENGTH: u64 = 2;
    pub const EXPRESSION: u64 = 3;
    pub const MODEL: u64 = 4;
    pub const ENTRY: u64 = 5;
    pub const RELATION: u64 = 6;
    pub const COMPARISON: u64 = 7;
    pub const QUERY: u64 = 8;
    pub const QUERY_LEFT: u64 = 9;
    pub const ENTRY_LEFT: u64 = 10;
    pub const ROWS: u64 = 11;
    pub const NONE_PERMITTED: u64 = 12;
    pub const RELATION_NOWHERE: u64 = 13;
    pub const ENTRY_NOWHERE: u64 = 14;
    pub const RELATION_ABSENT: u64 = 15;
    pub const COMPARED_MISSING: u64 = 16;
    pub const PROJECTED_MISSING: u64 = 17;
    pub const PRODUCT_SHARES: u64 = 18;
    pub const UNEQUAL: u64 = 19;
    pub const CONFIGURATION: u64 = 20;
    pub const ROOM: u64 = 21;
    pub const WANTED: u64 = 22;
    pub const PAGE: u64 = 23;
    pub const KIND: u64 = 24;
    pub const KINDS_DIFFER: u64 = 25;
}

impl From<[u64; 4]> for Refusal {
    fn from([number, place, item, configuration]: [u64; 4]) -> Refusal {
        Refusal {
            number,
            place,
            item,
            configuration,
        }
    }
}

/// "Form" alone is a query form. A number that is in no row of docs/FORMAT.md is given as
/// the four numbers.
impl Display for Refusal {
    fn fmt(&self, f: &mut Formatter) -> fmt::Result {
        let &Refusal {
            number,
            place,
            item,
            configuration,
        } = self;
        match (number, place) {
            (Refusal::LIMIT, 0) => write!(f, "the head has over {MAX_FEATURES} features"),
            (Refusal::LIMIT, 1) => write!(f, "the head has over {MAX_ATTRIBUTES} attributes"),
            (Refusal::LENGTH, _) => write!(
                f,
                "table {place} has words that make no whole forms, or has too few or too many forms"
            ),
            (Refusal::EXPRESSION, _) => write!(
                f,
                "expression {place} has an unknown kind, an unused word that is not 0, \
                 a feature or a range of features past the head's number, \
                 a range that is not of 1 to 10 features, \
                 or an operand that is not lower"
            ),
            (Refusal::MODEL, _) => write!(f, "the model is not in table 0"),
            (Refusal::ENTRY, _) => write!(
                f,
                "entry {place} has an attribute past the head's number, \
                 or an expression that is not in table 0"
            ),
            (Refusal::RELATION, _) => write!(
                f,
                "relation {place} has an expression that is not in table 0, \
                 or a list past table 1"
            ),
            (Refusal::COMPARISON, _) => write!(
                f,
                "comparison {place} has an unknown kind, an unused word that is not 0, \
                 an operand that is not lower, an operator over 5, \
                 an attribute past the head's number, or an expression that is not in table 0"
            ),
            (Refusal::QUERY, _) => write!(
                f,
                "form {place} has an unknown kind, an unused word that is not 0, \
                 an operand that is not lower or is already taken, \
                 a relation, comparison or expression that is not in its table, \
                 or a list past table 1"
            ),
            (Refusal::QUERY_LEFT, _) => write!(
                f,
                "form {place} is an operand of no form, and is not the last"
            ),
            (Refusal::ENTRY_LEFT, _) => {
                write!(f, "entry {place} is the first that belongs to no list")
            }
            (Refusal::ROWS, _) => write!(f, "the rows lent are not {ROWS} words"),
            (Refusal::NONE_PERMITTED, _) => write!(f, "the model permits no configuration"),
            (Refusal::RELATION_NOWHERE, _) => write!(
                f,
                "relation {place} is present at no permitted configuration"
            ),
            (Refusal::ENTRY_NOWHERE, _) => write!(
                f,
                "relation {place} and its entry of attribute {item} \
                 hold together at no permitted configuration"
            ),
            (Refusal::RELATION_ABSENT, _) => write!(
                f,
                "form {place} names relation {item}, which is absent at configuration {configuration}"
            ),
            (Refusal::COMPARED_MISSING, _) => write!(
                f,
                "form {place} compares attribute {item}, \
                 which is missing at configuration {configuration}"
            ),
            (Refusal::PROJECTED_MISSING, _) => write!(
                f,
                "form {place} projects attribute {item}, \
                 which is missing at configuration {configuration}"
            ),
            (Refusal::PRODUCT_SHARES, _) => write!(
                f,
                "form {place} is a product, and both its operands have attribute {item} \
                 at configuration {configuration}"
            ),
            (Refusal::UNEQUAL, _) => write!(
                f,
                "form {place} is a union or an intersection, and only one of its operands has \
                 attribute {item} at configuration {configuration}"
            ),
            (Refusal::CONFIGURATION, _) => write!(
                f,
                "configuration {configuration} is 2^features or more, or is not permitted"
            ),
            (Refusal::ROOM, _) => {
                write!(f, "table {place} lent for writing is shorter than its source")
            }
            (Refusal::WANTED, _) => write!(f, "a wanted attribute is past the head's number"),
            (Refusal::PAGE, _) => write!(
                f,
                "the page lent has fewer than {PAGE_LINE} bytes for each permitted configuration"
            ),
            (Refusal::KIND, 0) => write!(
                f,
                "the kind table has not one word for each attribute, \
                 or a kind over 2 stands in its word 0 or in comparison 0"
            ),
            (Refusal::KIND, _) => write!(
                f,
                "a kind over 2 stands in word {place} of the kind table or in comparison {place}"
            ),
            (Refusal::KINDS_DIFFER, _) => write!(
                f,
                "form {place} compares attribute {item} with something of another kind \
                 at configuration {configuration}"
            ),
            _ => write!(f, "refused {number} {place} {item} {configuration}"),
        }
    }
}

impl Error for Refusal {}
