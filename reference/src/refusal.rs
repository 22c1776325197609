//! The answer of a call that cannot accept what it was given.

/// A refusal returns number, place, item and configuration.
/// Fields that the table of refusals does not name are 0.
#[derive(Clone, Copy, Debug, PartialEq, Eq, Hash, PartialOrd, Ord)]
pub struct Refusal {
    pub number: u64,
    pub place: u64,
    pub item: u64,
    pub configuration: u64,
}

impl Refusal {
    /// A refusal of which all four fields are given.
    pub fn new(number: u64, place: u64, item: u64, configuration: u64) -> Refusal {
        Refusal {
            number,
            place,
            item,
            configuration,
        }
    }

    /// A refusal that names a place only.
    pub fn at(number: u64, place: usize) -> Refusal {
        Refusal::new(number, place as u64, 0, 0)
    }
}

/// The numbers of the typing faults.
pub const TYPING: [u64; 6] = [15, 16, 17, 18, 19, 25];

/// Is it a typing fault?
pub fn is_of_typing(number: u64) -> bool {
    TYPING.contains(&number)
}

/// Is it checked before the rows lent, 11? Those are 1 to 10 and 24.
pub fn is_of_form(number: u64) -> bool {
    matches!(number, 1..=10 | 24)
}
