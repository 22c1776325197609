//! The two readings of a report.

/// "Each call that types is told the reading."
#[derive(Clone, Copy, Debug, PartialEq, Eq, Hash, PartialOrd, Ord)]
pub enum Reading {
    /// The typing rules as they stand: a writer repeats the schema's conditions.
    Strict,
    /// "Fill in what I left out": "an absent relation counts as empty and a projected
    /// attribute is dropped where its operand lacks it".
    Filled,
}

/// Both readings.
pub const READINGS: [Reading; 2] = [Reading::Strict, Reading::Filled];
