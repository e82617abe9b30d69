//! The refusals: the number and the name of each, its HTTP status, what it means, and what to do about it.

use crate::protocol::OWN_REFUSALS;
pub use crate::protocol::{EXISTS, GONE, NOT_GROWN, NO_DOCUMENT, NO_MAJORITY, REFUSALS, REVISION, WATCHING};

/// A refusal of the store.
pub struct Refusal {
    /// Its number.
    pub number: u64,
    /// Its name.
    pub name: &'static str,
    /// The status of an answer that has it.
    pub status: u16,
    /// What it means.
    pub meaning: &'static str,
    /// What to do about it.
    pub advice: &'static str,
}

/// The refusal of this number.
pub fn by_number(number: u64) -> Option<&'static Refusal> {
    REFUSALS.iter().find(|row| row.number == number)
}

/// The refusal of this name.
pub fn by_name(name: &str) -> Option<&'static Refusal> {
    REFUSALS.iter().find(|row| row.name == name)
}

/// The name of the refusal with this number.
pub fn name_of(number: u64) -> &'static str {
    let own = OWN_REFUSALS.iter().find(|(known, _)| *known == number).map(|(_, name)| *name);
    own.or_else(|| by_number(number).map(|row| row.name)).unwrap_or("")
}
