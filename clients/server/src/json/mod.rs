//! JSON texts: checked and made compact, in canonical form, and written as answers.

pub mod canonical;
pub mod compact;
pub mod write;

use serde_json::value::RawValue;
use std::collections::BTreeMap;

pub use compact::{compact, Compact, Fault};
pub use write::{quoted, Object};

/// The members of an object, as texts: values would take a hundred times the memory of a long line.
pub fn members_in(text: &[u8]) -> Option<BTreeMap<String, &RawValue>> {
    serde_json::from_slice(text).ok()
}
