pub use crate::protocol::Reason;
use crate::protocol::ROWS;
use crate::sys::{self, Cause};
use crate::Mark;
use std::ffi::CStr;
use std::fmt;
use std::os::raw::c_int;

/// What the store refuses, and which part of a change is at fault.
///
/// ```
/// use jpstore::{Reason, Store};
///
/// # fn main() -> Result<(), jpstore::Error> {
/// let mut store = Store::in_memory(64)?;
/// let error = store.get("shelf-1", "").unwrap_err();
/// assert_eq!(error.refusal().map(|refusal| refusal.reason), Some(Reason::NoDocument));
/// assert_eq!(error.to_string(), "21 no-document");
/// # Ok(())
/// # }
/// ```
#[derive(Clone, Debug, PartialEq, Eq, Hash)]
#[non_exhaustive]
pub struct Refusal {
    /// Why.
    pub reason: Reason,
    /// The change of a transaction that is at fault, counted from 0.
    pub change: Option<u16>,
    /// The operation of a patch that is at fault, counted from 0.
    pub op: Option<u16>,
    /// The document's revision, with [`Reason::Revision`].
    pub rev: Option<u64>,
    /// The present mark, with [`Reason::Mark`]; `None` if the key has none.
    pub mark: Option<Mark>,
}

impl Refusal {
    /// What a cause says; `None` if its number isn't known.
    pub(crate) fn of(cause: &Cause) -> Option<Refusal> {
        let reason = Reason::of(cause.refusal)?;
        Some(Refusal {
            reason,
            change: u16::try_from(cause.change).ok(),
            op: u16::try_from(cause.op).ok(),
            rev: (reason == Reason::Revision).then_some(cause.rev),
            // SAFETY: a cause is read before the next call on the store, whose text this is.
            mark: unsafe { Mark::of(cause.mark, cause.mark_length, cause.mark_seq) },
        })
    }
}

impl fmt::Display for Refusal {
    fn fmt(&self, f: &mut fmt::Formatter<'_>) -> fmt::Result {
        self.reason.fmt(f)?;
        if let Some(change) = self.change {
            write!(f, ", change {change}")?;
        }
        if let Some(op) = self.op {
            write!(f, ", operation {op}")?;
        }
        if let Some(rev) = self.rev {
            write!(f, ", revision {rev}")?;
        }
        if let Some(mark) = &self.mark {
            write!(f, ", mark {:?} of change {}", mark.value, mark.seq)?;
        }
        Ok(())
    }
}

impl std::error::Error for Refusal {}

impl Reason {
    fn of(number: c_int) -> Option<Reason> {
        let mut reasons = ROWS.iter().map(|row| row.0);
        reasons.find(|reason| c_int::from(reason.number()) == number)
    }

    /// Its number, as `docs/use/PROTOCOL.md` has them.
    pub fn number(self) -> u16 {
        self as u16
    }

    /// What it means, as `no document has that name`.
    pub fn meaning(self) -> &'static str {
        self.row().1
    }

    /// What to do about it, as `list the names, and compare`.
    pub fn advice(self) -> &'static str {
        self.row().2
    }

    fn row(self) -> (Reason, &'static str, &'static str) {
        let row = ROWS.iter().find(|row| row.0 == self);
        *row.unwrap_or(&(self, "", ""))
    }

    /// Its name, as `no-document`.
    pub fn name(self) -> &'static str {
        // SAFETY: the call takes any number, and gives a text that ends by 0 and is never freed.
        let name = unsafe { CStr::from_ptr(sys::jpstore_refusal_name(self.number().into())) };
        name.to_str().unwrap_or("")
    }
}

impl fmt::Display for Reason {
    fn fmt(&self, f: &mut fmt::Formatter<'_>) -> fmt::Result {
        write!(f, "{} {}", self.number(), self.name())
    }
}

#[cfg(test)]
mod tests {
    use super::{sys, CStr, Reason, ROWS};

    #[test]
    fn each_reason_has_a_meaning_and_an_advice() {
        for reason in ROWS.iter().map(|row| row.0) {
            assert!(
                !reason.meaning().is_empty() && !reason.advice().is_empty(),
                "{reason}"
            );
        }
        assert_eq!(Reason::NoDocument.meaning(), "no document has that name");
        assert!(Reason::Damaged
            .advice()
            .starts_with("restore it from a copy or a dump;"));
    }

    // "NoDocument" is "no-document".
    fn name_of(reason: Reason) -> String {
        let mut name = String::new();
        for letter in format!("{reason:?}").chars() {
            if letter.is_uppercase() && !name.is_empty() {
                name.push('-');
            }
            name.push(letter.to_ascii_lowercase());
        }
        name
    }

    #[test]
    fn each_number_of_the_library_is_a_reason_of_its_name() {
        for number in -1..1000 {
            // SAFETY: as in `Reason::name`.
            let name = unsafe { CStr::from_ptr(sys::jpstore_refusal_name(number)) };
            let found = Reason::of(number).map_or(String::new(), name_of);
            assert_eq!(found, name.to_str().unwrap(), "{number}");
        }
    }
}
