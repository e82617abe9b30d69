use std::os::raw::c_char;
use std::slice;

/// The mark of a key, in format 3: a text that was set with a change, or with a transaction.
///
/// The store has the marks of the 1,024 keys that were set last. [`Change::with_mark`](crate::Change::with_mark) sets one, and
/// [`Store::mark`](crate::Store::mark) reads it.
#[derive(Clone, Debug, PartialEq, Eq, Hash)]
#[non_exhaustive]
pub struct Mark {
    /// Its value.
    pub value: String,
    /// The number of the last change that was made with it.
    pub seq: u64,
}

impl Mark {
    /// The mark of this value; `None` without one.
    ///
    /// # Safety
    ///
    /// The value is NULL, or has this length.
    pub(crate) unsafe fn of(value: *const c_char, length: usize, seq: u64) -> Option<Mark> {
        if value.is_null() {
            return None;
        }
        // SAFETY: as the caller says.
        let value = unsafe { slice::from_raw_parts(value.cast(), length) };
        Some(Mark {
            value: String::from_utf8_lossy(value).into_owned(),
            seq,
        })
    }
}
