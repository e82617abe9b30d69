use std::{fmt, io};

/// Why the system refused a call for a file.
///
/// `std::io::Error::from` makes an error of the standard library of it.
///
/// ```
/// use jpstore::{Error, Fault};
/// use std::io::ErrorKind;
///
/// match jpstore::check("/none/at/all") {
///     Err(Error::Fault(Fault::File(error))) => assert_eq!(error.kind(), ErrorKind::NotFound),
///     other => panic!("{other:?}"),
/// }
/// ```
#[derive(Clone, Copy, PartialEq, Eq, Hash)]
pub struct SystemError(pub(crate) i32);

impl SystemError {
    /// The system's `errno`, as `ENOENT`; 0 if it isn't known.
    pub fn raw_os_error(self) -> i32 {
        self.0
    }

    /// What it is in the standard library, as `NotFound` or `PermissionDenied`.
    pub fn kind(self) -> io::ErrorKind {
        io::Error::from(self).kind()
    }
}

impl From<SystemError> for io::Error {
    fn from(error: SystemError) -> io::Error {
        io::Error::from_raw_os_error(error.0)
    }
}

impl fmt::Debug for SystemError {
    fn fmt(&self, f: &mut fmt::Formatter<'_>) -> fmt::Result {
        io::Error::from(*self).fmt(f)
    }
}

impl fmt::Display for SystemError {
    fn fmt(&self, f: &mut fmt::Formatter<'_>) -> fmt::Result {
        io::Error::from(*self).fmt(f)
    }
}

impl std::error::Error for SystemError {}
