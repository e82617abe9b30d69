//! What keeps the server from serving, in words for the one who started it.

use std::fmt;
use std::io;
use std::path::Path;

/// An error that ends the server, or keeps it from beginning.
#[derive(Debug)]
pub struct Error {
    told: String,
}

impl Error {
    /// The error that is told in these words.
    pub fn new(told: impl Into<String>) -> Error {
        Error { told: told.into() }
    }

    /// What the system said of a path.
    pub fn of_path(path: impl AsRef<Path>, error: io::Error) -> Error {
        Error::new(format!("{}: {}", path.as_ref().display(), system_words(&error)))
    }
}

impl fmt::Display for Error {
    fn fmt(&self, formatter: &mut fmt::Formatter<'_>) -> fmt::Result {
        formatter.write_str(&self.told)
    }
}

impl std::error::Error for Error {}

/// What the system says of an error, without its number.
pub fn system_words(error: &io::Error) -> String {
    let told = error.to_string();
    told.split(" (os error").next().unwrap_or(&told).to_owned()
}
