//! What the program complains of before it serves: why it could not make or open a file, and what to do about it.

use crate::error::system_words;
use serde_json::Value;
use std::io;

/// What to do, by the cause that `--why` tells after `jpstore: file`, or by the complaint. The texts are those of the
/// Python client; a test compares them.
const ADVICE: &[(&str, &str)] = &[
    ("missing", "compare the path, whose folder must exist; `jpstore-cli new FILE` makes a store, and `jpstore-cli hub FILE --socket PATH` serves one at a socket"),
    ("folder", "name a file in it"),
    ("denied", "a store is read and written by its owner, even to look at it, and made in a folder of theirs: run this as that user, or change the rights of the file and its folder (`chmod`, `chown`); `jpstore dump FILE --read-only` needs no right to write"),
    ("read-only", "copy the file to a file system that can be written"),
    ("descriptors", "close files, or raise the limit (`ulimit -n`)"),
    ("in-use", "connect to the socket of the hub that serves it, end the other command, or wait for it by `--wait SECONDS`"),
];

/// What to do about a cause or a complaint, as a line of its own; empty if nothing is known.
pub fn what_to_do(word: &str) -> String {
    let found = ADVICE.iter().find(|(known, _)| *known == word);
    found.map_or(String::new(), |(_, advice)| to_do(advice))
}

/// An advice, as a line of its own.
pub fn to_do(advice: &str) -> String {
    format!("\n  what to do: {}", as_called(advice))
}

/// A text that names commands of the command line, as they can be called here: without an installation by the module.
pub fn as_called(text: &str) -> String {
    let path = std::env::var_os("PATH").unwrap_or_default();
    let is_installed = std::env::split_paths(&path).any(|folder| folder.join("jpstore-cli").is_file());
    let called = if is_installed { "jpstore-cli " } else { "python3 -m jpstore " };
    text.replace("jpstore-cli ", called)
}

/// Why a file could not be made or opened.
pub struct Cause {
    /// Its path, and what the system says of it.
    pub told: String,
    /// The word for it.
    pub word: String,
}

/// The cause that is on the line after `jpstore: file`.
pub fn cause_in(said: &str) -> Option<Cause> {
    let line = said.lines().skip_while(|line| *line != "jpstore: file").nth(1)?;
    let reason: Value = serde_json::from_str(line).ok()?;
    let word = reason.get("cause")?.as_str()?.to_owned();
    let number = reason.get("errno").and_then(Value::as_i64).and_then(|number| i32::try_from(number).ok()).unwrap_or(0);
    let system = system_words(&io::Error::from_raw_os_error(number));
    let why = if number == 0 { word.as_str() } else { system.as_str() };
    Some(Cause { told: format!("{}: {why}", reason.get("path")?.as_str()?), word })
}

#[cfg(test)]
mod tests {
    use super::{cause_in, what_to_do};

    #[test]
    fn a_cause_is_told_in_the_words_of_the_system() {
        let cause = cause_in("jpstore: file\n{\"cause\":\"missing\",\"errno\":2,\"path\":\"a/b\"}\n").unwrap();
        assert_eq!((&cause.told[..], &cause.word[..]), ("a/b: No such file or directory", "missing"));
        let cause = cause_in("jpstore: file\n{\"cause\":\"descriptors\",\"errno\":0,\"path\":\"a\"}").unwrap();
        assert_eq!(cause.told, "a: descriptors");
        assert!(cause_in("jpstore: file\n").is_none() && cause_in("jpstore: in-use\n{}").is_none());
    }

    #[test]
    fn what_is_not_known_has_no_advice() {
        assert_eq!(what_to_do("folder"), "\n  what to do: name a file in it");
        assert_eq!(what_to_do("other"), "");
    }
}
