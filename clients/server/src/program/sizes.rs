//! How long replies are expected to be: as long as the last one to the same line, or else as the longest about the same document.

use memchr::memmem;
use std::collections::hash_map::RandomState;
use std::collections::HashMap;
use std::hash::{BuildHasher, Hash, Hasher};

/// The length of a reply of which nothing is known.
const UNKNOWN: u32 = 1 << 15;

/// The length of a reply that tells a number.
const NUMBER: usize = 64;

/// How many lengths are known. If there are more, all are forgotten.
const MOST: usize = 1 << 16;

const NAME: &[u8] = b"\"name\":\"";

/// What is known of replies, by digests of lines and of names.
#[derive(Default)]
pub(super) struct Sizes {
    known: HashMap<u64, u32>,
    state: RandomState,
}

impl Sizes {
    /// How long the reply to a question may be.
    pub fn expected(&self, line: &[u8]) -> usize {
        if is_short(line) {
            return NUMBER;
        }
        if may_take_long(line) {
            return usize::MAX >> 8;
        }
        let of_name = || self.known.get(&self.digest(1, name_in(line)?));
        let known = self.known.get(&self.digest(0, line)).or_else(of_name);
        known.copied().unwrap_or(UNKNOWN) as usize
    }

    /// Notes how long the reply to a question was.
    pub fn learn(&mut self, line: &[u8], size: usize) {
        if is_short(line) || may_take_long(line) {
            return;
        }
        if self.known.len() >= MOST {
            self.known.clear();
        }
        let size = u32::try_from(size).unwrap_or(u32::MAX);
        self.known.insert(self.digest(0, line), size);
        if let Some(name) = name_in(line) {
            let longest = self.known.entry(self.digest(1, name)).or_default();
            *longest = size.max(*longest);
        }
    }

    fn digest(&self, kind: u8, text: &[u8]) -> u64 {
        let mut hasher = self.state.build_hasher();
        (kind, text).hash(&mut hasher);
        hasher.finish()
    }
}

/// Whether the reply to a question is short whatever there is, and so is the time that it takes.
fn is_short(line: &[u8]) -> bool {
    line.starts_with(b"{\"cmd\":\"rev\"")
}

/// Whether a question may take longer than to send a document. A word with an escape may be any.
fn may_take_long(line: &[u8]) -> bool {
    let has = |word: &[u8]| memmem::find(line, word).is_some();
    has(b"\"query\"") || has(b"\"changes\"") || has(b"\\")
}

fn name_in(line: &[u8]) -> Option<&[u8]> {
    let name = &line[memmem::find(line, NAME)? + NAME.len()..];
    Some(&name[..memchr::memchr(b'"', name)?])
}

#[cfg(test)]
mod tests {
    use super::{may_take_long, Sizes, MOST, NUMBER, UNKNOWN};
    use crate::limits::SMALL;
    use crate::lines::replies::{get, get_schema, rev};

    #[test]
    fn what_was_long_is_expected_to_be_long() {
        let mut sizes = Sizes::default();
        let (whole, part) = (get("d", ""), get("d", "/a"));
        assert_eq!(sizes.expected(whole.as_bytes()), UNKNOWN as usize);
        sizes.learn(whole.as_bytes(), 1 << 20);
        assert_eq!((sizes.expected(whole.as_bytes()), sizes.expected(part.as_bytes())), (1 << 20, 1 << 20));
        sizes.learn(part.as_bytes(), 10);
        assert_eq!((sizes.expected(part.as_bytes()), sizes.expected(get_schema("d").as_bytes())), (10, 1 << 20));
        assert_eq!((sizes.expected(rev("d").as_bytes()), sizes.expected(get("e", "").as_bytes())), (NUMBER, 1 << 15));
        (0..2 * MOST).for_each(|number| sizes.learn(get(&number.to_string(), "").as_bytes(), 1));
        assert!(sizes.known.len() <= MOST + 1);
    }

    #[test]
    fn only_a_document_takes_no_longer_than_it_is_long() {
        assert!(!may_take_long(get("d", "").as_bytes()));
        for line in [
            r#"{"cmd":"query","name":"d","path":"$"}"#,
            r#"{"cmd":"changes","from":0,"max":4194304}"#,
            r#"{"cmd":"ch\u0061nges","from":0,"max":4194304}"#,
        ] {
            assert!(may_take_long(line.as_bytes()) && Sizes::default().expected(line.as_bytes()) > SMALL, "{line}");
        }
    }
}
