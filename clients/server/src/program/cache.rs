//! The documents that were answered once, as they are sent.
//!
//! A copy is replaced in the round in which its document changes, after the change is on the disk and before any answer of
//! that round is sent. So who reads a copy sees no less than was answered, and no more than is stored. Only the engine
//! writes here.

use crate::limits::ROUND_REPLIES;
use bytes::Bytes;
use std::collections::HashMap;
use std::sync::atomic::{AtomicBool, Ordering};
use std::sync::{Arc, RwLock};

/// A document.
#[derive(Debug)]
pub struct Document {
    /// Its revision.
    pub rev: u64,
    /// Its text.
    pub text: Bytes,
    /// Whether it was read since it was put here.
    read: AtomicBool,
}

impl Document {
    /// A document that nobody has read.
    pub fn new(rev: u64, text: Bytes) -> Document {
        Document { rev, text, read: AtomicBool::new(false) }
    }
}

#[derive(Default)]
struct Copies {
    by_name: HashMap<String, Arc<Document>>,
    size: usize,
}

/// Copies of documents, of at most so many bytes together.
pub struct Cache {
    most: usize,
    copies: RwLock<Copies>,
}

/// What a copy takes beside its text.
const BESIDE: usize = 256;

impl Cache {
    /// An empty cache; with 0 bytes it stays empty.
    pub fn new(most: usize) -> Cache {
        Cache { most, copies: RwLock::default() }
    }

    /// The copy of a document.
    pub fn get(&self, name: &str) -> Option<Arc<Document>> {
        let copies = self.copies.read().unwrap_or_else(std::sync::PoisonError::into_inner);
        let found = copies.by_name.get(name)?;
        if !found.read.load(Ordering::Relaxed) {
            found.read.store(true, Ordering::Relaxed);
        }
        Some(found.clone())
    }

    /// Puts a copy here, if it isn't longer than all may be. An older one of it goes in any case, and others if there is no room.
    pub fn put(&self, name: &str, document: Arc<Document>) {
        let size = document.text.len() + BESIDE;
        let mut copies = self.copies.write().unwrap_or_else(std::sync::PoisonError::into_inner);
        copies.remove(name);
        if size > self.most {
            return;
        }
        while copies.size + size > self.most {
            let other = copies.by_name.keys().next().cloned();
            other.iter().for_each(|other| copies.remove(other));
        }
        copies.size += size;
        copies.by_name.insert(name.to_owned(), document);
    }

    /// The names of those of these documents, which have changed, whose copies were read: as many as can be read again while
    /// others wait. Other copies go.
    pub fn changed<'n>(&self, names: impl Iterator<Item = &'n str>) -> Vec<String> {
        let mut copies = self.copies.write().unwrap_or_else(std::sync::PoisonError::into_inner);
        let mut left = ROUND_REPLIES;
        names.filter(|name| copies.goes_on(name, &mut left)).map(str::to_owned).collect()
    }

    /// Takes all copies away.
    pub fn clear(&self) {
        *self.copies.write().unwrap_or_else(std::sync::PoisonError::into_inner) = Copies::default();
    }

    /// Takes the copy of a document away.
    pub fn remove(&self, name: &str) {
        self.copies.write().unwrap_or_else(std::sync::PoisonError::into_inner).remove(name);
    }
}

impl Copies {
    fn remove(&mut self, name: &str) {
        let found = self.by_name.remove(name);
        self.size -= found.map_or(0, |document| document.text.len() + BESIDE);
    }

    /// Whether there is a copy that was read, while some bytes are left for such ones; else it goes.
    fn goes_on(&mut self, name: &str, left: &mut usize) -> bool {
        let document = match self.by_name.get(name) {
            Some(document) => document,
            None => return false,
        };
        if *left == 0 || !document.read.load(Ordering::Relaxed) {
            self.remove(name);
            return false;
        }
        *left = left.saturating_sub(document.text.len());
        true
    }
}

#[cfg(test)]
mod tests {
    use super::{Cache, Document, BESIDE};
    use std::sync::Arc;

    fn document(rev: u64, size: usize) -> Arc<Document> {
        Arc::new(Document::new(rev, vec![b'1'; size].into()))
    }

    #[test]
    fn what_changed_goes_and_what_was_read_is_told() {
        let cache = Cache::new(10_000);
        cache.put("a", document(1, 10));
        cache.put("b", document(2, 10));
        assert_eq!(cache.get("a").unwrap().rev, 1);
        assert_eq!(cache.changed(["a", "b", "c"].into_iter()), ["a"]);
        assert!(cache.get("a").is_some() && cache.get("b").is_none());
        cache.remove("a");
        assert!(cache.get("a").is_none());
        cache.put("d", document(3, 10));
        cache.clear();
        assert!(cache.get("d").is_none());
        (0..100).for_each(|number| cache.put(&number.to_string(), document(number, 0)));
        assert_eq!((0..100).filter(|number| cache.get(&number.to_string()).is_some()).count(), 10_000 / BESIDE);
    }

    #[test]
    fn long_copies_are_not_all_read_again() {
        let cache = Cache::new(1 << 26);
        let names = ["a", "b", "c", "d"];
        for (number, name) in names.into_iter().enumerate() {
            cache.put(name, document(1, number << 18));
            assert!(cache.get(name).is_some());
        }
        assert_eq!(cache.changed(names.into_iter()), ["a", "b"]);
        assert!(cache.get("b").is_some() && cache.get("c").is_none() && cache.get("d").is_none());
    }

    #[test]
    fn its_size_is_bounded() {
        let cache = Cache::new(3 * (BESIDE + 100));
        (0..50).for_each(|number| cache.put(&number.to_string(), document(number, 100)));
        assert_eq!((0..50).filter(|number| cache.get(&number.to_string()).is_some()).count(), 3);
        assert!(cache.get("49").is_some());
        cache.put("large", document(1, 10_000));
        assert!(cache.get("large").is_none());
        cache.put("49", document(2, 10_000));
        assert!(cache.get("49").is_none(), "an older copy is left");
        let none = Cache::new(0);
        none.put("a", document(1, 0));
        assert!(none.get("a").is_none());
    }
}
