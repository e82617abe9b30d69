//! The texts that name the history up to a change. By them it is known whether a follower that comes again has followed this
//! history, and not that of another store, or of this one before an older copy was put in its place.
//!
//! A text is RUN.OPENS.DIGEST: the number that a server makes up at its start, how often the store was opened, and a digest
//! of the store's identity and of the transaction with the change.

use crate::lines::replies::Status;
use sha2::{Digest, Sha256};
use std::fs::File;
use std::io::{self, Read};

/// How many bytes of a digest are told, and of the number of a run.
const TOLD: usize = 8;

/// Names the histories of one run of the server.
pub struct Naming {
    run: String,
    opens: u64,
    /// The identity in hexadecimal. A store of format 2 has none.
    identity: Option<String>,
}

impl Naming {
    /// That of a new run over a store with this status.
    pub fn new(opened: &Status) -> io::Result<Naming> {
        let mut random = [0; TOLD];
        File::open("/dev/urandom")?.read_exact(&mut random)?;
        let mut naming = Naming { run: hex(&random), opens: 0, identity: None };
        naming.go_on(opened);
        Ok(naming)
    }

    /// Goes on in another file of the store, which has this status.
    pub fn go_on(&mut self, opened: &Status) {
        self.opens = opened.opens;
        self.identity = opened.identity.map(|identity| format!("{identity:032x}"));
    }

    /// The text of the changes of a transaction that is told so.
    pub fn of_transaction(&self, text: &str) -> String {
        self.of(text.as_bytes())
    }

    /// The text of a change whose transaction isn't known any more. No other run takes it, since stores that went apart may
    /// have the same number; but before the first change all are the same.
    pub fn of_number(&self, seq: u64) -> String {
        match seq {
            0 => self.of(b"0"),
            _ => self.of(format!("{} {seq}", self.run).as_bytes()),
        }
    }

    fn of(&self, told: &[u8]) -> String {
        let digest =
            Sha256::new().chain_update(self.identity.as_deref().unwrap_or_default()).chain_update(told).finalize();
        format!("{}.{}.{}", self.run, self.opens, hex(&digest[..TOLD]))
    }

    /// Whether a follower has followed this history up to a change that it has `theirs` of, and this server `ours`.
    pub fn agree(&self, theirs: &str, ours: &str) -> bool {
        let (theirs, ours) = match (parts_of(theirs), parts_of(ours)) {
            (Some(theirs), Some(ours)) => (theirs, ours),
            _ => return false,
        };
        let is_older = || self.identity.is_some() && theirs.1.parse().map_or(false, |opens: u64| opens < self.opens);
        theirs.0 == self.run || (is_older() && theirs.2 == ours.2)
    }
}

fn parts_of(text: &str) -> Option<(&str, &str, &str)> {
    let (run, rest) = text.split_once('.')?;
    let (opens, digest) = rest.split_once('.')?;
    Some((run, opens, digest))
}

fn hex(bytes: &[u8]) -> String {
    bytes.iter().map(|byte| format!("{byte:02x}")).collect()
}

#[cfg(test)]
mod tests {
    use super::{parts_of, Naming, Status};

    fn naming(identity: Option<u128>, opens: u64) -> Naming {
        Naming::new(&Status { identity, opens, ..Status::default() }).unwrap()
    }

    #[test]
    fn the_digest_is_that_of_identity_and_transaction() {
        // printf '%s' 000000000000000000000000000000ff '{"a":1}' | sha256sum
        assert_eq!(
            parts_of(&naming(Some(255), 3).of_transaction("{\"a\":1}")).map(|parts| parts.2),
            Some("d82c0c4895dab2a4")
        );
        // printf '0' | sha256sum
        let of_number = naming(None, 3).of_number(0);
        let (run, opens, digest) = parts_of(&of_number).unwrap();
        assert_eq!((run.len(), opens, digest), (16, "3", "5feceb66ffc86f38"));
    }

    #[test]
    fn a_number_alone_is_known_to_its_run_and_before_the_first_change() {
        let (first, later) = (naming(Some(1), 3), naming(Some(1), 4));
        assert!(!later.agree(&first.of_number(17), &later.of_number(17)));
        assert!(later.agree(&first.of_number(0), &later.of_number(0)));
        assert!(later.agree(&later.of_number(17), &later.of_transaction("{}")));
    }

    #[test]
    fn a_later_opening_of_the_same_store_knows_its_own_transactions() {
        let (first, later) = (naming(Some(1), 3), naming(Some(1), 4));
        let (theirs, ours) = (first.of_transaction("{}"), later.of_transaction("{}"));
        assert!(later.agree(&theirs, &ours) && !later.agree(&first.of_transaction("[]"), &ours));
        assert!(!first.agree(&ours, &theirs) && !naming(Some(1), 3).agree(&theirs, &theirs));
        assert!(!naming(Some(2), 4).agree(&theirs, &naming(Some(2), 4).of_transaction("{}")));
        for text in ["", ".", "..", "x", &ours[..16], "0.x.0"] {
            assert!(!later.agree(text, &ours), "{text}");
        }
    }

    #[test]
    fn without_an_identity_only_the_run_is_known() {
        let (first, later) = (naming(None, 3), naming(None, 4));
        assert!(!later.agree(&first.of_transaction("{}"), &later.of_transaction("{}")));
        assert!(first.agree(&first.of_transaction("{}"), &first.of_number(1)));
    }
}
