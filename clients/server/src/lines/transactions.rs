//! The transactions after a change, each whole, as the program's line `changes` tells them.

use crate::json::members_in;
use crate::protocol::MOST_TOLD_BYTES;
use serde_json::value::RawValue;

/// The line that asks for the transactions after a number: as many bytes of them as the program allows.
pub fn changes_after(seq: u64) -> String {
    format!("{{\"cmd\":\"changes\",\"from\":{seq},\"max\":{MOST_TOLD_BYTES}}}\n")
}

/// A transaction as it is told.
#[derive(Debug)]
pub struct Transaction<'r> {
    /// All of its text.
    pub text: &'r str,
    /// The numbers of its first and its last change.
    pub first: u64,
    /// The last one.
    pub last: u64,
    /// The texts of its changes.
    pub changes: Vec<&'r RawValue>,
    /// The text of the mark that was set with it.
    pub mark: Option<&'r RawValue>,
}

/// What a reply tells.
#[derive(Debug)]
pub enum Told<'r> {
    /// The next transactions.
    Some {
        /// One after another.
        transactions: Vec<Transaction<'r>>,
        /// The number of the store's last change.
        seq: u64,
    },
    /// They aren't known any more.
    Gone {
        /// The number after which all are known.
        from: u64,
        /// The number of the store's last change.
        seq: u64,
    },
}

fn number(text: Option<&&RawValue>) -> Option<u64> {
    text?.get().parse().ok()
}

impl<'r> Transaction<'r> {
    fn of(told: &'r RawValue) -> Option<Transaction<'r>> {
        let members = members_in(told.get().as_bytes())?;
        let (first, last) = (number(members.get("first"))?, number(members.get("last"))?);
        let changes: Vec<&RawValue> = serde_json::from_str(members.get("changes")?.get()).ok()?;
        let is_whole = last.checked_sub(first)?.checked_add(1)? == changes.len() as u64;
        is_whole.then(|| Transaction { text: told.get(), first, last, changes, mark: members.get("mark").copied() })
    }
}

impl<'r> Told<'r> {
    /// What a reply to `changes` after this number tells; none if it is a refusal, or leaves one out.
    pub fn of(reply: &'r [u8], after: u64) -> Option<Told<'r>> {
        let members = members_in(reply)?;
        let seq = number(members.get("seq"))?;
        if members.contains_key("gone") {
            return Some(Told::Gone { from: number(members.get("from"))?, seq });
        }
        let all: Vec<&RawValue> = serde_json::from_str(members.get("changes")?.get()).ok()?;
        let transactions: Vec<Transaction> = all.into_iter().map(Transaction::of).collect::<Option<_>>()?;
        let ends = std::iter::once(after).chain(transactions.iter().map(|each| each.last));
        let is_gapless = ends.zip(&transactions).all(|(end, next)| end.checked_add(1) == Some(next.first));
        is_gapless.then(|| Told::Some { transactions, seq })
    }
}

#[cfg(test)]
mod tests {
    use super::{changes_after, Told};

    #[test]
    fn transactions_are_read_as_the_protocol_shows_them() {
        let one = r#"{"changes":[{"cmd":"delete","name":"a"}],"first":3,"last":3}"#;
        let two = r#"{"changes":[{"cmd":"create","doc":"],","name":"b","schema":true},{"cmd":"delete","name":"b"}],"first":4,"last":5,"mark":{"key":"k","value":"\""}}"#;
        let reply = format!("{{\"changes\":[{one},{two}],\"identity\":\"0123\",\"ok\":true,\"seq\":7}}\n");
        let (transactions, seq) = match Told::of(reply.as_bytes(), 2) {
            Some(Told::Some { transactions, seq }) => (transactions, seq),
            other => panic!("{other:?}"),
        };
        assert_eq!((transactions.len(), seq), (2, 7));
        assert_eq!((transactions[0].text, transactions[1].text), (one, two));
        assert_eq!((transactions[1].first, transactions[1].last), (4, 5));
        assert_eq!(transactions[1].changes[1].get(), r#"{"cmd":"delete","name":"b"}"#);
        assert!(transactions[0].mark.is_none());
        assert_eq!(transactions[1].mark.unwrap().get(), r#"{"key":"k","value":"\""}"#);
        // One is missing before them.
        assert!(Told::of(reply.as_bytes(), 1).is_none());
    }

    #[test]
    fn what_is_gone_is_told() {
        let reply = b"{\"from\":4,\"gone\":true,\"ok\":true,\"seq\":9}\n";
        assert!(matches!(Told::of(reply, 0), Some(Told::Gone { from: 4, seq: 9 })));
    }

    #[test]
    fn what_leaves_something_out_tells_nothing() {
        for reply in [
            "",
            r#"{"error":"memory","number":63,"ok":false}"#,
            r#"{"changes":[],"ok":true}"#,
            r#"{"changes":[{"changes":[1],"first":1,"last":2}],"ok":true,"seq":2}"#,
            r#"{"changes":[{"changes":[],"first":1,"last":0}],"ok":true,"seq":2}"#,
            r#"{"changes":[{"changes":[1],"first":1,"last":1},{"changes":[2],"first":3,"last":3}],"ok":true,"seq":3}"#,
        ] {
            assert!(Told::of(reply.as_bytes(), 0).is_none(), "{reply}");
        }
        assert!(matches!(Told::of(br#"{"changes":[],"ok":true,"seq":0}"#, 0), Some(Told::Some { .. })));
        assert_eq!(changes_after(7), "{\"cmd\":\"changes\",\"from\":7,\"max\":4194304}\n");
    }
}
