use crate::json::{member, parts, text};

/// What a store tells of the changes after a number.
#[derive(Clone, Debug, PartialEq, Eq)]
#[non_exhaustive]
pub enum Changes {
    /// The transactions after it, in order. If there are none, nothing is newer. Ask next from the `last` of the last.
    Known(Vec<Transaction>),
    /// The store doesn't know all of them, but those after this number: read the documents anew.
    Gone(u64),
}

/// Changes that were made together, or one alone.
#[derive(Clone, Debug, PartialEq, Eq)]
#[non_exhaustive]
pub struct Transaction {
    /// The number of the first change.
    pub first: u64,
    /// The number of the last change.
    pub last: u64,
    /// The changes as lines, with sorted members and no blanks.
    pub changes: Vec<String>,
    /// The key and the value of the mark that was set with them.
    pub mark: Option<(String, String)>,
}

impl Changes {
    /// What a list says that the store wrote.
    pub(crate) fn of(list: &str) -> Option<Changes> {
        let transactions: Option<_> = parts(list)?.into_iter().map(Transaction::of).collect();
        transactions.map(Changes::Known)
    }
}

impl Transaction {
    fn of(written: &str) -> Option<Transaction> {
        let members = parts(written)?;
        let changes = parts(member(&members, "changes")?)?;
        let mark = match member(&members, "mark") {
            Some(mark) => Some(key_and_value(mark)?),
            None => None,
        };
        Some(Transaction {
            first: member(&members, "first")?.parse().ok()?,
            last: member(&members, "last")?.parse().ok()?,
            changes: changes.into_iter().map(str::to_owned).collect(),
            mark,
        })
    }
}

fn key_and_value(mark: &str) -> Option<(String, String)> {
    let members = parts(mark)?;
    Some((
        text(member(&members, "key")?)?,
        text(member(&members, "value")?)?,
    ))
}
