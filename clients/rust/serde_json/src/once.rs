use crate::Error;
use jpstore::{Change, ChangeKind, Store};
use serde_json::{json, Value};
use sha2::{Digest, Sha256};
use std::fmt::Write;

/// Changes that are made exactly once under a key, in a store of format 3.
pub trait Once {
    /// Makes changes, all or none, but only if no call with this key has made them before, here or in Python (`store.once`).
    /// Answers the number of the last change, also if they were made before.
    ///
    /// The key is a text for this one piece of work, such as `order-1234`. A mark is set with the changes: its key is `once-`
    /// and 40 digits, its value 40 digits, the first of the SHA-256 in hexadecimal of the key, and of the list of the changes in
    /// compact text. So after a lost answer, or a kill, the same call may be made again. A key is known until 1,024 others were
    /// used; then its changes would be made again.
    ///
    /// ```
    /// use jpstore::{Change, Store};
    /// use jpstore_serde_json::Once;
    ///
    /// # fn main() -> Result<(), jpstore_serde_json::Error> {
    /// # let file = std::env::temp_dir().join(format!("jpstore-once-page-{}", std::process::id()));
    /// # let _ = std::fs::remove_file(&file);
    /// jpstore::FormatOptions::new().format(3).make(&file, 4096)?;
    /// let mut store = Store::open(&file)?;
    /// let changes = [Change::create("order-1234", r#"{"bolts":4}"#, "true")];
    /// assert_eq!(store.once("order-1234", &changes)?, 1);
    /// assert_eq!(store.once("order-1234", &changes)?, 1);
    /// # std::fs::remove_file(&file).unwrap();
    /// # Ok(())
    /// # }
    /// ```
    ///
    /// # Errors
    ///
    /// As [`Store::transaction`]; [`Reason::Mark`](jpstore::Reason::Mark) if the key was used for other changes;
    /// [`Reason::Name`](jpstore::Reason::Name) for an empty key; [`Reason::Command`](jpstore::Reason::Command) in format 2, which
    /// has no marks; and [`Error::Json`] for a text that is no JSON.
    fn once(&mut self, key: &str, changes: &[Change]) -> Result<u64, Error>;
}

impl Once for Store {
    fn once(&mut self, key: &str, changes: &[Change]) -> Result<u64, Error> {
        // The store refuses the key of a mark that is empty.
        let place = match key {
            "" => String::new(),
            _ => format!("once-{}", digest(key)),
        };
        let value = digest(&list_of(changes)?);
        let transaction = Change::transaction(changes).with_mark_if(&place, &value, None);
        let made = self.apply(&transaction);
        match made.as_ref().err().and_then(jpstore::Error::mark) {
            Some(mark) if mark.value == value => Ok(mark.seq),
            _ => Ok(made?),
        }
    }
}

fn digest(text: &str) -> String {
    let mut digits = String::new();
    for byte in &Sha256::digest(text)[..20] {
        // A text takes all that is written.
        let _ = write!(digits, "{byte:02x}");
    }
    digits
}

fn list_of(changes: &[Change]) -> Result<String, serde_json::Error> {
    let commands: Result<Vec<Value>, _> = changes.iter().map(command).collect();
    commands.map(|commands| Value::from(commands).to_string())
}

// Members are written in byte order of their names.
fn command(change: &Change) -> Result<Value, serde_json::Error> {
    Ok(match change.kind() {
        ChangeKind::Create { name, doc, schema } => {
            json!({"cmd": "create", "doc": read(doc)?, "name": name, "schema": read(schema)?})
        }
        ChangeKind::Patch {
            name,
            ops,
            if_rev: None,
        } => json!({"cmd": "patch", "name": name, "ops": read(ops)?}),
        ChangeKind::Patch { name, ops, if_rev } => {
            json!({"cmd": "patch", "if_rev": if_rev, "name": name, "ops": read(ops)?})
        }
        ChangeKind::SetSchema { name, schema } => {
            json!({"cmd": "schema", "name": name, "schema": read(schema)?})
        }
        ChangeKind::Delete { name } => json!({"cmd": "delete", "name": name}),
        // The store refuses a transaction within another.
        _ => Value::Null,
    })
}

fn read(text: &str) -> Result<Value, serde_json::Error> {
    serde_json::from_str(text).map(sorted)
}

// Another crate may have asked `serde_json` to keep the order of members.
fn sorted(value: Value) -> Value {
    match value {
        Value::Array(values) => values.into_iter().map(sorted).collect(),
        Value::Object(members) => {
            let mut members: Vec<_> = members.into_iter().collect();
            members.sort_by(|one, other| one.0.cmp(&other.0));
            let members = members
                .into_iter()
                .map(|(name, value)| (name, sorted(value)));
            Value::Object(members.collect())
        }
        other => other,
    }
}
