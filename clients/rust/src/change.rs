use crate::protocol::{CREATE, DELETE, PATCH, SET_SCHEMA, TRANSACTION};
use crate::sys;
use crate::text::c_text;
use std::ffi::{CStr, CString};
use std::ptr;

/// A change, for [`Store::apply`](crate::Store::apply), [`Store::transaction`](crate::Store::transaction) and
/// [`Store::group`](crate::Store::group).
///
/// Documents, schemas and operations are JSON texts, also over several lines. One that isn't is refused by the store
/// ([`Reason::NotJson`](crate::Reason::NotJson)).
///
/// ```
/// use jpstore::{Change, Store};
///
/// # fn main() -> Result<(), jpstore::Error> {
/// let mut store = Store::in_memory(64)?;
/// // Both, or none.
/// let last = store.transaction(&[
///     Change::create("shelf-1", r#"{"bolts":40}"#, "true"),
///     Change::create("shelf-2", r#"{"nuts":12}"#, "true"),
/// ])?;
/// assert_eq!(last, 2);
/// # Ok(())
/// # }
/// ```
#[derive(Clone, Debug, PartialEq, Eq)]
pub struct Change {
    kind: Kind,
    mark: Option<Marking>,
}

#[derive(Clone, Debug, PartialEq, Eq)]
enum Kind {
    Create(CString, CString, CString),
    Patch(CString, CString, Option<u64>),
    SetSchema(CString, CString),
    Delete(CString),
    Transaction(Vec<Change>),
}

// The mark that is set with a change.
#[derive(Clone, Debug, PartialEq, Eq)]
struct Marking {
    key: CString,
    // None for a text with a character 0, which the library refuses then.
    value: Option<CString>,
    is_asked: bool,
    before: Option<CString>,
}

/// What a change does, with its texts as they were given.
#[derive(Clone, Copy, Debug, PartialEq, Eq)]
#[non_exhaustive]
pub enum ChangeKind<'a> {
    /// That of [`Change::create`].
    Create {
        /// The document.
        name: &'a str,
        /// Its value.
        doc: &'a str,
        /// Its schema.
        schema: &'a str,
    },
    /// That of [`Change::patch`] and [`Change::patch_if`].
    Patch {
        /// The document.
        name: &'a str,
        /// The operations.
        ops: &'a str,
        /// The revision that the document must have.
        if_rev: Option<u64>,
    },
    /// That of [`Change::set_schema`].
    SetSchema {
        /// The document.
        name: &'a str,
        /// Its new schema.
        schema: &'a str,
    },
    /// That of [`Change::delete`].
    Delete {
        /// The document.
        name: &'a str,
    },
    /// That of [`Change::transaction`].
    Transaction(&'a [Change]),
}

impl Change {
    /// Makes a document under a schema; the schema `true` accepts every value.
    pub fn create(name: &str, doc: &str, schema: &str) -> Change {
        Kind::Create(c_text(name), c_text(doc), c_text(schema)).into()
    }

    /// Applies JSON Patch operations (RFC 6902), all or none.
    pub fn patch(name: &str, ops: &str) -> Change {
        Kind::Patch(c_text(name), c_text(ops), None).into()
    }

    /// The same, only if the document has that revision; else it is refused ([`Reason::Revision`](crate::Reason::Revision)).
    ///
    /// Without operations (`[]`) it guards the other changes of a transaction. It counts as a change too.
    pub fn patch_if(name: &str, ops: &str, rev: u64) -> Change {
        Kind::Patch(c_text(name), c_text(ops), Some(rev)).into()
    }

    /// Puts a document under another schema.
    pub fn set_schema(name: &str, schema: &str) -> Change {
        Kind::SetSchema(c_text(name), c_text(schema)).into()
    }

    /// Takes a document away.
    pub fn delete(name: &str) -> Change {
        Kind::Delete(c_text(name)).into()
    }

    /// Makes 1 to 1,024 changes, all or none. A transaction in another one is refused
    /// ([`Reason::Command`](crate::Reason::Command)).
    pub fn transaction(changes: &[Change]) -> Change {
        Kind::Transaction(changes.to_vec()).into()
    }

    /// The same change, which also sets the mark of a key: both are made, or none.
    ///
    /// The value has at most 128 bytes, and no character 0 ([`Fault::Arguments`](crate::Fault::Arguments)). Format 2 has no marks
    /// ([`Reason::Command`](crate::Reason::Command)), and a change in a transaction has none.
    pub fn with_mark(self, key: &str, value: &str) -> Change {
        self.marked(key, value, false, None)
    }

    /// The same, only if the key has the mark `before` now, or with `None` no mark; else it is refused
    /// ([`Reason::Mark`](crate::Reason::Mark)), and [`Refusal::mark`](crate::Refusal::mark) has the present one.
    ///
    /// So a change whose answer was lost may be sent again: it was made if the present mark is its own.
    ///
    /// ```
    /// use jpstore::{Change, Error, FormatOptions, Store};
    ///
    /// // The order of this number takes one bolt, however often it is called.
    /// fn take_one(store: &mut Store, number: u64) -> Result<u64, Error> {
    ///     let bolts: u64 = store.get("shelf-1", "/bolts")?.parse().expect("a number");
    ///     let ops = format!(r#"[{{"op":"replace","path":"/bolts","value":{}}}]"#, bolts - 1);
    ///     let (before, own) = ((number - 1).to_string(), number.to_string());
    ///     let change = Change::patch("shelf-1", &ops).with_mark_if("till-1", &own, Some(&before));
    ///     let made = store.apply(&change);
    ///     match made.as_ref().err().and_then(Error::mark) {
    ///         Some(mark) if mark.value == own => Ok(mark.seq),
    ///         _ => made,
    ///     }
    /// }
    /// # fn main() -> Result<(), Error> {
    /// # let file = std::env::temp_dir().join(format!("jpstore-mark-{}", std::process::id()));
    /// # let _ = std::fs::remove_file(&file);
    /// # FormatOptions::new().format(3).make(&file, 512)?;
    /// # let mut store = Store::open(&file)?;
    /// # store.apply(&Change::create("shelf-1", r#"{"bolts":40}"#, "true").with_mark("till-1", "0"))?;
    /// assert_eq!(take_one(&mut store, 1), Ok(2));
    /// assert_eq!(take_one(&mut store, 1), Ok(2));
    /// assert_eq!(store.get("shelf-1", "/bolts"), Ok("39"));
    /// # std::fs::remove_file(&file).unwrap();
    /// # Ok(())
    /// # }
    /// ```
    pub fn with_mark_if(self, key: &str, value: &str, before: Option<&str>) -> Change {
        self.marked(key, value, true, before)
    }

    fn marked(self, key: &str, value: &str, is_asked: bool, before: Option<&str>) -> Change {
        let (before, value) = match (before.map(CString::new).transpose(), CString::new(value)) {
            (Ok(before), Ok(value)) => (before, Some(value)),
            _ => (None, None),
        };
        let mark = Marking {
            key: c_text(key),
            value,
            is_asked,
            before,
        };
        Change {
            mark: Some(mark),
            ..self
        }
    }

    /// What it does.
    pub fn kind(&self) -> ChangeKind<'_> {
        match &self.kind {
            Kind::Create(name, doc, schema) => ChangeKind::Create {
                name: text(name),
                doc: text(doc),
                schema: text(schema),
            },
            Kind::Patch(name, ops, rev) => ChangeKind::Patch {
                name: text(name),
                ops: text(ops),
                if_rev: *rev,
            },
            Kind::SetSchema(name, schema) => ChangeKind::SetSchema {
                name: text(name),
                schema: text(schema),
            },
            Kind::Delete(name) => ChangeKind::Delete { name: text(name) },
            Kind::Transaction(changes) => ChangeKind::Transaction(changes),
        }
    }
}

impl From<Kind> for Change {
    fn from(kind: Kind) -> Change {
        Change { kind, mark: None }
    }
}

// Each was made of a text in UTF-8.
fn text(text: &CString) -> &str {
    text.to_str().unwrap_or_default()
}

/// Changes as the library takes them. They borrow from what they are made of.
pub struct Words {
    changes: Vec<sys::Change>,
    _inner: Inner,
}

// What the changes point to. It stays in its place when more is added.
#[derive(Default)]
struct Inner {
    changes: Vec<Vec<sys::Change>>,
    #[allow(clippy::vec_box)]
    marks: Vec<Box<sys::Marking>>,
}

impl Words {
    /// The changes have to outlive the words.
    pub fn of(changes: &[Change]) -> Words {
        let mut inner = Inner::default();
        let changes = changes
            .iter()
            .map(|change| change.words(&mut inner))
            .collect();
        Words {
            changes,
            _inner: inner,
        }
    }

    /// One change, that makes all of these or none.
    pub fn of_transaction(changes: &[Change]) -> Words {
        let mut inner = Inner::default();
        let changes = vec![transaction(changes, &mut inner)];
        Words {
            changes,
            _inner: inner,
        }
    }

    pub fn as_ptr(&self) -> *const sys::Change {
        self.changes.as_ptr()
    }
}

const NOTHING: sys::Change = sys::Change {
    kind: 0,
    if_rev: 0,
    rev: 0,
    name: ptr::null(),
    doc: ptr::null(),
    ops: ptr::null(),
    schema: ptr::null(),
    changes: ptr::null(),
    changes_count: 0,
    mark: ptr::null(),
    reserved: [0; 4],
};

// One of this kind, without what it has beside a name.
fn named(kind: i32, name: &CStr) -> sys::Change {
    sys::Change {
        kind,
        name: name.as_ptr(),
        ..NOTHING
    }
}

impl Change {
    fn words(&self, inner: &mut Inner) -> sys::Change {
        let mut words = self.kind.words(inner);
        if let Some(mark) = &self.mark {
            inner.marks.push(Box::new(mark.words()));
            words.mark = inner
                .marks
                .last()
                .map_or(ptr::null(), |mark| &**mark as *const _);
        }
        words
    }
}

impl Marking {
    fn words(&self) -> sys::Marking {
        let pointer =
            |text: &Option<CString>| text.as_ref().map_or(ptr::null(), |text| text.as_ptr());
        sys::Marking {
            key: self.key.as_ptr(),
            value: pointer(&self.value),
            if_mark: self.is_asked.into(),
            before: pointer(&self.before),
            reserved: [0; 2],
        }
    }
}

impl Kind {
    fn words(&self, inner: &mut Inner) -> sys::Change {
        match self {
            Kind::Create(name, doc, schema) => sys::Change {
                doc: doc.as_ptr(),
                schema: schema.as_ptr(),
                ..named(CREATE, name)
            },
            Kind::Patch(name, ops, rev) => sys::Change {
                ops: ops.as_ptr(),
                if_rev: rev.is_some().into(),
                rev: rev.unwrap_or(0),
                ..named(PATCH, name)
            },
            Kind::SetSchema(name, schema) => sys::Change {
                schema: schema.as_ptr(),
                ..named(SET_SCHEMA, name)
            },
            Kind::Delete(name) => named(DELETE, name),
            Kind::Transaction(changes) => transaction(changes, inner),
        }
    }
}

fn transaction(changes: &[Change], inner: &mut Inner) -> sys::Change {
    let own: Vec<sys::Change> = changes.iter().map(|change| change.words(inner)).collect();
    let words = sys::Change {
        kind: TRANSACTION,
        changes: own.as_ptr(),
        changes_count: own.len(),
        ..NOTHING
    };
    inner.changes.push(own);
    words
}
