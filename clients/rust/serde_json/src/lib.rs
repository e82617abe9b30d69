//! Calls of [`jpstore::Store`] with whatever `serde` reads and writes: types of your own, collections, and
//! [`serde_json::Value`].
//!
//! ```
//! use jpstore::Store;
//! use jpstore_serde_json::Values;
//! use serde::{Deserialize, Serialize};
//! use serde_json::json;
//!
//! #[derive(Debug, Deserialize, PartialEq, Serialize)]
//! struct Shelf {
//!     bolts: i64,
//!     nuts: i64,
//! }
//!
//! # fn main() -> Result<(), jpstore_serde_json::Error> {
//! let mut store = Store::in_memory(64)?;
//! let schema = json!({"additionalProperties": {"type": "integer", "minimum": 0}});
//! store.create_value("shelf-1", &Shelf { bolts: 40, nuts: 12 }, &schema)?;
//! store.patch_value("shelf-1", &json!([{"op": "replace", "path": "/nuts", "value": 11}]))?;
//! assert_eq!(store.get_value::<Shelf>("shelf-1", "")?, Shelf { bolts: 40, nuts: 11 });
//! assert_eq!(store.get_value::<i64>("shelf-1", "/nuts")?, 11);
//! # Ok(())
//! # }
//! ```
//!
//! It is a crate of its own and no feature of `jpstore`, since cargo looks up optional dependencies too: `jpstore` has none,
//! and builds without a registry.
//!
//! [`Once`] makes changes exactly once under a key.
//!
//! Numbers are whole: a value with a fraction is refused by the store ([`jpstore::Reason::Number`]).
#![deny(
    missing_docs,
    missing_debug_implementations,
    rustdoc::broken_intra_doc_links
)]
#![forbid(unsafe_code)]

mod once;

pub use once::Once;

use jpstore::{Change, Store};
use serde::de::DeserializeOwned;
use serde::{Deserialize, Serialize};
use std::fmt;

/// Why a call wasn't done.
#[derive(Debug)]
#[non_exhaustive]
pub enum Error {
    /// The store refuses it, or has a fault.
    Store(jpstore::Error),
    /// A value can't be written as JSON, as a map whose keys are no texts, or a text is no JSON: nothing was sent. Or what the
    /// store has isn't of the type that was asked for.
    Json(serde_json::Error),
}

impl Error {
    /// The number of the store's refusal, if it is one.
    pub fn number(&self) -> Option<u16> {
        match self {
            Error::Store(error) => error.number(),
            Error::Json(_) => None,
        }
    }
}

impl fmt::Display for Error {
    fn fmt(&self, f: &mut fmt::Formatter<'_>) -> fmt::Result {
        match self {
            Error::Store(error) => error.fmt(f),
            Error::Json(_) => f.write_str("a value isn't of its type"),
        }
    }
}

impl std::error::Error for Error {
    fn source(&self) -> Option<&(dyn std::error::Error + 'static)> {
        match self {
            Error::Store(error) => error.source(),
            Error::Json(error) => Some(error),
        }
    }
}

impl From<jpstore::Error> for Error {
    fn from(error: jpstore::Error) -> Error {
        Error::Store(error)
    }
}

impl From<serde_json::Error> for Error {
    fn from(error: serde_json::Error) -> Error {
        Error::Json(error)
    }
}

/// A node that a query selected.
#[derive(Clone, Debug, PartialEq, Eq, Deserialize)]
pub struct Node<T> {
    /// Its normalized path (RFC 9535, section 2.7).
    pub path: String,
    /// Its value.
    pub value: T,
}

/// The calls of a store that have documents, schemas, patches and values, with values in the place of texts.
///
/// # Errors
///
/// Each is answered [`Error::Store`] as the call of the same name without `_value`, and [`Error::Json`] for a value that isn't of
/// its type.
pub trait Values {
    /// Makes a document under a schema, and answers the store's new `seq`; the schema `true` accepts every value.
    fn create_value<D, S>(&mut self, name: &str, doc: &D, schema: &S) -> Result<u64, Error>
    where
        D: Serialize + ?Sized,
        S: Serialize + ?Sized;

    /// Applies JSON Patch operations (RFC 6902), all or none.
    fn patch_value<O>(&mut self, name: &str, ops: &O) -> Result<u64, Error>
    where
        O: Serialize + ?Sized;

    /// Puts another value in the place of a whole document.
    fn replace_value<D>(&mut self, name: &str, doc: &D) -> Result<u64, Error>
    where
        D: Serialize + ?Sized;

    /// The value at a place of a document (RFC 6901); the empty place is the whole document.
    fn get_value<T>(&mut self, name: &str, place: &str) -> Result<T, Error>
    where
        T: DeserializeOwned;

    /// The nodes that a JSONPath query (RFC 9535) selects, in order.
    fn query_values<T>(&mut self, name: &str, query: &str) -> Result<Vec<Node<T>>, Error>
    where
        T: DeserializeOwned;
}

#[derive(Serialize)]
struct Replace<'a, D: ?Sized> {
    op: &'static str,
    path: &'static str,
    value: &'a D,
}

impl Values for Store {
    fn create_value<D, S>(&mut self, name: &str, doc: &D, schema: &S) -> Result<u64, Error>
    where
        D: Serialize + ?Sized,
        S: Serialize + ?Sized,
    {
        let (doc, schema) = (serde_json::to_string(doc)?, serde_json::to_string(schema)?);
        Ok(self.apply(&Change::create(name, &doc, &schema))?)
    }

    fn patch_value<O>(&mut self, name: &str, ops: &O) -> Result<u64, Error>
    where
        O: Serialize + ?Sized,
    {
        Ok(self.apply(&Change::patch(name, &serde_json::to_string(ops)?))?)
    }

    fn replace_value<D>(&mut self, name: &str, doc: &D) -> Result<u64, Error>
    where
        D: Serialize + ?Sized,
    {
        self.patch_value(
            name,
            &[Replace {
                op: "replace",
                path: "",
                value: doc,
            }],
        )
    }

    fn get_value<T>(&mut self, name: &str, place: &str) -> Result<T, Error>
    where
        T: DeserializeOwned,
    {
        Ok(serde_json::from_str(self.get(name, place)?)?)
    }

    fn query_values<T>(&mut self, name: &str, query: &str) -> Result<Vec<Node<T>>, Error>
    where
        T: DeserializeOwned,
    {
        Ok(serde_json::from_str(self.query(name, query)?)?)
    }
}
