//! jpstore, a crash-safe store of named JSON documents, in this process.
//!
//! A JSON Schema guards each document. A document is changed by JSON Patch (RFC 6902), and read by JSON Pointer (RFC 6901)
//! and JSONPath (RFC 9535). A change is made whole or not at all, and one that was answered as done is found again after a
//! crash at any moment.
//!
//! ```
//! use jpstore::Store;
//!
//! # fn main() -> Result<(), jpstore::Error> {
//! # let file = std::env::temp_dir().join(format!("jpstore-page-{}", std::process::id()));
//! # let _ = std::fs::remove_file(&file);
//! jpstore::format(&file, 4096)?;
//! let mut store = Store::open(&file)?;
//! store.create("shelf-1", r#"{"bolts":40}"#, r#"{"additionalProperties":{"minimum":0}}"#)?;
//! store.patch("shelf-1", r#"[{"op":"replace","path":"/bolts","value":39}]"#)?;
//! assert_eq!(store.get("shelf-1", "/bolts")?, "39");
//! store.close()?;
//! # std::fs::remove_file(&file).unwrap();
//! # Ok(())
//! # }
//! ```
//!
//! # What is where
//!
//! - [`Store`]: an open store. [`Store::get`], [`Store::query`], [`Store::list`] and others ask; [`Store::create`],
//!   [`Store::patch`], [`Store::transaction`] and others change; [`Store::feed`] sends lines of the program's own protocol.
//! - [`Change`]: a change for [`Store::transaction`] (all or none) and [`Store::group`] (each by itself, in shared commits).
//!   With a [`Mark`] it is made once, however often it is sent ([`Change::with_mark_if`]).
//! - [`Store::changes`]: the transactions after a change, for whoever follows the store.
//! - [`format()`], [`check`], [`copy`], [`copy_in`] and [`upgrade`]: files of stores that aren't open. [`Options`] and
//!   [`FormatOptions`] say how one is opened and made.
//! - [`Error`]: a [`Refusal`] of the store with its [`Reason`], or a [`Fault`] with the system's reason.
//!
//! Documents, schemas, patches and values are JSON texts. The crate `jpstore-serde-json`, beside this one, takes and gives
//! whatever `serde` reads and writes, and makes changes exactly once under a key (`once`). It is a crate of its own and no
//! feature, since cargo looks up optional dependencies too: this crate has none, and builds without a registry.
//!
//! # Threads and forks
//!
//! A [`Store`] may be sent to another thread, and is used by one at a time: put it into a `Mutex` to share it. There are no
//! readers beside a writer, and a change holds the store until the disk has it.
//!
//! ```
//! use jpstore::Store;
//! use std::sync::{Arc, Mutex};
//! use std::thread;
//!
//! # fn main() -> Result<(), jpstore::Error> {
//! let store = Arc::new(Mutex::new(Store::in_memory(64)?));
//! let other = Arc::clone(&store);
//! thread::spawn(move || other.lock().unwrap().create("shelf-1", "1", "true")).join().unwrap()?;
//! assert_eq!(store.lock().unwrap().get("shelf-1", ""), Ok("1"));
//! # Ok(())
//! # }
//! ```
//!
//! A store belongs to the process that opened it: in a child of a fork each call answers [`Fault::Forked`]. A file is opened
//! once at a time, by this process or another ([`Fault::InUse`]).
//!
//! # Linking
//!
//! The crate links `libjpstore.a` from `clients/c/out` beside it, or from the folder in `JPSTORE_LIB`; with
//! `JPSTORE_LINK=shared` the shared library. Elsewhere it links the installed shared library, which pkg-config finds; with
//! `JPSTORE_LINK=static` the static one. It needs Linux on x86-64.
#![deny(
    missing_docs,
    missing_debug_implementations,
    unsafe_op_in_unsafe_fn,
    clippy::undocumented_unsafe_blocks,
    rustdoc::broken_intra_doc_links
)]

mod change;
mod changes;
mod error;
mod file;
mod json;
mod mark;
mod options;
mod protocol;
mod refusal;
mod status;
mod store;
mod sys;
mod system_error;
mod text;

pub use change::{Change, ChangeKind};
pub use changes::{Changes, Transaction};
pub use error::{Error, Fault};
pub use file::{check, copy, copy_in, format, upgrade};
pub use mark::Mark;
pub use options::{FormatOptions, Options};
pub use refusal::{Reason, Refusal};
pub use status::{Status, Step};
pub use store::Store;
pub use system_error::SystemError;

/// The version of the library, and the SHA-256 of the program's object that is in it: `1.0.0 program-sha256:..`.
pub fn version() -> &'static str {
    // SAFETY: the text ends by 0 and is never freed.
    let version = unsafe { std::ffi::CStr::from_ptr(sys::jpstore_version()) };
    version.to_str().unwrap_or("")
}

/// The version of the library as a number: 1000000 for 1.0.0, 1002003 for 1.2.3.
pub fn version_number() -> u32 {
    // SAFETY: the call takes nothing.
    let number = unsafe { sys::jpstore_version_number() };
    u32::try_from(number).unwrap_or(0)
}
