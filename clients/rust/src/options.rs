use crate::text::c_path;
use crate::{sys, Error, Store};
use std::ffi::CString;
use std::path::Path;
use std::ptr::NonNull;

/// How a store is served.
///
/// ```no_run
/// # fn main() -> Result<(), jpstore::Error> {
/// let store = jpstore::Options::new().batch(64).pump(16).open("inventory")?;
/// # Ok(())
/// # }
/// ```
#[derive(Clone, Copy, Debug, Default, PartialEq, Eq)]
pub struct Options {
    batch: u64,
    pump: u64,
}

impl Options {
    /// Each change has a commit of its own, and snapshots aren't copied between changes.
    pub fn new() -> Options {
        Options::default()
    }

    /// Up to so many changes of a [`Store::group`] or [`Store::feed`] share a commit, 1 to 1024.
    pub fn batch(mut self, changes: u64) -> Options {
        self.batch = changes;
        self
    }

    /// Copies so many sectors of a snapshot after each change, 1 to 1000000, while over half of the room is used.
    pub fn pump(mut self, sectors: u64) -> Options {
        self.pump = sectors;
        self
    }

    /// Opens the store in a file, as [`Store::open`] does.
    ///
    /// # Errors
    ///
    /// Those of [`Store::open`], and [`Fault::Arguments`](crate::Fault::Arguments) for a number out of its range.
    pub fn open(self, path: impl AsRef<Path>) -> Result<Store, Error> {
        let path = c_path(path.as_ref())?;
        let words = sys::Options {
            batch: self.batch,
            pump: self.pump,
            ..Default::default()
        };
        Store::opened(self.batch > 1, |store, cause| {
            // SAFETY: the path ends by 0; it and the options aren't kept, and the places for results are the caller's.
            unsafe { sys::jpstore_open(path.as_ptr(), &words, store, cause) }
        })
    }
}

/// How a new file is made.
///
/// ```no_run
/// # fn main() -> Result<(), jpstore::Error> {
/// jpstore::FormatOptions::new().format(3).mode(0o640).make("inventory", 4096)?;
/// # Ok(())
/// # }
/// ```
#[derive(Clone, Copy, Debug, Default, PartialEq, Eq)]
pub struct FormatOptions {
    format: u64,
    sparse: bool,
    mode: u64,
    identity: Option<u128>,
}

impl FormatOptions {
    /// A file of format 2, written whole, that its owner alone reads and writes.
    pub fn new() -> FormatOptions {
        FormatOptions::default()
    }

    /// The format of the file, 2 or 3. In format 3 a small commit waits for one sync of the disk, and not for two.
    pub fn format(mut self, format: u64) -> FormatOptions {
        self.format = format;
        self
    }

    /// Whether the empty store alone is written, so that a full disk may refuse changes
    /// ([`Reason::Device`](crate::Reason::Device)), and not the whole file.
    pub fn sparse(mut self, sparse: bool) -> FormatOptions {
        self.sparse = sparse;
        self
    }

    /// The file's permission bits, up to 0o777, less the umask.
    pub fn mode(mut self, mode: u64) -> FormatOptions {
        self.mode = mode;
        self
    }

    /// The identity of the store in format 3, which no other store may have. Without it, it is 16 random bytes of the system.
    pub fn identity(mut self, identity: u128) -> FormatOptions {
        self.identity = Some(identity);
        self
    }

    /// Makes a file, which must not exist, with an empty store of so many sectors of 512 bytes, from 3 to 2^32. Answers how
    /// many bytes one half has room for.
    ///
    /// # Errors
    ///
    /// [`Fault::File`](crate::Fault::File) if the file exists already, or can't be made;
    /// [`Fault::NoSpace`](crate::Fault::NoSpace) on a full disk; [`Fault::Arguments`](crate::Fault::Arguments) for a number
    /// out of its range; [`Fault::Identity`](crate::Fault::Identity) without random bytes.
    pub fn make(self, path: impl AsRef<Path>, sectors: u64) -> Result<u64, Error> {
        let path = c_path(path.as_ref())?;
        let id = self.identity.map(hexadecimal);
        let words = sys::FormatOptions {
            format: self.format,
            sparse: self.sparse.into(),
            mode: self.mode,
            id: id
                .as_ref()
                .and_then(|id| NonNull::new(id.as_ptr() as *mut _)),
            ..Default::default()
        };
        let (mut capacity, mut cause) = (0, sys::Cause::NONE);
        // SAFETY: the path and the identity end by 0; they and the options aren't kept, and the places for results are here.
        let fault = unsafe {
            sys::jpstore_format(path.as_ptr(), sectors, &words, &mut capacity, &mut cause)
        };
        Error::check(fault, &cause).map(|()| capacity)
    }
}

/// The 32 digits of an identity.
fn hexadecimal(identity: u128) -> CString {
    CString::new(format!("{identity:032x}")).expect("digits")
}
