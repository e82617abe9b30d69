//! Files of stores that aren't open.

use crate::text::c_path;
use crate::{sys, Error, FormatOptions, Status};
use std::path::Path;

/// Makes a file with an empty store: [`FormatOptions::make`] without options.
///
/// # Errors
///
/// Those of [`FormatOptions::make`].
pub fn format(path: impl AsRef<Path>, sectors: u64) -> Result<u64, Error> {
    FormatOptions::new().make(path, sectors)
}

/// Opens the store in a file, reads and judges all of it, and closes it. It counts as an opening, so it writes.
///
/// # Errors
///
/// Those of [`Store::open`](crate::Store::open).
pub fn check(path: impl AsRef<Path>) -> Result<Status, Error> {
    let path = c_path(path.as_ref())?;
    let (mut found, mut cause) = (sys::State::default(), sys::Cause::NONE);
    // SAFETY: the path ends by 0 and isn't kept, and the places for results are here.
    let fault = unsafe { sys::jpstore_check(path.as_ptr(), &mut found, &mut cause) };
    Error::check(fault, &cause).map(|()| found.into())
}

/// Copies the store in a file into a new file of so many sectors, in its format: the documents with their schemas and
/// revisions, and the counts of changes and openings. In format 3 the copy gets another identity. It counts as an opening of
/// the first file.
///
/// # Errors
///
/// Those of [`Store::open`](crate::Store::open) for the first file and of [`FormatOptions::make`] for the new one, which is
/// removed then; [`Reason::NoRoom`](crate::Reason::NoRoom) if the documents don't fit, and
/// [`Fault::Identity`](crate::Fault::Identity) without random bytes.
pub fn copy(
    path: impl AsRef<Path>,
    new_path: impl AsRef<Path>,
    sectors: u64,
) -> Result<Status, Error> {
    copy_in(path, new_path, sectors, 0)
}

/// The same in this format, 2 or 3; 0 is that of the store. Format 2 refuses what only format 3 reads.
///
/// # Errors
///
/// Those of [`copy`], and [`Fault::Arguments`](crate::Fault::Arguments) for another format.
pub fn copy_in(
    path: impl AsRef<Path>,
    new_path: impl AsRef<Path>,
    sectors: u64,
    format: u64,
) -> Result<Status, Error> {
    let (path, new_path) = (c_path(path.as_ref())?, c_path(new_path.as_ref())?);
    let (mut found, mut cause) = (sys::State::default(), sys::Cause::NONE);
    let (from, to) = (path.as_ptr(), new_path.as_ptr());
    // SAFETY: the paths end by 0 and aren't kept, and the places for results are here.
    let fault = unsafe { sys::jpstore_copy_in(from, to, sectors, format, &mut found, &mut cause) };
    Error::check(fault, &cause).map(|()| found.into())
}

/// Brings the store in a file to this format, 2 or 3, and answers the format that it had. It counts as an opening, needs no
/// room, and loses nothing if it is stopped.
///
/// # Errors
///
/// Those of [`Store::open`](crate::Store::open), [`Fault::Arguments`](crate::Fault::Arguments) for another format, and
/// [`Fault::Identity`](crate::Fault::Identity) without random bytes.
pub fn upgrade(path: impl AsRef<Path>, format: u64) -> Result<u64, Error> {
    let path = c_path(path.as_ref())?;
    let (mut before, mut cause) = (0, sys::Cause::NONE);
    // SAFETY: the path ends by 0 and isn't kept, and the places for results are here.
    let fault = unsafe { sys::jpstore_upgrade(path.as_ptr(), format, &mut before, &mut cause) };
    Error::check(fault, &cause).map(|()| before)
}
