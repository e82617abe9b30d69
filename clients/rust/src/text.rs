//! Texts that end by 0.

use crate::{Error, Fault};
use std::ffi::CString;
use std::os::unix::ffi::OsStrExt;
use std::path::Path;

pub fn c_path(path: &Path) -> Result<CString, Error> {
    CString::new(path.as_os_str().as_bytes()).map_err(|_| Fault::Arguments.into())
}

/// A place of a document. A character 0 in it may be that of a member's name, for which these texts have nothing.
pub fn c_place(place: &str) -> Result<CString, Error> {
    CString::new(place).map_err(|_| Fault::Arguments.into())
}

/// A name, a query or a JSON text. None has a character 0: it becomes another one that none has, and is refused like it.
pub fn c_text(text: &str) -> CString {
    CString::new(text).unwrap_or_else(|_| {
        let bytes = text.bytes().map(|byte| byte.max(1)).collect();
        // SAFETY: no byte is 0.
        unsafe { CString::from_vec_unchecked(bytes) }
    })
}
