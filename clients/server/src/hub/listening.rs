//! The Unix socket: made for its user alone, and taken away only if it is the one that was made.

use crate::error::{system_words, Error};
use crate::limits::BACKLOG;
use std::fs::{self, Metadata};
use std::io;
use std::os::unix::fs::{FileTypeExt, MetadataExt};
use std::os::unix::io::AsRawFd;
use std::os::unix::net::UnixListener;
use std::path::{Path, PathBuf};
use std::time::{Duration, Instant};
use tokio::net::UnixStream;
use tokio::time::sleep;

/// How long it waits before it looks again whether another program listens.
const PAUSE: Duration = Duration::from_millis(50);

/// Which file is at a path.
type Place = (u64, u64);

/// A socket bound at a path. What a killed server left there is taken away; anything else is an error.
pub struct Listening {
    path: PathBuf,
    made: Option<Place>,
}

impl Listening {
    /// Binds the socket.
    pub async fn at(path: &Path) -> Result<(Listening, UnixListener), Error> {
        let stale = check_free(path).await?;
        // Looked at once more, right before: nothing but that stale socket is ever removed.
        if stale.is_some() && place_of(path) == stale {
            fs::remove_file(path).map_err(|error| no_socket(path, &error))?;
        }
        let listener = bound(path).map_err(|error| no_socket(path, &error))?;
        Ok((Listening { path: path.to_owned(), made: place_of(path) }, listener))
    }
}

impl Drop for Listening {
    /// Takes the socket away, if it is still the one that was made here.
    fn drop(&mut self) {
        if self.made.is_some() && place_of(&self.path) == self.made {
            // If it can't be taken away, the next start does it.
            let _ = fs::remove_file(&self.path);
        }
    }
}

fn bound(path: &Path) -> io::Result<UnixListener> {
    // SAFETY: it only sets a number of this process, which has no other thread yet that makes files.
    let mask = unsafe { libc::umask(0o177) };
    let listener = UnixListener::bind(path);
    // SAFETY: as above.
    unsafe { libc::umask(mask) };
    let listener = listener?;
    // SAFETY: the descriptor is that of the listener, which is open.
    if unsafe { libc::listen(listener.as_raw_fd(), BACKLOG as libc::c_int) } != 0 {
        return Err(io::Error::last_os_error());
    }
    listener.set_nonblocking(true)?;
    Ok(listener)
}

fn no_socket(path: &Path, error: &io::Error) -> Error {
    Error::new(format!("no socket can be made at {}: {}", path.display(), system_words(error)))
}

/// Waits for so long until no other program listens at the path, and tells an error if no socket can be made there then. A
/// server that was killed may have a child that hasn't let go of its socket yet.
pub async fn until_free(path: &Path, wait: Duration) -> Result<(), Error> {
    let until = Instant::now() + wait;
    while has_listener(path).await && Instant::now() < until {
        sleep(PAUSE).await;
    }
    check_free(path).await.map(drop)
}

async fn has_listener(path: &Path) -> bool {
    UnixStream::connect(path).await.map_or_else(|error| error.kind() == io::ErrorKind::WouldBlock, |_| true)
}

/// An error if no socket can be made at the path; else the stale socket that is there, if there is one.
async fn check_free(path: &Path) -> Result<Option<Place>, Error> {
    let shown = path.display();
    let found = match fs::symlink_metadata(path) {
        Ok(found) => found,
        Err(error) if error.kind() == io::ErrorKind::NotFound => return Ok(None),
        Err(error) => return Err(no_socket(path, &error)),
    };
    if !found.file_type().is_socket() {
        let kind = kind_of(&found);
        return Err(Error::new(format!(
            "{shown} is {kind} and not a socket, and is left as it is: choose another path"
        )));
    }
    // It isn't waited until that program takes a connection.
    match UnixStream::connect(path).await {
        Err(error) if matches!(error.kind(), io::ErrorKind::ConnectionRefused | io::ErrorKind::NotFound) => {
            Ok(Some((found.dev(), found.ino())))
        }
        Err(error) if error.kind() != io::ErrorKind::WouldBlock => {
            let told = system_words(&error);
            Err(Error::new(format!("{shown} is a socket that cannot be looked at: {told}")))
        }
        _ => Err(Error::new(format!(
            "another program listens at {shown}: connect to it, end it, or choose another path"
        ))),
    }
}

fn place_of(path: &Path) -> Option<Place> {
    let found = fs::symlink_metadata(path).ok()?;
    found.file_type().is_socket().then(|| (found.dev(), found.ino()))
}

fn kind_of(found: &Metadata) -> &'static str {
    let kind = found.file_type();
    if kind.is_file() {
        "a file"
    } else if kind.is_dir() {
        "a folder"
    } else if kind.is_symlink() {
        "a symbolic link"
    } else {
        "a device or a pipe"
    }
}
