//! The larger file of a store that is served: how it is made, and how it takes the other's name.
//!
//! It is made in a folder beside the store's file, and gets the name of that by a renaming, when it has all its changes.
//! So at each moment the name leads to a file with every change that was answered.

use super::start::said_by;
use crate::error::{system_words, Error};
use crate::lines::replies::Status;
use std::fs::{self, DirBuilder, File, OpenOptions, Permissions};
use std::io::{self, Read};
use std::os::unix::ffi::OsStrExt;
use std::os::unix::fs::{DirBuilderExt, FileExt, MetadataExt, OpenOptionsExt, PermissionsExt};
use std::os::unix::io::AsRawFd;
use std::path::{Path, PathBuf};
use std::process::Stdio;
use tokio::process::Command;
use tokio::sync::watch;

/// The bytes of a sector.
const SECTOR: u64 = 512;
const PIECE: u64 = 1 << 20;

/// The folder is called as the store's file, with this and what makes the name its own.
const FOLDER: &str = ".growing-";
const OWN_LETTERS: usize = 8;
const NAMES: [&str; 2] = ["from", "to"];

/// Why the larger file did not take the other's place.
#[derive(Debug)]
pub enum Fault {
    /// The store is served on as it was.
    Refused(String),
    /// The larger file has the name, and the disk refused to keep that: no further change may be answered.
    Unsettled(String),
}

impl From<Error> for Fault {
    fn from(error: Error) -> Fault {
        Fault::Refused(error.to_string())
    }
}

/// A larger file for a store, whose program is kept running until the larger one has its name.
pub struct Larger {
    file: PathBuf,
    old: File,
    folder: PathBuf,
    sectors: u64,
    /// The identity of a store of format 3; format 2 has none.
    identity: Option<u128>,
    /// How many bytes at the beginning of the other file say what is committed.
    head: u64,
}

impl Larger {
    /// A folder for a file of so many sectors; an error if the store's file can't be replaced by that.
    pub fn beside(file: &Path, sectors: u64) -> Result<Larger, Error> {
        // A renaming would replace a symbolic link, and not what it leads to.
        let told = |error| Error::of_path(file, error);
        let file = fs::canonicalize(file).map_err(told)?;
        let old = OpenOptions::new().read(true).write(true).open(&file).map_err(told)?;
        check(&file, &old, sectors)?;
        remove_leftovers(&file);
        let folder = new_folder(&file).map_err(told)?;
        Ok(Larger { file, old, folder, sectors, identity: None, head: 0 })
    }

    /// The larger file, until it has the other's name.
    pub fn path(&self) -> PathBuf {
        self.folder.join(NAMES[1])
    }

    fn base(&self) -> PathBuf {
        self.folder.join(NAMES[0])
    }

    /// Copies what the store, which has this status, has now, while nobody writes it.
    pub fn take(&mut self, status: &Status) -> Result<(), Error> {
        let (head, begin) = begins_of(status);
        (self.identity, self.head) = (status.identity, head);
        let base = self.base();
        let told = |error| Error::of_path(&base, error);
        remove_if_there(&base).map_err(told)?;
        let made = OpenOptions::new().write(true).create_new(true).mode(0o600).open(&base).map_err(told)?;
        give_rights(&self.old, &made).map_err(told)?;
        made.set_len(status.sectors * SECTOR).map_err(told)?;
        copy_bytes(&self.old, &made, 0, head).map_err(told)?;
        copy_bytes(&self.old, &made, begin, begin + status.used).map_err(told)
    }

    /// Makes the larger file of that, in the same format, unless it is stopped. It is the same store, so it keeps its
    /// identity.
    pub async fn copy(&self, program: &Path, stop: &mut watch::Receiver<bool>) -> Result<(), Error> {
        remove_if_there(&self.path()).map_err(|error| Error::of_path(self.path(), error))?;
        let (from, to, sectors) = (self.base(), self.path(), self.sectors.to_string());
        let mut made = Command::new(program);
        made.arg("copy").arg(&from).arg(&to).args(["--sectors", &sectors, "--why"]);
        if let Some(identity) = self.identity {
            made.args(["--format", "3", "--id", &format!("{identity:032x}")]);
        }
        run(made, stop).await?;
        fs::remove_file(&from).map_err(|error| Error::of_path(&from, error))
    }

    /// Gives the larger file the name of the other, which is no store any more then.
    ///
    /// Both are locked by their programs, so nobody else changes one of them meanwhile. Who has opened the other under its
    /// name, and waits for its lock, finds no store in it.
    pub fn replace(&self) -> Result<(), Fault> {
        check(&self.file, &self.old, self.sectors)?;
        let told = |error| Error::of_path(&self.file, error);
        sync_folder(&self.folder).map_err(told)?;
        fs::rename(self.path(), &self.file).map_err(told)?;
        if let Err(error) = sync_folder(folder_of(&self.file)) {
            let told = format!("the folder of {} can't be synced: {}", self.file.display(), system_words(&error));
            return Err(Fault::Unsettled(told));
        }
        // If that fails, the other file keeps what it had, and no name leads to it.
        let _ = self.old.write_all_at(&vec![0; self.head as usize], 0);
        Ok(())
    }
}

impl Drop for Larger {
    /// Removes what is left of it.
    fn drop(&mut self) {
        remove_folder(&self.folder);
    }
}

/// An error if the store's file isn't the one that is served, has another name too, or isn't smaller.
fn check(file: &Path, old: &File, sectors: u64) -> Result<(), Error> {
    let told = |error| Error::of_path(file, error);
    let (opened, named) = (old.metadata().map_err(told)?, fs::metadata(file).map_err(told)?);
    let shown = file.display();
    if (opened.dev(), opened.ino()) != (named.dev(), named.ino()) {
        let told = format!("{shown} is another file than the one that is served: end what serves it");
        return Err(Error::new(told));
    }
    if named.nlink() != 1 {
        let told =
            format!("{shown} has another name too (a hard link), which would keep the smaller file: remove that name");
        return Err(Error::new(told));
    }
    if sectors.saturating_mul(SECTOR) <= named.len() {
        let told = format!("it has {} sectors already: choose a larger number", with_commas(named.len() / SECTOR));
        return Err(Error::new(told));
    }
    Ok(())
}

/// A number as people read it.
pub fn with_commas(number: u64) -> String {
    let digits = number.to_string();
    let commas = |place: usize| if place > 0 && (digits.len() - place) % 3 == 0 { "," } else { "" };
    digits.char_indices().map(|(place, digit)| format!("{}{digit}", commas(place))).collect()
}

fn folder_of(file: &Path) -> &Path {
    file.parent().unwrap_or_else(|| Path::new("/"))
}

fn new_folder(file: &Path) -> io::Result<PathBuf> {
    let mut random = [0; OWN_LETTERS / 2];
    File::open("/dev/urandom")?.read_exact(&mut random)?;
    let own: String = random.iter().map(|byte| format!("{byte:02x}")).collect();
    let mut path = file.as_os_str().to_owned();
    path.push(format!("{FOLDER}{own}"));
    DirBuilder::new().mode(0o700).create(&path)?;
    Ok(path.into())
}

fn remove_if_there(path: &Path) -> io::Result<()> {
    match fs::remove_file(path) {
        Err(error) if error.kind() != io::ErrorKind::NotFound => Err(error),
        _ => Ok(()),
    }
}

/// Gives a file the owner and the permission bits of another one.
fn give_rights(old: &File, made: &File) -> io::Result<()> {
    let told = old.metadata()?;
    // SAFETY: the descriptor is that of the file, which is open.
    let given = unsafe { libc::fchown(made.as_raw_fd(), told.uid(), told.gid()) };
    let error = io::Error::last_os_error();
    // Only root may give a file away.
    if given != 0 && error.raw_os_error() != Some(libc::EPERM) {
        return Err(error);
    }
    made.set_permissions(Permissions::from_mode(told.mode() & 0o777))
}

/// The end of the commit sector, or of the slots, in the file of a store with this status, and the beginning of the half in
/// force (`docs/inside/FORMAT.md`).
fn begins_of(status: &Status) -> (u64, u64) {
    let (first, unit) = if status.identity.is_some() { (128, 8) } else { (1, 1) };
    let sectors_of_half = unit * (status.sectors.saturating_sub(first) / (2 * unit));
    (SECTOR * first, SECTOR * (first + status.half * sectors_of_half))
}

/// Copies bytes of a file to the same place in another one, as far as there are some.
fn copy_bytes(from: &File, to: &File, begin: u64, end: u64) -> io::Result<()> {
    let mut piece = Vec::new();
    let mut place = begin;
    while place < end {
        piece.resize(PIECE.min(end - place) as usize, 0);
        let count = from.read_at(&mut piece, place)?;
        if count == 0 {
            return Ok(());
        }
        to.write_all_at(&piece[..count], place)?;
        place += count as u64;
    }
    Ok(())
}

fn sync_folder(folder: &Path) -> io::Result<()> {
    File::open(folder)?.sync_all()
}

/// Runs the program to its end; an error if that isn't well, or if it is stopped.
async fn run(mut command: Command, stop: &mut watch::Receiver<bool>) -> Result<(), Error> {
    command.stdin(Stdio::null()).stdout(Stdio::null()).stderr(Stdio::piped()).kill_on_drop(true);
    super::start::set_apart(&mut command);
    let mut child =
        command.spawn().map_err(|error| Error::new(format!("a copy can't begin: {}", system_words(&error))))?;
    let said = child.stderr.take().map(said_by);
    let status = tokio::select! {
        status = child.wait() => status.ok(),
        _ = stop.changed() => {
            // It may have ended by itself.
            let _ = child.kill().await;
            return Err(Error::new("the server ends"));
        }
    };
    if status.map_or(false, |status| status.success()) {
        return Ok(());
    }
    let said = match said {
        Some(said) => said.await.unwrap_or_default(),
        None => String::new(),
    };
    Err(Error::new(format!("the copy ended with an error: {}", said.trim())))
}

/// Removes what a killed growth of this store left. Nobody else may grow it now, since it is served here.
pub fn remove_leftovers(file: &Path) {
    let file = match fs::canonicalize(file) {
        Ok(file) => file,
        Err(_) => return,
    };
    let begin = [file.file_name().unwrap_or_default().as_bytes(), FOLDER.as_bytes()].concat();
    // What can't be listed is left, as it was.
    for entry in fs::read_dir(folder_of(&file)).into_iter().flatten().flatten() {
        let name = entry.file_name();
        if name.as_bytes().strip_prefix(&begin[..]).map_or(false, is_own) {
            remove_folder(&entry.path());
        }
    }
}

fn is_own(letters: &[u8]) -> bool {
    let is_letter = |letter: &u8| letter.is_ascii_lowercase() || letter.is_ascii_digit() || *letter == b'_';
    letters.len() == OWN_LETTERS && letters.iter().all(is_letter)
}

/// Removes a folder that has nothing but what a growth makes. What can't be removed is left for the next start.
fn remove_folder(folder: &Path) {
    let entries = fs::read_dir(folder).and_then(Iterator::collect::<io::Result<Vec<_>>>);
    let entries = entries.unwrap_or_default();
    if entries.iter().any(|entry| !NAMES.iter().any(|name| entry.file_name() == *name)) {
        return;
    }
    for entry in entries {
        let _ = fs::remove_file(entry.path());
    }
    let _ = fs::remove_dir(folder);
}

#[cfg(test)]
mod tests {
    use super::{begins_of, is_own, with_commas, Status};

    #[test]
    fn numbers_are_in_groups_of_three() {
        let told: Vec<String> = [0, 999, 1000, 123_456, 1_234_567].into_iter().map(with_commas).collect();
        assert_eq!(told, ["0", "999", "1,000", "123,456", "1,234,567"]);
    }

    #[test]
    fn halves_begin_as_the_formats_lay_them_out() {
        let begins = |identity: Option<u128>, sectors: u64, half: u64| {
            begins_of(&Status { identity, sectors, half, ..Status::default() })
        };
        assert_eq!((begins(None, 9, 0), begins(None, 9, 1)), ((512, 512), (512, 2560)));
        assert_eq!(begins(None, 10, 1), (512, 2560));
        assert_eq!((begins(Some(0), 160, 0), begins(Some(0), 160, 1)), ((65536, 65536), (65536, 73728)));
        assert_eq!(begins(Some(0), 175, 1), (65536, 73728));
    }

    #[test]
    fn only_the_folder_of_a_growth_is_one() {
        assert!(is_own(b"0a_9zzzz") && !is_own(b"0a9zzzz") && !is_own(b"0A9zzzzz"));
    }
}
