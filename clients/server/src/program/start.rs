//! How the program is found and started, and how it ended.

use super::complaints::{cause_in, to_do, what_to_do};
use super::pipes::Pipes;
use crate::error::{system_words, Error};
use crate::lines::replies::Status;
use crate::lines::STATUS;
use crate::refusals::{by_number, Refusal};
use std::io;
use std::os::unix::ffi::OsStrExt;
use std::os::unix::process::ExitStatusExt;
use std::path::{Path, PathBuf};
use std::process::{ExitStatus, Stdio};
use std::time::{Duration, Instant};
use tokio::io::AsyncReadExt;
use tokio::process::{Child, ChildStderr, Command};
use tokio::task::JoinHandle;

/// The most changes of a group.
const GROUP: &str = "1024";

/// How long it waits before it looks again whether a file is free.
const PAUSE: Duration = Duration::from_millis(50);

/// The most that is kept of what it says on standard error.
const MOST_SAID: u64 = 1 << 16;

/// The program that serves a store, and the ends of its pipes.
pub struct Program {
    /// Its standard input and output.
    pub pipes: Pipes,
    /// Where the program is.
    pub path: PathBuf,
    /// The file of the store.
    pub store: PathBuf,
    /// The sectors of a step that it makes of a snapshot after a group of changes.
    pub pump: u64,
    /// What it said of the store when it had opened it.
    pub opened: Status,
    child: Child,
    words: String,
    said: JoinHandle<String>,
}

/// The path of the program: the one that is named, or `jpstore` beside this server or on PATH.
pub fn find(named: Option<&Path>) -> Result<PathBuf, Error> {
    let name = named.unwrap_or_else(|| Path::new("jpstore"));
    let own = std::env::current_exe().ok().and_then(|own| own.parent().map(Path::to_owned)).filter(|_| named.is_none());
    let path = std::env::var_os("PATH").unwrap_or_default();
    let folders = own.into_iter().chain(std::env::split_paths(&path));
    let mut places: Vec<PathBuf> = if name.components().count() > 1 {
        vec![name.to_owned()]
    } else {
        folders.map(|folder| folder.join(name)).collect()
    };
    places.retain(|place| is_program(place));
    let missing = if named.is_some() { "a program" } else { "on PATH" };
    let told = || Error::new(format!("{} is not {missing}", name.display()));
    places.into_iter().next().ok_or_else(told)
}

fn is_program(path: &Path) -> bool {
    use std::os::unix::fs::PermissionsExt;
    path.metadata().map_or(false, |found| found.is_file() && found.permissions().mode() & 0o111 != 0)
}

/// The program, once it has opened the store. After each group of changes it makes a step of `pump` sectors of a snapshot,
/// while a half fills. A file that is in use is waited for.
pub async fn start(program: &Path, store: &Path, pump: u64, wait: Duration) -> Result<Program, Error> {
    let until = Instant::now() + wait;
    loop {
        let mut started = spawn(program, store, pump)?;
        if let Ok(told) = started.pipes.exchange(STATUS, 1).await {
            started.opened = Status::of(&told[0]).ok_or_else(|| no_status(program, &told[0]))?;
            return Ok(started);
        }
        let ended = started.ended().await;
        if !ended.said.contains("jpstore: in-use") {
            let refused = refused_in(&ended.said).map_or(String::new(), |_| format!("{}: ", store.display()));
            return Err(Error::new(format!("{refused}{ended}")));
        }
        if Instant::now() >= until {
            let (store, to_do) = (store.display(), what_to_do("in-use"));
            return Err(Error::new(format!("{store} is in use: another program has it open ({ended}){to_do}")));
        }
        tokio::time::sleep(PAUSE).await;
    }
}

fn no_status(program: &Path, told: &[u8]) -> Error {
    Error::new(format!("{} answered to `status`: {}", program.display(), String::from_utf8_lossy(told).trim_end()))
}

/// Has the program make the file of a store, of that size, unless something has its name already.
pub async fn make(program: &Path, store: &Path, size: Option<&str>) -> Result<(), Error> {
    if store.symlink_metadata().is_ok() {
        return Ok(());
    }
    let file = word_of(store);
    let mut command = Command::new(program);
    command.arg("new").arg(&file).args(size.map_or(vec!["--why"], |size| vec!["--size", size, "--why"]));
    command.stdin(Stdio::null()).kill_on_drop(true);
    set_apart(&mut command);
    let done = command.output().await.map_err(|error| cannot_begin(program, &error))?;
    let words = format!("{} new {}", program.display(), file.display());
    let ended = Ended { words, status: Some(done.status), said: String::from_utf8_lossy(&done.stderr).into_owned() };
    // Another process may have been faster.
    if ended.is_well() || cause_in(&ended.said).map_or(false, |cause| cause.word == "exists") {
        return Ok(());
    }
    Err(Error::new(ended.to_string()))
}

/// The path of a file as a word: one that begins with a hyphen isn't taken for an option.
fn word_of(file: &Path) -> PathBuf {
    let is_option = file.as_os_str().as_bytes().starts_with(b"-");
    if is_option {
        Path::new(".").join(file)
    } else {
        file.to_owned()
    }
}

fn cannot_begin(program: &Path, error: &io::Error) -> Error {
    Error::new(format!("{}: {}", program.display(), system_words(error)))
}

fn spawn(program: &Path, store: &Path, pump: u64) -> Result<Program, Error> {
    let file = word_of(store);
    let mut command = Command::new(program);
    command.arg("serve").arg(&file).args(["--batch", GROUP, "--why"]);
    if pump > 0 {
        command.args(["--pump", &pump.to_string()]);
    }
    command.stdin(Stdio::piped()).stdout(Stdio::piped()).stderr(Stdio::piped()).kill_on_drop(true);
    set_apart(&mut command);
    let told = format!("{} serve {} --batch {GROUP} --why", program.display(), file.display());
    let mut child = command.spawn().map_err(|error| cannot_begin(program, &error))?;
    let (input, output, errors) = match (child.stdin.take(), child.stdout.take(), child.stderr.take()) {
        (Some(input), Some(output), Some(errors)) => (input, output, errors),
        _ => return Err(Error::new(format!("{told} has no pipes"))),
    };
    let (path, store, said) = (program.to_owned(), store.to_owned(), said_by(errors));
    let (pipes, opened) = (Pipes::new(input, output), Status::default());
    Ok(Program { pipes, path, store, pump, opened, child, words: told, said })
}

/// Has a process begin in a session of its own, so that an interrupt at the terminal doesn't end it in its midst.
pub(super) fn set_apart(command: &mut Command) {
    // SAFETY: between fork and exec only `setsid` and `signal` are called, which are safe there (signal-safety(7)).
    unsafe {
        command.pre_exec(|| {
            libc::setsid();
            libc::signal(libc::SIGXFSZ, libc::SIG_DFL);
            Ok(())
        });
    }
}

/// What a process says on standard error, once that ends.
pub(super) fn said_by(errors: ChildStderr) -> JoinHandle<String> {
    tokio::spawn(all_said(errors))
}

async fn all_said(mut errors: ChildStderr) -> String {
    let mut said = Vec::new();
    // What can't be read is left out: how it ended is told in any case.
    let _ = (&mut errors).take(MOST_SAID).read_to_end(&mut said).await;
    let _ = tokio::io::copy(&mut errors, &mut tokio::io::sink()).await;
    String::from_utf8_lossy(&said).into_owned()
}

impl Program {
    /// Waits for its end.
    pub async fn wait(&mut self) {
        // How it ended is asked for again.
        let _ = self.child.wait().await;
    }

    /// How it ends, once it gets no more lines.
    pub async fn ended(mut self) -> Ended {
        self.pipes.close().await;
        let status = self.child.wait().await.ok();
        let said = self.said.await.unwrap_or_default();
        Ended { words: self.words, status, said }
    }
}

/// How the program ended.
pub struct Ended {
    words: String,
    status: Option<ExitStatus>,
    said: String,
}

impl Ended {
    /// Whether all went well.
    pub fn is_well(&self) -> bool {
        self.status.map_or(false, |status| status.success())
    }
}

impl std::fmt::Display for Ended {
    fn fmt(&self, formatter: &mut std::fmt::Formatter<'_>) -> std::fmt::Result {
        let how = match self.status.map(|status| (status.code(), status.signal())) {
            Some((Some(code), _)) => format!("with status {code}"),
            Some((_, Some(signal))) => format!("by signal {signal}"),
            _ => "in an unknown way".to_owned(),
        };
        if let Some(cause) = cause_in(&self.said) {
            return write!(formatter, "{} ({} ended {how}){}", cause.told, self.words, what_to_do(&cause.word));
        }
        let said = self.said.trim();
        if let Some(Refusal { name, number, meaning, advice, .. }) = refused_in(said) {
            let more = if said.lines().count() > 1 { format!(": {said}") } else { String::new() };
            let ended = format!("{} ended {how}{more}", self.words);
            return write!(formatter, "{name} ({number}): {meaning} ({ended}){}", to_do(advice));
        }
        write!(formatter, "{} ended {how}", self.words)?;
        match said {
            "" => Ok(()),
            _ => write!(formatter, ": {said}"),
        }
    }
}

/// The refusal that the program tells by `jpstore: NAME (NUMBER)` on a line of its own.
fn refused_in(said: &str) -> Option<&'static Refusal> {
    said.lines().find_map(|line| {
        let (name, number) = line.strip_prefix("jpstore: ")?.strip_suffix(')')?.split_once(" (")?;
        by_number(number.parse().ok()?).filter(|row| row.name == name)
    })
}

#[cfg(test)]
mod tests {
    use super::refused_in;

    #[test]
    fn a_refused_opening_is_known_by_its_number() {
        let number = |said: &str| refused_in(said).map(|row| row.number);
        assert_eq!(number("jpstore: damaged (73)"), Some(73));
        assert_eq!(number("jpstore: file\n{}"), None);
        assert_eq!(number("jpstore: damaged (72)"), None);
    }
}
