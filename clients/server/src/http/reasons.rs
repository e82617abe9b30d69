//! Why something is refused: the place of the fault, if a process of Python finds it in time.
//!
//! The store tells a number. Each line of the process's input has the number, the change, the operation at fault of a
//! patch, the changes before it in its transaction, and the document and the schema that the store has, if they are needed.
//! It is answered with a line that has the faults of a document, a text that tells the place, and one that tells what to do.
//! A process that takes too long is killed.
//!
//! The first process begins with the server. No refusal waits longer than a second in all, and none at all if no process can be
//! had: one that couldn't begin, such as without the package, is tried again after a minute at the soonest.

use super::app::App;
use super::problem::Problem;
use crate::ending::Ending;
use crate::json::canonical::value_in;
use crate::lines::replies::{self, text_in};
use crate::store::Store;
use serde_json::value::RawValue;
use serde_json::Value;
use std::collections::BTreeMap;
use std::ffi::OsString;
use std::path::{Path, PathBuf};
use std::process::Stdio;
use std::sync::{Arc, Mutex, MutexGuard};
use std::time::Duration;
use tokio::io::{AsyncBufReadExt, AsyncReadExt, AsyncWriteExt, BufReader};
use tokio::process::{Child, ChildStdin, ChildStdout, Command};
use tokio::runtime::Handle;
use tokio::sync::Semaphore;
use tokio::time::{timeout_at, Instant};

/// The refusals of which more can be told. Those that clients meet as they work beside others, such as 34, aren't among
/// them: they are answered at once.
const TOLD: [u64; 14] = [13, 14, 15, 30, 31, 33, 40, 41, 42, 43, 44, 45, 50, 51];
const INVALID: u64 = 45;

/// How many processes look beside each other: each may take a processor.
const MOST: usize = 1;

/// How long a refusal waits for its reason.
const PATIENCE: Duration = Duration::from_secs(1);

/// How long a process may take to begin, and how long none is begun after one that couldn't.
const BEGIN: Duration = Duration::from_secs(60);
const REST: Duration = Duration::from_secs(60);

/// What the processes have less of the processors than those who are answered.
const LESS_URGENT: libc::c_int = 5;

/// Longer than any answer.
const MOST_ANSWER: u64 = 1 << 21;

/// The module that looks.
const MODULE: &str = "jpstore.judging";

/// Where an archive has it.
const PACKAGE: &str = "share/jpstore/python";

/// Has processes look for faults, one refusal at a time each.
pub struct Reasons(Arc<Processes>);

struct Processes {
    python: PathBuf,
    /// Where the processes belong: they are children of its thread.
    home: Handle,
    known: Mutex<Known>,
    /// One permit for each process that waits for a refusal.
    idle: Semaphore,
}

struct Known {
    /// The processes that wait for a refusal.
    idle: Vec<Looking>,
    /// How many processes there are, with one that begins.
    count: usize,
    /// Whether one begins.
    begins: bool,
    /// None begins before.
    rest: Option<Instant>,
    /// What each process that looks holds until it is done; none at the end.
    ending: Option<Ending>,
}

/// A process that waits for a refusal.
struct Looking {
    child: Child,
    input: ChildStdin,
    output: BufReader<ChildStdout>,
}

/// What is told of a refusal.
struct Told {
    detail: String,
    advice: String,
    errors: Option<String>,
}

impl Reasons {
    /// Reasons by this Python, whose processes are children of the thread of `home`, and are killed at the end.
    pub fn new(python: &Path, home: Handle, ending: Ending) -> Reasons {
        let known = Mutex::new(Known { idle: Vec::new(), count: 0, begins: false, rest: None, ending: Some(ending) });
        let all = Arc::new(Processes { python: python.to_owned(), home, known, idle: Semaphore::new(0) });
        all.is_there();
        Reasons(all)
    }

    /// Kills the processes that wait, and waits for their end; further refusals are looked at by none.
    pub async fn end(&self) {
        let waiting = {
            let mut known = self.0.known();
            known.ending = None;
            std::mem::take(&mut known.idle)
        };
        for looking in waiting {
            looking.kill().await;
        }
    }

    /// The problem of a refused question, with the place of the fault if that is found.
    pub async fn told(&self, problem: Problem, line: &[u8]) -> Problem {
        let deadline = Instant::now() + PATIENCE;
        match problem.number {
            Some(number) if TOLD.contains(&number) && self.0.is_there() => {
                let command = String::from_utf8_lossy(line);
                let asked = asked(number, problem.op, &[], command.trim_end(), &[]);
                self.added(problem, asked, deadline).await
            }
            _ => problem,
        }
    }

    /// The problem of a refused change, with the place of the fault if that is found.
    pub async fn told_of_change(&self, app: &App, problem: Problem, line: &[u8]) -> Problem {
        let deadline = Instant::now() + PATIENCE;
        let number = match problem.number {
            Some(number) if TOLD.contains(&number) && self.0.is_there() => number,
            _ => return problem,
        };
        match timeout_at(deadline, asked_of_change(app, &problem, number, line)).await {
            Ok(asked) => self.added(problem, asked, deadline).await,
            Err(_) => problem,
        }
    }

    async fn added(&self, mut problem: Problem, asked: Vec<u8>, deadline: Instant) -> Problem {
        if let Some(told) = self.0.looked(asked, deadline).await {
            if !told.detail.is_empty() {
                problem.detail = told.detail;
                problem.advice = Some(told.advice);
            }
            problem.errors = told.errors;
        }
        problem
    }
}

/// What a process is asked of a refused change.
async fn asked_of_change(app: &App, problem: &Problem, number: u64, line: &[u8]) -> Vec<u8> {
    let (text, change) = (line.to_vec(), problem.change);
    let refused = app.trees.work(line.len(), move || Refused::of(&text, change)).await;
    let pair = match &refused.document {
        Some(name) if number == INVALID => pair_of(&app.store, name).await,
        _ => Vec::new(),
    };
    asked(number, problem.op, &refused.before, &refused.command, &pair)
}

impl Processes {
    fn known(&self) -> MutexGuard<'_, Known> {
        self.known.lock().unwrap_or_else(std::sync::PoisonError::into_inner)
    }

    /// Whether there is a process, or one that begins. If all of them look, a further one begins, unless there are as many as
    /// there may be.
    fn is_there(self: &Arc<Self>) -> bool {
        let mut known = self.known();
        let may_begin = !known.begins && known.count < MOST && known.rest.map_or(true, |rest| rest <= Instant::now());
        if let Some(ending) = known.ending.clone().filter(|_| known.idle.is_empty() && may_begin) {
            (known.count, known.begins) = (known.count + 1, true);
            self.home.spawn(self.clone().begin(ending));
        }
        known.count > 0
    }

    /// Has a process begin, which is counted already.
    async fn begin(self: Arc<Self>, mut ending: Ending) {
        let begun = Looking::begin(&self.python, &mut ending).await;
        {
            let mut known = self.known();
            known.begins = false;
            if begun.is_none() {
                known.rest = Some(Instant::now() + REST);
            }
        }
        self.give_back(begun).await;
    }

    /// Has a process wait for a refusal; if it has gone, there is one less.
    async fn give_back(&self, looking: Option<Looking>) {
        let late = {
            let mut known = self.known();
            match looking {
                Some(looking) if known.ending.is_some() => {
                    known.idle.push(looking);
                    self.idle.add_permits(1);
                    return;
                }
                looking => {
                    known.count -= 1;
                    looking
                }
            }
        };
        if let Some(looking) = late {
            looking.kill().await;
        }
    }

    /// What a process answers until then; none if there was none, it was too slow, or was ended by a limit of the system.
    async fn looked(self: &Arc<Self>, asked: Vec<u8>, deadline: Instant) -> Option<Told> {
        timeout_at(deadline, self.idle.acquire()).await.ok()?.ok()?.forget();
        let all = self.clone();
        // In the thread that the processes are children of.
        let looked = self.home.spawn(async move {
            let (mut looking, mut ending) = {
                let mut known = all.known();
                (known.idle.pop()?, known.ending.clone()?)
            };
            let line = looking.answer(&asked, deadline, &mut ending).await;
            if line.is_some() {
                all.give_back(Some(looking)).await;
            } else {
                looking.kill().await;
                all.give_back(None).await;
                // The next refusal need not wait until another one has begun.
                all.is_there();
            }
            line
        });
        told_in(&timeout_at(deadline, looked).await.ok()?.ok()??)
    }
}

/// A change that was refused, in texts.
struct Refused {
    /// The changes before it in its transaction.
    before: Vec<String>,
    command: String,
    /// The document that it changes, unless it or one before it makes that.
    document: Option<String>,
}

impl Refused {
    fn of(line: &[u8], place: Option<u64>) -> Refused {
        let mut command = value_in(line).unwrap_or_default();
        let mut before = Vec::new();
        if let (Some(place), Some(changes)) = (place, command.get_mut("changes").and_then(Value::as_array_mut)) {
            changes.truncate(place as usize + 1);
            let last = changes.pop().unwrap_or_default();
            before = std::mem::take(changes);
            command = last;
        }
        let name = command.get("name").and_then(Value::as_str);
        let makes = |change: &&Value| {
            let word = |member: &str| change.get(member).and_then(Value::as_str);
            word("cmd") == Some("create") && word("name") == name
        };
        let is_made = before.iter().chain([&command]).any(|change| makes(&change));
        let document = name.filter(|_| !is_made).map(str::to_owned);
        Refused { before: before.iter().map(Value::to_string).collect(), command: command.to_string(), document }
    }
}

/// What a process is asked: a line with these JSON texts.
fn asked(number: u64, op: Option<u64>, before: &[String], command: &str, pair: &[String]) -> Vec<u8> {
    let (before, pair) = (before.join(","), pair.join(","));
    let op = op.map_or("null".to_owned(), |op| op.to_string());
    let of_command = format!("\"command\":{command},\"number\":{number},\"op\":{op}");
    format!("{{\"before\":[{before}],{of_command},\"pair\":[{pair}]}}\n").into_bytes()
}

/// The texts of the document and the schema that the store has.
async fn pair_of(store: &Store, name: &str) -> Vec<String> {
    let told = match store.ask(&[replies::get(name, ""), replies::get_schema(name)]).await {
        Ok(told) => told,
        Err(_) => return Vec::new(),
    };
    told.lines.iter().filter_map(|reply| String::from_utf8(text_in(reply)?.to_vec()).ok()).collect()
}

/// What an answer tells, of which the faults stay as they are.
fn told_in(line: &str) -> Option<Told> {
    let members: BTreeMap<String, &RawValue> = serde_json::from_str(line).ok()?;
    let text = |name: &str| serde_json::from_str(members.get(name)?.get()).ok();
    let (detail, advice) = (text("detail")?, text("advice")?);
    let errors = members.get("errors").map(|errors| errors.get()).filter(|errors| *errors != "null");
    Some(Told { detail, advice, errors: errors.map(str::to_owned) })
}

impl Looking {
    async fn begin(python: &Path, ending: &mut Ending) -> Option<Looking> {
        let mut command = Command::new(python);
        command.args(["-m", MODULE]).stdin(Stdio::piped()).stdout(Stdio::piped()).stderr(Stdio::null());
        // In a folder that is nobody's, so that nothing there is taken for a module.
        command.current_dir("/").kill_on_drop(true);
        command.env("PYTHONPATH", module_paths(std::env::var_os("PYTHONPATH"))?);
        // SAFETY: between fork and exec only `setsid`, `nice` and `signal` are called, which are safe there (signal-safety(7)); `nice`
        // is so in glibc, as it does one call of the system.
        unsafe {
            command.pre_exec(|| {
                libc::setsid();
                libc::nice(LESS_URGENT);
                libc::signal(libc::SIGXFSZ, libc::SIG_DFL);
                Ok(())
            });
        }
        let mut child = command.spawn().ok()?;
        let (input, output) = (child.stdin.take()?, BufReader::new(child.stdout.take()?));
        let mut looking = Looking { child, input, output };
        match looking.answer(b"", Instant::now() + BEGIN, ending).await {
            Some(_) => Some(looking),
            None => {
                looking.kill().await;
                None
            }
        }
    }

    /// The line that it answers until then, unless the server ends.
    async fn answer(&mut self, asked: &[u8], deadline: Instant, ending: &mut Ending) -> Option<String> {
        let mut line = String::new();
        let answered = async {
            self.input.write_all(asked).await?;
            (&mut self.output).take(MOST_ANSWER).read_line(&mut line).await
        };
        let count = tokio::select! {
            answered = timeout_at(deadline, answered) => answered.ok()?.ok()?,
            () = ending.begun() => return None,
        };
        (count > 0 && line.ends_with('\n')).then(|| line)
    }

    /// Kills it, and waits for its end.
    async fn kill(mut self) {
        // It may have ended by itself.
        let _ = self.child.kill().await;
    }
}

/// The folders of modules that are named, so that they hold in another folder too, and that of an archive.
fn module_paths(named: Option<OsString>) -> Option<OsString> {
    let here = std::env::current_dir().ok()?;
    let named = named.filter(|paths| !paths.is_empty()).unwrap_or_default();
    let named = std::env::split_paths(&named).filter(|path| !path.as_os_str().is_empty()).map(|path| here.join(path));
    std::env::join_paths(named.chain(package_beside())).ok()
}

/// The folder of the package in an archive, in whose `bin` this server is.
fn package_beside() -> Option<PathBuf> {
    let server = std::env::current_exe().ok()?;
    Some(server.parent()?.parent()?.join(PACKAGE)).filter(|folder| folder.is_dir())
}

#[cfg(test)]
mod tests {
    use super::told_in;

    #[test]
    fn faults_stay_as_they_are() {
        let told =
            told_in(r#"{"advice":"y","detail":"x","errors":[{"place":"/a","keyword":"/b","detail":"c"}]}"#).unwrap();
        assert_eq!((&told.detail[..], &told.advice[..]), ("x", "y"));
        assert_eq!(told.errors.as_deref(), Some(r#"[{"place":"/a","keyword":"/b","detail":"c"}]"#));
        assert!(told_in(r#"{"advice":"","detail":"","errors":null}"#).unwrap().errors.is_none());
        assert!(told_in("null").is_none());
    }
}
