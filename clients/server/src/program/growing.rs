//! A growth of the store that is served: a larger file is made of it, follows its changes, and takes its place.
//!
//! The copy is taken between two rounds. While the larger file is made of it, and gets the changes that came since, rounds
//! go on with the other. The last few of them, and the renaming, are between two rounds again. So changes wait for a moment,
//! and none is refused.

use super::engine::Engine;
use super::handle::Message;
use super::larger::{with_commas, Fault, Larger};
use super::start::{self, Program};
use crate::error::Error;
use crate::history::History;
use crate::lines::replies::{names_in, not_grown, rev, seq_in, Status};
use crate::lines::{LIST, STATUS};
use crate::say;
use bytes::Bytes;
use std::io;
use std::path::PathBuf;
use std::sync::Arc;
use std::time::Duration;
use tokio::sync::mpsc::UnboundedSender;
use tokio::sync::{oneshot, watch, Mutex, OwnedMutexGuard};
use tokio::task::JoinHandle;
use tokio::time::timeout;

/// How many changes at most are made in the last step, while others wait, and how many steps are tried before it.
const FEW: u64 = 256;
const MOST_STEPS: usize = 50;

/// The most bytes of changes that are sent at once.
const PIECE: usize = 1 << 20;

/// How long a growth has at the server's end.
const FAREWELL: Duration = Duration::from_secs(1);

/// A growth that somebody waits for.
pub struct Wanted {
    /// The sectors of the larger file.
    pub sectors: u64,
    /// To whom the reply goes. If the server ends before there is one, this is dropped.
    pub reply: oneshot::Sender<Vec<u8>>,
}

/// Why a growth stops.
#[derive(Debug)]
pub enum Stuck {
    /// The server doesn't keep the changes any more that the larger file lacks.
    Behind,
    /// The larger file can't take the other's place.
    Fault(Fault),
    /// The program of the store has ended, or the server does.
    Lost(io::Error),
}

impl From<Fault> for Stuck {
    fn from(fault: Fault) -> Stuck {
        Stuck::Fault(fault)
    }
}

impl From<Error> for Stuck {
    fn from(error: Error) -> Stuck {
        Stuck::Fault(error.into())
    }
}

impl From<io::Error> for Stuck {
    fn from(error: io::Error) -> Stuck {
        Stuck::Lost(error)
    }
}

fn refused(told: impl Into<String>) -> Stuck {
    Stuck::Fault(Fault::Refused(told.into()))
}

fn shown(reply: &[u8]) -> std::borrow::Cow<'_, str> {
    String::from_utf8_lossy(reply.strip_suffix(b"\n").unwrap_or(reply))
}

/// What is done of a growth between two rounds.
#[derive(Clone, Copy)]
enum Step {
    Take,
    Finish,
    /// All of it, since others change the store faster than it is copied. This time they wait.
    AtOnce,
}

/// A step that waits for its turn, and the one who waits for it.
pub struct Turn {
    growing: Arc<Mutex<Growing>>,
    step: Step,
    done: oneshot::Sender<Result<Bytes, Stuck>>,
}

impl Turn {
    /// Does the step; an error if the store's program ends, or if the disk may not keep what was done.
    pub async fn take(self, engine: &mut Engine) -> io::Result<()> {
        let mut growing = self.growing.lock().await;
        let done = match self.step {
            Step::Take => growing.take(engine).await.map(|()| Bytes::new()),
            Step::Finish => growing.finish(engine).await,
            Step::AtOnce => growing.at_once(engine).await,
        };
        drop(growing);
        let wrong = match &done {
            Err(Stuck::Lost(error)) => Err(io::Error::from(error.kind())),
            Err(Stuck::Fault(Fault::Unsettled(told))) => Err(io::Error::new(io::ErrorKind::InvalidData, told.clone())),
            _ => Ok(()),
        };
        // One who has gone away wants it no more.
        let _ = self.done.send(done);
        wrong
    }
}

/// The growths of a store, one at a time.
pub struct Growths {
    file: PathBuf,
    program: PathBuf,
    pump: u64,
    messages: UnboundedSender<Message>,
    one: Arc<Mutex<()>>,
    stop: watch::Sender<bool>,
    task: Option<JoinHandle<()>>,
}

impl Growths {
    /// Those of the store that this program serves.
    pub fn of(serving: &Program, messages: UnboundedSender<Message>) -> Growths {
        let (file, program, stop) = (serving.store.clone(), serving.path.clone(), watch::channel(false).0);
        Growths { file, program, pump: serving.pump, messages, one: Arc::default(), stop, task: None }
    }

    /// Begins a growth beside the rounds, unless there is one.
    pub fn begin(&mut self, wanted: Wanted, history: Arc<History>) {
        let Wanted { sectors, reply } = wanted;
        let begun = self.one.clone().try_lock_owned().map_err(|_| "it grows already".to_owned()).and_then(|alone| {
            let larger = Larger::beside(&self.file, sectors).map_err(|error| error.to_string())?;
            let (program, pump, stop) = (self.program.clone(), self.pump, self.stop.subscribe());
            Ok((alone, Growing { larger, program, pump, serving: None, seq: 0, history, stop }))
        });
        match begun {
            Ok((alone, growing)) => {
                let told = format!("{} has {} sectors now", self.file.display(), with_commas(sectors));
                self.task = Some(tokio::spawn(grow(growing, self.messages.clone(), alone, reply, told)));
            }
            // One who has gone away wants no reply.
            Err(why) => drop(reply.send(not_grown(&why))),
        }
    }

    /// Breaks off the growth that is under way, and waits until it has removed what it made.
    pub async fn end(&mut self) {
        self.stop.send_replace(true);
        if let Some(mut task) = self.task.take() {
            if timeout(FAREWELL, &mut task).await.is_err() {
                task.abort();
                // It is of no matter how it ended.
                let _ = task.await;
            }
        }
    }
}

/// Does a growth to its end, and answers the one who asked for it.
async fn grow(
    growing: Growing,
    messages: UnboundedSender<Message>,
    alone: OwnedMutexGuard<()>,
    reply: oneshot::Sender<Vec<u8>>,
    told: String,
) {
    let growing = Arc::new(Mutex::new(growing));
    let grown = steps(&growing, &messages).await;
    growing.lock().await.end_program().await;
    drop((growing, alone));
    let line = match grown {
        Ok(status) => {
            say::announce(&told);
            status.to_vec()
        }
        Err(Stuck::Fault(Fault::Refused(why) | Fault::Unsettled(why))) => not_grown(&why),
        Err(Stuck::Behind) => not_grown("others change it too fast"),
        // Who waits for the reply learns it by that.
        Err(Stuck::Lost(_)) => return,
    };
    // One who has gone away wants no reply.
    let _ = reply.send(line);
}

/// The status of the store that has grown.
async fn steps(growing: &Arc<Mutex<Growing>>, messages: &UnboundedSender<Message>) -> Result<Bytes, Stuck> {
    match without_waiting(growing, messages).await {
        Err(Stuck::Behind) => {
            growing.lock().await.end_program().await;
            turn(growing, messages, Step::AtOnce).await
        }
        done => done,
    }
}

async fn without_waiting(growing: &Arc<Mutex<Growing>>, messages: &UnboundedSender<Message>) -> Result<Bytes, Stuck> {
    turn(growing, messages, Step::Take).await?;
    growing.lock().await.make().await?;
    growing.lock().await.follow().await?;
    turn(growing, messages, Step::Finish).await
}

/// Has a step done between two rounds.
async fn turn(growing: &Arc<Mutex<Growing>>, messages: &UnboundedSender<Message>, step: Step) -> Result<Bytes, Stuck> {
    let (done, is_done) = oneshot::channel();
    let ended = || Stuck::Lost(io::ErrorKind::ConnectionAborted.into());
    let turn = Turn { growing: growing.clone(), step, done };
    messages.send(Message::Turn(turn)).map_err(|_| ended())?;
    is_done.await.map_err(|_| ended())?
}

/// A growth.
struct Growing {
    larger: Larger,
    program: PathBuf,
    pump: u64,
    /// The program that serves the larger file; after the change the other's.
    serving: Option<Program>,
    /// The last change that the larger file has.
    seq: u64,
    history: Arc<History>,
    stop: watch::Receiver<bool>,
}

impl Growing {
    async fn take(&mut self, engine: &mut Engine) -> Result<(), Stuck> {
        let told = engine.exchange(STATUS, 1).await?.swap_remove(0);
        let status = Status::of(&told).ok_or_else(|| refused(format!("the store answered {}", shown(&told))))?;
        self.larger.take(&status)?;
        self.seq = status.seq;
        Ok(())
    }

    /// Makes the larger file of the copy, and has it served.
    async fn make(&mut self) -> Result<(), Stuck> {
        self.larger.copy(&self.program, &mut self.stop).await?;
        self.serving = Some(start::start(&self.program, &self.larger.path(), self.pump, Duration::ZERO).await?);
        Ok(())
    }

    /// Makes the changes that came meanwhile, until few are left.
    async fn follow(&mut self) -> Result<(), Stuck> {
        for _ in 0..MOST_STEPS {
            let last = self.history.last();
            if last - self.seq <= FEW {
                break;
            }
            self.catch_up(last).await?;
        }
        Ok(())
    }

    async fn catch_up(&mut self, last: u64) -> Result<(), Stuck> {
        while self.seq < last {
            let lines = self.history.lines_after(self.seq, PIECE).map_err(|_| Stuck::Behind)?;
            let mut input: Vec<u8> = lines.iter().flat_map(|(_, line)| line.iter().copied()).collect();
            input.extend_from_slice(STATUS);
            let replies = self.exchange(&input, lines.len() + 1).await?;
            for ((seq, _), reply) in lines.iter().zip(&replies) {
                if seq_in(reply) != Some(*seq) {
                    return Err(refused(format!("the larger file answered {} to change {seq}", shown(reply))));
                }
                self.seq = *seq;
            }
        }
        Ok(())
    }

    /// Makes the last changes, and goes on with the larger file, while all others wait.
    async fn finish(&mut self, engine: &mut Engine) -> Result<Bytes, Stuck> {
        self.catch_up(self.history.last()).await?;
        self.compare(engine).await?;
        self.larger.replace()?;
        if let Some(serving) = self.serving.take() {
            self.serving = Some(engine.go_on(serving));
        }
        Ok(engine.exchange(STATUS, 1).await?.swap_remove(0))
    }

    async fn at_once(&mut self, engine: &mut Engine) -> Result<Bytes, Stuck> {
        self.take(engine).await?;
        self.make().await?;
        self.finish(engine).await
    }

    /// Checks that the larger file has the same documents at the same revisions.
    async fn compare(&mut self, engine: &mut Engine) -> Result<(), Stuck> {
        let lines = [LIST, STATUS].concat();
        let (here, there) = (engine.exchange(&lines, 2).await?, self.exchange(&lines, 2).await?);
        let names = names_in(&here[0]).unwrap_or_default();
        let revs: String = names.iter().map(|name| rev(name)).collect();
        let same_revs =
            engine.exchange(revs.as_bytes(), names.len()).await? == self.exchange(revs.as_bytes(), names.len()).await?;
        match (Status::of(&here[1]), Status::of(&there[1])) {
            (Some(ours), Some(theirs))
                if here[0] == there[0] && same_revs && (ours.seq, ours.documents) == (theirs.seq, theirs.documents) =>
            {
                Ok(())
            }
            _ => Err(refused("the larger file has other documents than the store")),
        }
    }

    /// The replies of the larger file's program.
    async fn exchange(&mut self, lines: &[u8], count: usize) -> Result<Vec<Bytes>, Stuck> {
        let replies = match &mut self.serving {
            Some(serving) => serving.pipes.exchange(lines, count).await,
            None => Err(io::ErrorKind::NotConnected.into()),
        };
        match (replies, self.serving.take()) {
            (Ok(replies), serving) => {
                self.serving = serving;
                Ok(replies)
            }
            (Err(_), Some(serving)) => Err(refused(serving.ended().await.to_string())),
            (Err(error), None) => Err(refused(error.to_string())),
        }
    }

    /// Ends the program that the store isn't served by: of the larger file, or after the change of the other.
    async fn end_program(&mut self) {
        if let Some(serving) = self.serving.take() {
            // It answered all that it was asked, and how it ends is of no matter.
            drop(serving.ended().await);
        }
    }
}
