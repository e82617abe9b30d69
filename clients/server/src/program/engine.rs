//! The rounds in which the program does the lines of all clients.
//!
//! A round has the small changes that have arrived, which are one commit, then some small questions, and then one line that is
//! large or may take long, if it is the turn of one. What is left waits for the next one, after the changes that have come
//! meanwhile. Each client's lines are done and answered in its own order. A reply is handed on after the program gave it, so an
//! answered change is on the disk.

use super::cache::Cache;
use super::export;
use super::growing::{Growths, Turn};
use super::handle::{Handle, Message};
use super::job::Pending;
use super::share::{Begun, Slow};
use super::start::Program;
use super::waiting::Waiting;
use crate::error::Error;
use crate::history::History;
use crate::limits::SMALL;
use crate::lines::replies::is_failure;
use crate::lines::transactions::{changes_after, Told};
use crate::lines::SEAL;
use bytes::Bytes;
use std::collections::VecDeque;
use std::io;
use std::sync::Arc;
use tokio::sync::mpsc::{unbounded_channel, UnboundedReceiver};
use tokio::sync::watch;
use tokio::time::{sleep_until, Duration, Instant};

/// How long no line comes after a change before the store is sealed.
pub(super) const REST: Duration = Duration::from_secs(1);

/// The program with what is known of its store.
pub struct Engine {
    pub(super) program: Program,
    pub(super) history: Arc<History>,
    pub(super) cache: Arc<Cache>,
    queue: UnboundedReceiver<Message>,
    pub(super) waiting: Waiting,
    turns: VecDeque<Turn>,
    growths: Growths,
    pub(super) broken: bool,
    /// When the store is to be sealed, if it was changed since it was.
    pub(super) seal_at: Option<Instant>,
}

impl Engine {
    /// The engine over a program that has opened a store, with the changes that it knows, and the way to it.
    pub async fn begin(program: Program, cache: Cache) -> Result<(Engine, Handle), Error> {
        let history = History::new(&program.opened).map_err(|error| Error::of_path("/dev/urandom", error))?;
        let (messages, queue) = unbounded_channel();
        let (history, cache) = (Arc::new(history), Arc::new(cache));
        let growths = Growths::of(&program, messages.clone());
        let handle = Handle { messages, cache: cache.clone(), history: history.clone() };
        let mut engine = Engine {
            program,
            history,
            cache,
            queue,
            waiting: Waiting::default(),
            turns: VecDeque::new(),
            growths,
            broken: false,
            seal_at: None,
        };
        match engine.take_known().await {
            Ok(()) => Ok((engine, handle)),
            Err(error) if error.kind() == io::ErrorKind::InvalidData => Err(Error::new(error.to_string())),
            Err(_) => Err(Error::new(engine.program.ended().await.to_string())),
        }
    }

    /// Takes the changes that the program knows when it has opened the store.
    async fn take_known(&mut self) -> io::Result<()> {
        let first = self.exchange(changes_after(0).as_bytes(), 1).await?.swap_remove(0);
        match Told::of(&first, 0) {
            Some(Told::Gone { from, .. }) => {
                self.history.begin_after(from);
                self.clients_lines(Vec::new(), 0).await?;
            }
            _ => self.take_changes(first).await?,
        }
        // What was known before needs no seal.
        self.seal_at = None;
        Ok(())
    }

    /// Does round after round until it is stopped; an error if the program ends by itself, or the device fails.
    pub async fn run(mut self, mut stop: watch::Receiver<bool>) -> Result<(), Error> {
        let wrong = self.rounds(&mut stop).await.err();
        self.queue.close();
        // Who waits for a turn learns that there will be none.
        while self.queue.try_recv().is_ok() {}
        self.turns.clear();
        self.growths.end().await;
        let ended = self.program.ended().await;
        match wrong {
            _ if !ended.is_well() => Err(Error::new(ended.to_string())),
            Some(error) if error.kind() == io::ErrorKind::InvalidData => Err(Error::new(error.to_string())),
            _ if self.broken => Err(Error::new("the device failed")),
            Some(_) => Err(Error::new(ended.to_string())),
            None => Ok(()),
        }
    }

    async fn rounds(&mut self, stop: &mut watch::Receiver<bool>) -> io::Result<()> {
        while !*stop.borrow() && !self.broken {
            self.gather();
            let now = Instant::now();
            let next = self.waiting.next(now);
            if next.map_or(true, |next| next > now) && self.turns.is_empty() {
                tokio::select! {
                    biased;
                    changed = stop.changed() => if changed.is_err() { return Ok(()) },
                    message = self.queue.recv() => match message {
                        Some(message) => self.take(message),
                        None => return Ok(()),
                    },
                    () = self.program.wait() => return Err(io::ErrorKind::UnexpectedEof.into()),
                    () = at(next) => (),
                    () = at(self.seal_at) => self.seal().await?,
                }
                continue;
            }
            self.round().await?;
            if let Some(turn) = self.turns.pop_front() {
                turn.take(self).await?;
            }
        }
        Ok(())
    }

    fn take(&mut self, message: Message) {
        match message {
            Message::Job(job) => drop(self.waiting.come(job).and_then(Pending::send)),
            Message::Export(wanted) => self.waiting.add_export(wanted),
            Message::Grow(wanted) => self.growths.begin(wanted, self.history.clone()),
            Message::Turn(turn) => self.turns.push_back(turn),
        }
    }

    /// Takes what has arrived.
    pub(super) fn gather(&mut self) {
        while let Ok(message) = self.queue.try_recv() {
            self.take(message);
        }
    }

    /// Lets jobs wait for their next lines, or hands on their replies. Documents that were asked for may be kept, unless others
    /// have changed meanwhile.
    pub(super) fn hand_on(&mut self, jobs: Vec<Pending>, may_be_kept: bool) {
        for pending in jobs {
            let document = self.waiting.add(pending).and_then(Pending::send);
            if let Some((name, document)) = document.filter(|_| may_be_kept) {
                if document.text.len() > SMALL {
                    self.waiting.hand_out(&name, &document);
                }
                self.cache.put(&name, document);
            }
        }
    }

    async fn round(&mut self) -> io::Result<()> {
        let done = self.parts().await;
        if done.is_err() {
            // The program ended: what it had answered goes out.
            let answered = self.waiting.take_all().filter(|pending| !pending.replies.is_empty());
            answered.for_each(|pending| drop(pending.send()));
        }
        crate::say::try_again();
        done
    }

    async fn parts(&mut self) -> io::Result<()> {
        self.small().await?;
        self.slow_change().await?;
        self.small().await?;
        self.slow_question().await?;
        self.small().await?;
        self.export().await
    }

    async fn small(&mut self) -> io::Result<()> {
        self.gather();
        self.small_changes().await?;
        self.small_questions().await
    }

    /// Exports all documents for one who waits for that, if it is the turn of one.
    async fn export(&mut self) -> io::Result<()> {
        let begun = self.waiting.begin();
        if let Some(wanted) = self.waiting.export(begun.at) {
            export::export(self, wanted).await?;
            self.took(Slow::Export, begun);
        }
        Ok(())
    }

    /// Takes what has arrived while one of this kind was done, and notes how long that took.
    pub(super) fn took(&mut self, kind: Slow, begun: Begun) {
        let ended = Instant::now();
        self.gather();
        self.waiting.took(kind, begun, ended);
    }

    /// The replies to lines; it is noted if one says that the device failed.
    pub(super) async fn exchange(&mut self, lines: &[u8], count: usize) -> io::Result<Vec<Bytes>> {
        let replies = self.program.pipes.exchange(lines, count).await?;
        self.broken |= replies.iter().any(|reply| is_failure(reply));
        Ok(replies)
    }

    /// Has the program seal what was changed. Nobody waits for it.
    async fn seal(&mut self) -> io::Result<()> {
        self.seal_at = None;
        self.exchange(SEAL, 1).await?;
        Ok(())
    }

    /// Goes on with the program of another file, which has taken the place of the store's; the program of the other.
    pub(super) fn go_on(&mut self, program: Program) -> Program {
        self.history.go_on(&program.opened);
        std::mem::replace(&mut self.program, program)
    }
}

/// Ends at that moment, or never.
async fn at(moment: Option<Instant>) {
    match moment {
        Some(moment) => sleep_until(moment).await,
        None => std::future::pending().await,
    }
}
