//! A client at the socket: its lines are taken, and its replies are handed to it, as fast as it takes them.

use super::{watch, Rooms};
use crate::doors::Guest;
use crate::ending::Ending;
use crate::lines::framing::Framing;
use crate::lines::kinds::{kind_of, own_command, Kind, Own};
use crate::lines::replies::refusal;
use crate::lines::{Line, Lines};
use crate::program::room::{lost, Room, Taken};
use crate::program::{Handle, Job, Reply, Spool};
use bytes::BytesMut;
use std::future::Future;
use std::io;
use std::sync::Arc;
use std::time::Duration;
use tokio::io::{AsyncReadExt, AsyncWriteExt};
use tokio::net::UnixStream;
use tokio::sync::oneshot;
use tokio::time::timeout;

/// How many bytes are read at once, and the most lines of one job.
const PIECE: usize = 1 << 16;
const MOST_LINES: usize = 256;

/// The refusal of an export for which there is no room in memory or on the disk.
const NO_MEMORY: u64 = 63;

/// How long a client may take for its last replies.
const FAREWELL: Duration = Duration::from_secs(5);

/// A connection, and what it has sent.
pub(super) struct Client {
    pub stream: UnixStream,
    pub framing: Framing,
    pub ending: Ending,
    pub guest: Arc<Guest>,
    /// A line that was taken, and belongs to the next job.
    next: Option<(Kind, Line)>,
    /// Whether the client sends nothing more.
    pub ended: bool,
    store: Handle,
    replies: Room,
    exports: Room,
    /// The room of what it has sent beyond a piece. One that finds none is given up.
    lines: Taken,
    /// Whether the buffer has held more than a piece.
    was_long: bool,
    /// What is taken of others for what is written to it now.
    held: Option<Taken>,
}

/// Serves a client until it says that no more lines come and all are answered, it goes away, or the server ends.
pub(super) fn attend(
    stream: UnixStream,
    store: Handle,
    rooms: &Rooms,
    ending: Ending,
    guest: Arc<Guest>,
) -> impl Future<Output = ()> {
    let (framing, lines, large) = (Framing::default(), rooms.lines.begin(), rooms.large.clone());
    let (replies, exports) = (rooms.replies.clone(), rooms.exports.clone());
    let mut client = Client {
        stream,
        framing,
        ending,
        guest,
        next: None,
        ended: false,
        store,
        replies,
        exports,
        lines,
        was_long: false,
        held: None,
    };
    async move {
        // A client that has gone away is no error.
        if let Ok(Some((from, history))) = client.serve().await {
            let _ = large.spawn(async move { client.watch(from, history).await }).await;
        }
    }
}

/// The number after which changes are watched, and the history that it is of.
type Watched = (Option<u64>, Option<String>);

impl Client {
    /// Answers lines up to one that watches the changes, if there is one.
    async fn serve(&mut self) -> io::Result<Option<Watched>> {
        loop {
            let lines = self.lines();
            if !lines.is_empty() || self.next.is_some() {
                self.guest.waits();
            }
            if !lines.is_empty() {
                if !self.answer(lines).await? {
                    return Ok(None);
                }
                continue;
            }
            if let Some((_, line)) = self.next.take() {
                match own_command(&line) {
                    Some(Own::Export) => self.export().await?,
                    Some(Own::Grow(sectors)) => self.grow(sectors).await?,
                    Some(Own::Watch { from, history }) => return Ok(Some((from, history))),
                    // The program refuses a line that only looks like one of the server's own.
                    None => self.next = Some((Kind::Question, line)),
                }
                continue;
            }
            if self.ended || self.guest.is_last() || !self.read().await? {
                return Ok(None);
            }
        }
    }

    /// The lines that have come, as many as are done in one round.
    fn lines(&mut self) -> Lines {
        let mut lines = Lines::default();
        while lines.count() < MOST_LINES {
            let (kind, line) = match self.next.take().or_else(|| self.next_line()) {
                Some(next) => next,
                None => break,
            };
            let fits = match kind {
                Kind::Change => lines.questions.is_empty() && lines.snapshots.is_empty(),
                Kind::Question => lines.snapshots.is_empty(),
                Kind::Snapshot => true,
                Kind::Own => false,
            };
            if !fits {
                self.next = Some((kind, line));
                break;
            }
            match kind {
                Kind::Change => lines.changes.push_back(line),
                Kind::Question => lines.questions.push_back(line),
                _ => lines.snapshots.push_back(line),
            }
        }
        lines
    }

    fn next_line(&mut self) -> Option<(Kind, Line)> {
        let line = match self.framing.next() {
            Some(line) => line,
            None if self.ended => self.framing.last()?,
            None => return None,
        };
        Some((kind_of(&line), line))
    }

    /// Reads what has come; false if the server ends, there is no room for a long line, or others wait for the place.
    async fn read(&mut self) -> io::Result<bool> {
        if self.was_long && self.framing.buffer.is_empty() {
            // What a long line took isn't kept for the next one.
            (self.framing.buffer, self.was_long) = (BytesMut::new(), false);
        }
        self.framing.buffer.reserve(PIECE);
        self.lines.waits(true);
        self.guest.is_waited_for();
        let before = self.framing.buffer.len();
        tokio::select! {
            biased;
            count = self.stream.read_buf(&mut self.framing.buffer) => self.ended = count? == 0,
            () = self.ending.begun() => return Ok(false),
            () = self.lines.lost() => return Ok(false),
            () = self.guest.must_leave() => return Ok(false),
        }
        self.lines.moved(self.framing.buffer.len() - before);
        self.lines.waits(false);
        Ok(self.has_room())
    }

    /// Whether there is room for what was read and isn't answered.
    pub(super) fn has_room(&mut self) -> bool {
        let size = self.framing.buffer.len();
        self.was_long |= size > PIECE;
        self.lines.becomes(size)
    }

    /// Has lines done, and hands over the replies; false if the server ends, or there is no room for the replies.
    async fn answer(&mut self, mut lines: Lines) -> io::Result<bool> {
        while !lines.is_empty() {
            let (reply, answer) = oneshot::channel();
            self.store.ask(Job { lines, room: self.replies.clone(), whole: false, reply: Reply::Lines(reply) });
            let answer = match answer.await {
                Ok(Ok(answer)) => answer,
                _ => return Ok(false),
            };
            self.held = Some(answer.taken);
            self.write(&answer.replies).await?;
            self.held = None;
            lines = answer.rest;
        }
        Ok(true)
    }

    /// Writes as fast as the client takes it, unless others need what it has more; at the server's end not for long.
    pub(super) async fn write(&mut self, bytes: &[u8]) -> io::Result<()> {
        let Client { stream, ending, guest, held, .. } = self;
        let late = async {
            ending.begun().await;
            tokio::time::sleep(FAREWELL).await;
        };
        let written = async {
            for piece in bytes.chunks(PIECE) {
                stream.write_all(piece).await?;
                held.iter().for_each(|taken| taken.moved(piece.len()));
            }
            Ok(())
        };
        held.iter().for_each(|taken| taken.waits(true));
        guest.is_waited_for();
        let done = tokio::select! {
            biased;
            written = written => written,
            () = late => Err(io::ErrorKind::TimedOut.into()),
            () = lost(held) => Err(io::ErrorKind::TimedOut.into()),
            () = guest.must_leave() => Err(io::ErrorKind::TimedOut.into()),
        };
        guest.waits();
        done
    }

    /// Hands the client all documents of one moment; a refusal, if too many others haven't read theirs.
    async fn export(&mut self) -> io::Result<()> {
        let place = match self.exports.take_soon(1).await {
            Some(place) => place,
            None => return self.write(&refusal(NO_MEMORY)).await,
        };
        let mut spool: Spool = match self.store.export("", &self.replies).await {
            Ok(Ok(spool)) => spool,
            // It was said why.
            Ok(Err(_)) => return self.write(&refusal(NO_MEMORY)).await,
            Err(_) => return Err(io::ErrorKind::BrokenPipe.into()),
        };
        self.held = Some(place);
        loop {
            let piece = spool.next()?;
            if piece.is_empty() {
                self.held = None;
                return Ok(());
            }
            self.write(&piece).await?;
        }
    }

    /// Has the store grow, and tells the client how that went.
    async fn grow(&mut self, sectors: u64) -> io::Result<()> {
        let reply = tokio::select! {
            reply = self.store.grow(sectors) => reply,
            () = self.ending.begun() => return Err(io::ErrorKind::ConnectionAborted.into()),
        };
        self.write(&reply.map_err(|_| io::ErrorKind::BrokenPipe)?).await
    }

    async fn watch(mut self, from: Option<u64>, history: Option<String>) -> io::Result<()> {
        let store = self.store.clone();
        let told = watch::tell(&mut self, &store.history, from, history).await;
        // What the client may still read is sent before the connection is closed.
        let _ = timeout(FAREWELL, self.stream.shutdown()).await;
        told
    }
}
