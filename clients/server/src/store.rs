//! The store that is asked over HTTP: the one that this server has, or that of another server, by its socket.

use crate::http::problem::Problem;
use crate::limits::REPLY;
use crate::lines::replies::{self, refusal, rev_in, rev_told, text_in};
use crate::lines::{Lines, MOST_LINE};
use crate::other::{Lost, Other};
use crate::program::cache::Document;
use crate::program::room::{Room, Taken};
use crate::program::{Handle, Job, Reply};
use crate::refusals::NO_DOCUMENT;
use bytes::Bytes;
use std::sync::Arc;
use tokio::sync::oneshot;
use tokio::time::timeout;

/// How often something is tried if others change a document meanwhile.
pub const ATTEMPTS: usize = 100;

/// Where the documents are.
pub enum Which {
    /// This server has the store.
    Own(Handle),
    /// Another one has it.
    Other(Arc<Other>),
}

/// The store.
pub struct Store {
    /// Where it is.
    pub which: Which,
    /// The bytes of replies and documents that are being answered.
    pub answers: Room,
}

/// Replies, and the room that they take.
pub struct Replies {
    /// Each with its LF.
    pub lines: Vec<Bytes>,
    /// The room.
    pub taken: Option<Taken>,
}

fn no_room() -> Problem {
    Problem::busy("too many bytes of answers are on their way: send the request again")
}

impl Store {
    /// Takes room for so many bytes of an answer.
    pub async fn room(&self, size: usize) -> Result<Taken, Problem> {
        self.answers.take_soon(size).await.ok_or_else(no_room)
    }

    /// The replies to questions, which an own store answers in one round.
    pub async fn ask(&self, lines: &[String]) -> Result<Replies, Problem> {
        let all = lines.iter().map(|line| Bytes::copy_from_slice(line.as_bytes()));
        match &self.which {
            Which::Own(handle) => {
                let lines = Lines { questions: all.map(shortened).collect(), ..Lines::default() };
                let replies = timeout(REPLY, own(handle, lines, &self.answers)).await;
                replies.map_err(|_| Problem::unavailable())??.ok_or_else(Problem::unavailable)
            }
            Which::Other(other) => {
                let lines: Vec<Bytes> = all.collect();
                let replies = timeout(REPLY, other.exchange(&lines, false)).await;
                let lines = replies.ok().and_then(Result::ok).ok_or_else(Problem::unavailable)?;
                let taken = self.room(lines.iter().map(Bytes::len).sum()).await?;
                Ok(Replies { lines, taken: Some(taken) })
            }
        }
    }

    /// The reply to a change.
    pub async fn change(&self, line: Vec<u8>) -> Result<Bytes, Problem> {
        if line.len() > MOST_LINE + 1 {
            return Ok(refusal(10).into());
        }
        let line = Bytes::from(line);
        let replied = match &self.which {
            Which::Own(handle) => {
                let lines = Lines { changes: [line].into(), ..Lines::default() };
                let replied = timeout(REPLY, own(handle, lines, &self.answers)).await;
                replied
                    .map(|replied| replied.map(|replies| replies.ok_or(Lost::Sent)))
                    .map_err(|_| Problem::lost(true))??
            }
            Which::Other(other) => {
                let replied = timeout(REPLY, other.exchange(&[line], true)).await;
                replied.map_err(|_| Problem::lost(true))?.map(|lines| Replies { lines, taken: None })
            }
        };
        match replied {
            Ok(replies) => replies.lines.into_iter().next().ok_or_else(|| Problem::lost(false)),
            Err(Lost::Sent) => Err(Problem::lost(false)),
            Err(Lost::Unreached) => Err(Problem::unavailable()),
        }
    }

    /// The whole document with its revision.
    pub async fn document(&self, name: &str) -> Result<Arc<Document>, Problem> {
        let handle = match &self.which {
            Which::Own(handle) => handle,
            Which::Other(_) => {
                let (rev, text, _) = self.of_one_moment(name, &replies::get(name, "")).await?;
                return Ok(Arc::new(Document::new(rev, text)));
            }
        };
        if let Some(document) = handle.cache.get(name) {
            return Ok(document);
        }
        let (reply, answer) = oneshot::channel();
        let lines = [replies::rev(name), replies::get(name, "")].map(|line| shortened(line.into()));
        let lines = Lines { questions: lines.into(), ..Lines::default() };
        handle.ask(Job {
            lines,
            room: self.answers.clone(),
            whole: true,
            reply: Reply::Document(name.to_owned(), reply),
        });
        match timeout(REPLY, answer).await {
            Ok(Ok(found)) => found.map_err(|refused| Problem::of_reply(&refused)),
            _ => Err(Problem::unavailable()),
        }
    }

    /// A revision, and the text of the reply to a question of exactly this revision.
    pub async fn of_one_moment(&self, name: &str, line: &str) -> Result<(u64, Bytes, Option<Taken>), Problem> {
        let lines = [replies::rev(name), line.to_owned(), replies::rev(name)];
        for _ in 0..ATTEMPTS {
            let replies = self.ask(&lines).await?;
            let told =
                |place: usize| -> Result<&Bytes, Problem> { replies.lines.get(place).ok_or_else(Problem::unavailable) };
            let refused = |reply: &Bytes| Problem::of_reply(reply);
            let before = rev_in(told(0)?).ok_or_else(|| refused(&replies.lines[0]))?;
            let text = text_in(told(1)?).ok_or_else(|| refused(&replies.lines[1]))?;
            let after = rev_in(told(2)?).ok_or_else(|| refused(&replies.lines[2]))?;
            if before == after {
                return Ok((before, replies.lines[1].slice_ref(text), replies.taken));
            }
        }
        Err(too_busy(name))
    }

    /// The revision of a document; none if there is no such document.
    pub async fn rev_if_there(&self, name: &str) -> Result<Option<u64>, Problem> {
        match self.rev(name).await {
            Ok(rev) => Ok(Some(rev)),
            Err(problem) if problem.number == Some(NO_DOCUMENT) => Ok(None),
            Err(problem) => Err(problem),
        }
    }

    /// The revision of a document.
    pub async fn rev(&self, name: &str) -> Result<u64, Problem> {
        let reply = self.one(replies::rev(name)).await?;
        rev_told(&reply).ok_or_else(|| Problem::of_reply(&reply))
    }

    /// The reply to one question.
    pub async fn one(&self, line: String) -> Result<Bytes, Problem> {
        let mut replies = self.ask(&[line]).await?;
        replies.lines.pop().ok_or_else(Problem::unavailable)
    }
}

/// The problem of a document that others change all the time.
pub fn too_busy(name: &str) -> Problem {
    Problem::busy(format!("other clients change {name} all the time: send the request again"))
}

/// A line, or what stands for one that is too long.
fn shortened(line: Bytes) -> Bytes {
    if line.len() > MOST_LINE + 1 {
        Bytes::new()
    } else {
        line
    }
}

/// The replies of an own store; none if it ended before they came.
async fn own(handle: &Handle, lines: Lines, room: &Room) -> Result<Option<Replies>, Problem> {
    let count = lines.count();
    let (reply, answer) = oneshot::channel();
    handle.ask(Job { lines, room: room.clone(), whole: true, reply: Reply::Lines(reply) });
    let answer = match answer.await {
        Ok(answer) => answer.map_err(|_| no_room())?,
        Err(_) => return Ok(None),
    };
    let (mut rest, mut lines) = (Bytes::from(answer.replies), Vec::with_capacity(count));
    while let Some(place) = memchr::memchr(b'\n', &rest) {
        lines.push(rest.split_to(place + 1));
    }
    Ok((lines.len() == count).then(|| Replies { lines, taken: Some(answer.taken) }))
}
