//! What clients ask of the engine, and how they are answered.

use super::cache::Document;
use super::room::{Room, Taken};
use crate::limits::ROUND_REPLIES;
use crate::lines::replies::{rev_in, text_in};
use crate::lines::Lines;
use bytes::Bytes;
use std::sync::Arc;
use tokio::sync::oneshot;

/// Lines of a client that wait for a round.
pub struct Job {
    /// The lines.
    pub lines: Lines,
    /// The room that the replies are taken of.
    pub room: Room,
    /// Whether all questions are asked together, and all is answered at once, however long the replies are.
    pub whole: bool,
    /// To whom the replies go.
    pub reply: Reply,
}

/// There is no room for a reply: too many bytes of replies weren't taken yet.
#[derive(Debug)]
pub struct NoRoom;

/// To whom replies go. If the program ends before they come, this is dropped.
pub enum Reply {
    /// The replies as they are.
    Lines(oneshot::Sender<Result<Answer, NoRoom>>),
    /// The document of this name, whose revision and text are asked for; else the refusal.
    Document(String, oneshot::Sender<Result<Arc<Document>, Bytes>>),
}

/// The replies to lines, and the lines that weren't done.
pub struct Answer {
    /// The replies, each with its LF.
    pub replies: Vec<u8>,
    /// The lines after those that they answer.
    pub rest: Lines,
    /// The room that the replies take.
    pub taken: Taken,
}

/// Where a job is. Its lines are done in this order, and one that was done is not among them any more.
#[derive(Clone, Copy, Debug, PartialEq, Eq)]
pub(super) enum State {
    /// The next line changes documents. No question was asked.
    Changes,
    /// The changes are made, and the next line is a question.
    Questions,
    /// The questions are answered, and the next line is a snapshot.
    Snapshots,
    /// The replies are handed on: to all lines, or so many bytes that the client has to take them before further ones.
    Answered,
    /// The replies are handed on without the next one, which had no room.
    NoRoom,
}

/// A job, and the replies to those of its lines that were done.
pub(super) struct Pending {
    pub job: Job,
    pub replies: Vec<u8>,
    taken: Taken,
    had_no_room: bool,
}

impl Pending {
    /// A job of which nothing is done yet.
    pub fn new(job: Job) -> Pending {
        let taken = job.room.begin();
        Pending { job, replies: Vec::new(), taken, had_no_room: false }
    }

    /// Where it is.
    pub fn state(&self) -> State {
        let Lines { changes, questions, snapshots } = &self.job.lines;
        let is_full = !self.job.whole && self.replies.len() > ROUND_REPLIES;
        if self.had_no_room {
            State::NoRoom
        } else if !changes.is_empty() {
            State::Changes
        } else if is_full {
            State::Answered
        } else if !questions.is_empty() {
            State::Questions
        } else if !snapshots.is_empty() {
            State::Snapshots
        } else {
            State::Answered
        }
    }

    /// Adds the reply to its next line. That to a change or a snapshot is short, and it was done, so it takes no room. After a
    /// reply without room, further ones are left out.
    pub fn add(&mut self, reply: &[u8]) {
        let Lines { changes, questions, snapshots } = &mut self.job.lines;
        let is_done = changes.pop_front().is_some() || (questions.is_empty() && snapshots.pop_front().is_some());
        if !is_done {
            // Who asks for a whole document takes the room for it then.
            let needs_room = matches!(self.job.reply, Reply::Lines(_));
            self.had_no_room |= needs_room && !self.taken.more(reply.len());
            if self.had_no_room {
                return;
            }
            questions.pop_front();
        }
        self.replies.extend_from_slice(reply);
    }

    /// Hands the document to the one who waits for it, if it is the one of this name; else it is still to be done.
    pub fn unless_wanted(self, name: &str, document: &Arc<Document>) -> Option<Pending> {
        match self.job.reply {
            Reply::Document(wanted, reply) if wanted == name => {
                let _ = reply.send(Ok(document.clone()));
                None
            }
            reply => Some(Pending { job: Job { reply, ..self.job }, ..self }),
        }
    }

    /// Hands the replies to the one who waits for them. One who has gone away wants none. A document that was answered is
    /// returned.
    pub fn send(self) -> Option<(String, Arc<Document>)> {
        let Pending { job, replies, taken, had_no_room } = self;
        match job.reply {
            Reply::Lines(reply) => {
                let is_refused = had_no_room && (job.whole || replies.is_empty());
                let answer = if is_refused { Err(NoRoom) } else { Ok(Answer { replies, rest: job.lines, taken }) };
                let _ = reply.send(answer);
                None
            }
            Reply::Document(name, reply) => {
                let (rev, value) = two_in(&replies)?;
                let found = document_in(rev, value);
                let document = found.as_ref().ok().map(|document| (name, document.clone()));
                let _ = reply.send(found);
                document
            }
        }
    }
}

/// Two replies.
fn two_in(replies: &[u8]) -> Option<(&[u8], &[u8])> {
    let place = memchr::memchr(b'\n', replies)? + 1;
    let (first, second) = replies.split_at(place);
    second.ends_with(b"\n").then(|| (first, second))
}

/// The document that these two replies tell, or the one that refuses it.
pub(super) fn document_in(rev: &[u8], value: &[u8]) -> Result<Arc<Document>, Bytes> {
    match (rev_in(rev), text_in(value)) {
        (Some(rev), Some(text)) => Ok(Arc::new(Document::new(rev, Bytes::copy_from_slice(text)))),
        (None, _) => Err(Bytes::copy_from_slice(rev)),
        (_, None) => Err(Bytes::copy_from_slice(value)),
    }
}

#[cfg(test)]
mod tests {
    use super::{Job, Lines, Pending, Reply, Room, State, ROUND_REPLIES};
    use crate::limits::SMALL;
    use bytes::Bytes;
    use tokio::sync::oneshot;

    fn pending(
        counts: [usize; 3],
        room: &Room,
        whole: bool,
    ) -> (Pending, oneshot::Receiver<Result<super::Answer, super::NoRoom>>) {
        let lines = |count: usize| std::iter::repeat(Bytes::from_static(b"{}\n")).take(count).collect();
        let [changes, questions, snapshots] = counts;
        let lines = Lines { changes: lines(changes), questions: lines(questions), snapshots: lines(snapshots) };
        let (reply, answer) = oneshot::channel();
        (Pending::new(Job { lines, room: room.clone(), whole, reply: Reply::Lines(reply) }), answer)
    }

    #[test]
    fn its_parts_come_one_after_another() {
        let (mut job, mut answer) = pending([1, 1, 1], &Room::of_bytes(0), false);
        for state in [State::Changes, State::Questions, State::Snapshots] {
            assert_eq!(job.state(), state);
            job.add(b"{}\n");
        }
        assert_eq!(job.state(), State::Answered);
        job.send();
        let answer = answer.try_recv().unwrap().unwrap();
        assert!(answer.replies == b"{}\n{}\n{}\n" && answer.rest.is_empty());
    }

    #[test]
    fn it_is_full_before_its_client_takes_replies() {
        let long = vec![b' '; ROUND_REPLIES + 1];
        let (mut job, mut answer) = pending([0, 3, 1], &Room::of_bytes(1 << 20), false);
        job.add(&long);
        assert_eq!(job.state(), State::Answered);
        job.send();
        assert_eq!(answer.try_recv().unwrap().unwrap().rest.count(), 3);
        let (mut whole, _answer) = pending([0, 3, 0], &Room::of_bytes(1 << 20), true);
        whole.add(&long);
        assert_eq!(whole.state(), State::Questions);
    }

    #[test]
    fn what_has_no_room_is_asked_again_or_refused() {
        let (small, large) = (vec![b' '; SMALL], vec![b' '; 11]);
        let (mut job, mut answer) = pending([0, 3, 0], &Room::of_bytes(10), false);
        [&small, &large, &small].iter().for_each(|reply| job.add(reply));
        assert_eq!(job.state(), State::NoRoom);
        job.send();
        let answer = answer.try_recv().unwrap().unwrap();
        assert_eq!((answer.replies.len(), answer.rest.questions.len()), (SMALL, 2));
        let (mut whole, mut answer) = pending([0, 2, 0], &Room::of_bytes(10), true);
        [&small, &large].iter().for_each(|reply| whole.add(reply));
        whole.send();
        assert!(answer.try_recv().unwrap().is_err());
    }
}
