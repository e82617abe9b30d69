//! The way to the engine.

use super::cache::Cache;
use super::export::Wanted;
use super::growing::{self, Turn};
use super::job::Job;
use super::room::Room;
use super::spool::Spool;
use crate::history::History;
use std::io;
use std::sync::Arc;
use tokio::sync::mpsc::UnboundedSender;
use tokio::sync::oneshot;

/// What the engine is asked for.
pub enum Message {
    /// To do lines.
    Job(Job),
    /// To export the documents of one moment.
    Export(Wanted),
    /// To let the store grow.
    Grow(growing::Wanted),
    /// To do a step of a growth.
    Turn(Turn),
}

/// The way to the engine.
#[derive(Clone)]
pub struct Handle {
    pub(super) messages: UnboundedSender<Message>,
    /// The copies of documents.
    pub cache: Arc<Cache>,
    /// The newest changes.
    pub history: Arc<History>,
}

impl Handle {
    /// Hands lines over. If the engine has ended, the reply is dropped.
    pub fn ask(&self, job: Job) {
        // Who waits for the reply learns it by that.
        let _ = self.messages.send(Message::Job(job));
    }

    /// Asks for the documents of one moment whose names begin with the prefix. In memory they take this room.
    pub fn export(&self, prefix: &str, room: &Room) -> oneshot::Receiver<io::Result<Spool>> {
        let (reply, answer) = oneshot::channel();
        let wanted = Wanted { prefix: prefix.to_owned(), room: room.clone(), reply };
        let _ = self.messages.send(Message::Export(wanted));
        answer
    }

    /// Asks for a larger file; the line that answers it.
    pub fn grow(&self, sectors: u64) -> oneshot::Receiver<Vec<u8>> {
        let (reply, answer) = oneshot::channel();
        let _ = self.messages.send(Message::Grow(growing::Wanted { sectors, reply }));
        answer
    }
}
