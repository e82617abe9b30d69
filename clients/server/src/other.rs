//! Another server that has the store: it is asked by connections to its socket, made when they are needed.

use bytes::{Bytes, BytesMut};
use std::io;
use std::path::{Path, PathBuf};
use std::sync::Mutex;
use tokio::io::{AsyncReadExt, AsyncWriteExt};
use tokio::net::UnixStream;
use tokio::sync::Semaphore;

/// The most requests that the other server has at once.
const MOST: usize = 32;

const PIECE: usize = 1 << 16;

/// Replies that didn't come.
#[derive(Debug, PartialEq, Eq)]
pub enum Lost {
    /// The lines were sent, or some of them.
    Sent,
    /// Nothing was sent.
    Unreached,
}

/// A connection whose lines are read one by one.
pub struct LineStream {
    /// The connection.
    pub stream: UnixStream,
    buffer: BytesMut,
    looked: usize,
}

impl LineStream {
    /// A connection to the socket at a path.
    pub async fn to(path: &Path) -> io::Result<LineStream> {
        Ok(LineStream { stream: UnixStream::connect(path).await?, buffer: BytesMut::new(), looked: 0 })
    }

    /// The next line with its LF; none at the end. What came is kept if this is broken off.
    pub async fn line(&mut self) -> io::Result<Option<Bytes>> {
        loop {
            if let Some(place) = memchr::memchr(b'\n', &self.buffer[self.looked..]) {
                let line = self.buffer.split_to(self.looked + place + 1).freeze();
                self.looked = 0;
                return Ok(Some(line));
            }
            self.looked = self.buffer.len();
            self.buffer.reserve(PIECE);
            if self.stream.read_buf(&mut self.buffer).await? == 0 {
                return Ok(None);
            }
        }
    }

    /// Whether the other side has said nothing, and hasn't gone, since the last reply.
    fn is_idle(&self) -> bool {
        let silent = self.stream.try_read(&mut [0]);
        self.buffer.is_empty() && silent.map_or_else(|error| error.kind() == io::ErrorKind::WouldBlock, |_| false)
    }

    async fn exchange(&mut self, lines: &[Bytes]) -> io::Result<Vec<Bytes>> {
        let (mut input, mut replies) = (Vec::new(), Vec::with_capacity(lines.len()));
        lines.iter().for_each(|line| input.extend_from_slice(line));
        self.stream.write_all(&input).await?;
        while replies.len() < lines.len() {
            replies.push(self.line().await?.ok_or(io::ErrorKind::UnexpectedEof)?);
        }
        Ok(replies)
    }
}

/// The server at a path.
pub struct Other {
    /// Its socket.
    pub path: PathBuf,
    idle: Mutex<Vec<LineStream>>,
    slots: Semaphore,
}

impl Other {
    /// The server at this path, which need not be there yet.
    pub fn at(path: &Path) -> Other {
        Other { path: path.to_owned(), idle: Mutex::new(Vec::new()), slots: Semaphore::new(MOST) }
    }

    fn idle(&self) -> std::sync::MutexGuard<'_, Vec<LineStream>> {
        self.idle.lock().unwrap_or_else(std::sync::PoisonError::into_inner)
    }

    /// The replies to lines. If a connection is lost, questions are sent again, and changes are not.
    pub async fn exchange(&self, lines: &[Bytes], is_change: bool) -> Result<Vec<Bytes>, Lost> {
        let _slot = self.slots.acquire().await.map_err(|_| Lost::Unreached)?;
        let mut lost = Lost::Unreached;
        for _ in 0..2 {
            let found = self.idle().pop();
            let mut stream = match found.filter(LineStream::is_idle) {
                Some(stream) => stream,
                None => LineStream::to(&self.path).await.map_err(|_| lost)?,
            };
            if let Ok(replies) = stream.exchange(lines).await {
                self.idle().push(stream);
                return Ok(replies);
            }
            // Those that are idle are as old.
            self.idle().clear();
            lost = Lost::Sent;
            if is_change {
                break;
            }
        }
        Err(lost)
    }
}
