//! A connection: its requests are read and answered one after another.

use super::app::App;
use super::body::BodyState;
use super::changes::Events;
use super::head::{self, Framing, Head};
use super::once::Once;
use super::pace;
use super::problem::{phrase_of, Problem};
use super::response::{Body, Response};
use super::routes;
use super::target;
use crate::doors::{let_in, Guest, Places};
use crate::ending::Ending;
use crate::program::room::{lost, Taken};
use bytes::{Bytes, BytesMut};
use std::io;
use std::sync::Arc;
use std::time::Duration;
use tokio::io::{AsyncReadExt, AsyncWriteExt};
use tokio::net::{TcpListener, TcpStream};
use tokio::time::{timeout, timeout_at, Instant};

/// The pieces in which a long answer is written, and how many bytes are read at once.
const PIECE: usize = 1 << 16;
const READ: usize = 1 << 13;

/// After how long without a change a comment is sent to a follower, which shows whether it is still there.
const BEAT: Duration = Duration::from_secs(15);
const COMMENT: &[u8] = b":\n\n";

/// How long, and how many bytes, a client may still send when its answer was sent and the connection ends.
const LINGER: Duration = Duration::from_secs(2);
const MOST_DROPPED: usize = 1 << 25;

/// Takes connections until the end.
pub async fn serve(listener: TcpListener, app: Arc<App>, places: Places, ending: Ending) {
    let listener = &listener;
    let accept = || async move { Ok(listener.accept().await?.0) };
    let serve = |stream, guest| Connection::new(stream, app.clone(), ending.clone(), guest).serve();
    let_in(places, ending.clone(), accept, serve).await;
}

/// A connection of a client.
pub struct Connection {
    pub(super) stream: TcpStream,
    buffer: BytesMut,
    looked: usize,
    /// Whether the buffer has held a long head.
    was_long: bool,
    body: BodyState,
    pub(super) app: Arc<App>,
    ending: Ending,
    guest: Arc<Guest>,
    /// What is taken of others for what is written now.
    held: Option<Taken>,
}

/// A request whose head was read.
pub struct Request<'c> {
    /// What it is asked of.
    pub app: Arc<App>,
    /// The head.
    pub head: Head,
    /// The path of the target.
    pub path: String,
    /// The query string of the target.
    pub query: String,
    /// The host that the target names, if it does.
    pub host: Option<String>,
    /// How it is made once, if it changes something and says so.
    pub once: Option<Once>,
    connection: &'c mut Connection,
    taken: Option<Taken>,
}

impl Request<'_> {
    /// The body.
    pub async fn body(&mut self) -> Result<Vec<u8>, Problem> {
        let Connection { stream, buffer, body, app, guest, .. } = &mut *self.connection;
        guest.is_waited_for();
        let read = tokio::select! {
            biased;
            read = body.all(stream, buffer, &mut self.taken, app.patience) => read?,
            () = guest.must_leave() => return Err(Problem::new(408, "slow", "others wait for the place of this client")),
        };
        guest.waits();
        if let Some(once) = &mut self.once {
            once.take_body(&read);
        }
        Ok(read)
    }
}

/// What becomes of a connection after a request.
#[derive(PartialEq, Eq)]
pub(super) enum After {
    Next,
    Close,
}

impl Connection {
    fn new(stream: TcpStream, app: Arc<App>, ending: Ending, guest: Arc<Guest>) -> Connection {
        let body = BodyState::new(Framing::Length(0), false);
        let buffer = BytesMut::new();
        Connection { stream, buffer, looked: 0, was_long: false, body, app, ending, guest, held: None }
    }

    /// The connection, of which the threads on which this is called hear from now on.
    pub(super) fn adopted(self) -> io::Result<Connection> {
        let stream = TcpStream::from_std(self.stream.into_std()?)?;
        Ok(Connection { stream, ..self })
    }

    /// Answers what is no request, and ends the connection.
    pub(super) async fn refuse(&mut self, refused: head::Refused) -> io::Result<()> {
        let head::Refused { why, known } = refused;
        let problem = match why.status {
            503 => Problem::busy(why.told),
            status => Problem::new(status, "request", why.told),
        };
        let mut response = problem.response();
        response.fields.extend(self.app.guard.allowance(&known));
        self.app.facts.count(&known.method, response.status);
        self.send(response, known.method == "HEAD", known.is_1_1, true).await?;
        self.close().await
    }

    /// The next head; none if the client has ended, was idle for too long, or the server ends.
    pub(super) async fn head(&mut self) -> io::Result<Option<Result<Head, head::Refused>>> {
        let deadline = Instant::now() + self.app.patience;
        let mut taken = None;
        self.guest.is_waited_for();
        loop {
            let found = head::take(&mut self.buffer, &mut self.looked);
            if let Some(found) = found.transpose() {
                self.guest.waits();
                return Ok(Some(found));
            }
            if self.buffer.len() > READ {
                self.was_long = true;
                let taken = taken.get_or_insert_with(|| self.app.heads.begin());
                if !taken.becomes(self.buffer.len()) {
                    return Ok(Some(Err(head::Refused::of(head::NO_ROOM, &self.buffer))));
                }
                taken.waits(true);
            }
            if self.was_long && self.buffer.is_empty() {
                (self.buffer, self.was_long) = (BytesMut::new(), false);
            }
            self.buffer.reserve(READ);
            let Connection { stream, buffer, ending, guest, .. } = self;
            let read = tokio::select! {
                biased;
                read = timeout_at(deadline, stream.read_buf(buffer)) => read,
                () = ending.begun() => return Ok(None),
                () = guest.must_leave() => return Ok(None),
                () = lost(&taken) => return Ok(Some(Err(head::Refused::of(head::NO_ROOM, buffer)))),
            };
            match read {
                Ok(Ok(0)) | Err(_) => return Ok(None),
                Ok(Ok(count)) => taken.iter().for_each(|taken| taken.moved(count)),
                Ok(Err(error)) => return Err(error),
            }
        }
    }

    /// Answers a request.
    pub(super) async fn answer(mut self, head: Head) -> io::Result<(Connection, After)> {
        self.body = BodyState::new(head.framing, head.expects());
        let app = self.app.clone();
        let (method, keeps, is_1_1) = (head.method.clone(), head.keeps(), head.is_1_1);
        let allowance = app.guard.allowance(&head);
        let mut response = self.response(head, &app).await;
        response.fields.extend(allowance);
        app.facts.count(&method, response.status);
        // A stream of which an old client can't see the end, or a body that can't be passed over.
        let must_close = (response.is_stream() && !is_1_1) || (!self.body.is_done() && !self.body.may_be_dropped());
        let is_end = self.ending.has_begun() || self.guest.is_last();
        let closes = !keeps || must_close || is_end || response.status == 408;
        if response.is_large() {
            self = self.send_there(response, method == "HEAD", is_1_1, closes).await?;
        } else {
            self.send(response, method == "HEAD", is_1_1, closes).await?;
        }
        if closes {
            return Ok((self, After::Close));
        }
        let Connection { stream, buffer, body, app, .. } = &mut self;
        let is_read = body.is_done() || body.drop_rest(stream, buffer, app.patience).await;
        let after = if is_read && !self.guest.is_last() { After::Next } else { After::Close };
        Ok((self, after))
    }

    async fn response(&mut self, head: Head, app: &Arc<App>) -> Response {
        let is_for = |parts: &target::Target| parts.path != target::WHOLE_SERVER || head.method == "OPTIONS";
        let parts = match target::parts(&head.target).filter(is_for) {
            Some(parts) => parts,
            None => {
                return Problem::new(400, "request", "the target of the request is no address of this server")
                    .response()
            }
        };
        let (path, query, host) = (parts.path.to_owned(), parts.query.to_owned(), parts.host.map(str::to_owned));
        let taken = Some(app.bodies.begin());
        let request = Request { app: app.clone(), head, path, query, host, once: None, connection: self, taken };
        routes::answered(request).await.unwrap_or_else(Problem::response)
    }

    /// Sends an answer.
    pub(super) async fn send(
        &mut self,
        response: Response,
        is_head: bool,
        is_1_1: bool,
        closes: bool,
    ) -> io::Result<()> {
        let mut head = self.head_of(&response);
        if closes {
            add_field(&mut head, "Connection", "close");
        } else if !is_1_1 {
            add_field(&mut head, "Connection", "keep-alive");
        }
        match response.body {
            Body::Bytes(bytes, taken) if response.status != 304 => {
                add_field(&mut head, "Content-Length", &bytes.len().to_string());
                self.held = taken;
                let sent = self.send_bytes(head + "\r\n", if is_head { Bytes::new() } else { bytes }).await;
                self.held = None;
                sent
            }
            Body::Bytes(..) | Body::None => {
                if !matches!(response.status, 204 | 304) {
                    add_field(&mut head, "Content-Length", "0");
                }
                self.write((head + "\r\n").as_bytes()).await
            }
            stream => {
                if is_1_1 {
                    add_field(&mut head, "Transfer-Encoding", "chunked");
                }
                self.write((head + "\r\n").as_bytes()).await?;
                let sent = match stream {
                    Body::Events(events) if !is_head => self.send_events(*events, is_1_1).await,
                    Body::Lines(lines) if !is_head => self.send_lines(*lines, is_1_1).await,
                    _ => Ok(()),
                };
                self.held = None;
                sent
            }
        }
    }

    /// The head of an answer, but for the fields that say how the content is framed.
    fn head_of(&self, response: &Response) -> String {
        let mut text = format!("HTTP/1.1 {} {}\r\n", response.status, phrase_of(response.status));
        if !response.kind.is_empty() {
            add_field(&mut text, "Content-Type", response.kind);
        }
        response.fields.iter().for_each(|(name, value)| add_field(&mut text, name, value));
        if !response.fields.iter().any(|(name, _)| *name == "Cache-Control") {
            add_field(&mut text, "Cache-Control", "no-cache");
        }
        text.push_str(concat!(
            "X-Content-Type-Options: nosniff\r\nServer: jpstore/",
            env!("CARGO_PKG_VERSION"),
            "\r\n"
        ));
        add_field(&mut text, "Date", &self.app.date.text());
        text
    }

    /// Sends the head and the content, a short one together with the head.
    async fn send_bytes(&mut self, head: String, bytes: Bytes) -> io::Result<()> {
        let mut first = head.into_bytes();
        if bytes.len() <= PIECE {
            first.extend_from_slice(&bytes);
            return self.write(&first).await;
        }
        self.write(&first).await?;
        self.write(&bytes).await
    }

    /// Writes bytes; a client that takes too few of them in time, or whose place or room others need more, is given up.
    async fn write(&mut self, bytes: &[u8]) -> io::Result<()> {
        let written = match self.stream.try_write(bytes) {
            Ok(count) if count == bytes.len() => {
                self.moved(count);
                return Ok(());
            }
            Ok(count) => count,
            Err(error) if error.kind() == io::ErrorKind::WouldBlock => 0,
            Err(error) => return Err(error),
        };
        self.guest.is_waited_for();
        let Connection { stream, app, guest, held, .. } = &mut *self;
        held.iter().for_each(|taken| taken.waits(true));
        let moved = |count| held.iter().for_each(|taken| taken.moved(count));
        let done = tokio::select! {
            done = pace::write_all(stream, &bytes[written..], app.patience / 2, moved) => done,
            () = guest.must_leave() => Err(io::ErrorKind::TimedOut.into()),
            () = lost(held) => Err(io::ErrorKind::TimedOut.into()),
        };
        self.guest.waits();
        if matches!(&done, Err(error) if error.kind() == io::ErrorKind::TimedOut) {
            // What it doesn't take would else be kept for it.
            self.stream.set_linger(Some(Duration::ZERO))?;
        }
        done
    }

    /// Notes that the client took so many bytes.
    fn moved(&self, size: usize) {
        self.held.iter().for_each(|taken| taken.moved(size));
    }

    async fn write_piece(&mut self, piece: &[u8], in_chunks: bool) -> io::Result<()> {
        if !in_chunks {
            return self.write(piece).await;
        }
        let mut chunk = format!("{:x}\r\n", piece.len()).into_bytes();
        if piece.len() <= PIECE {
            chunk.extend_from_slice(piece);
        } else {
            // It isn't copied: many followers may be sent the same one.
            self.write(&chunk).await?;
            self.write(piece).await?;
            chunk.clear();
        }
        chunk.extend_from_slice(b"\r\n");
        self.write(&chunk).await
    }

    async fn end_pieces(&mut self, in_chunks: bool) -> io::Result<()> {
        if in_chunks {
            self.write(b"0\r\n\r\n").await?;
        }
        Ok(())
    }

    /// Sends the changes until the client goes away, or is too slow, or the server ends.
    async fn send_events(&mut self, mut events: Events, in_chunks: bool) -> io::Result<()> {
        self.held = events.place.take();
        self.held.iter().for_each(|place| place.waits(true));
        loop {
            self.buffer.reserve(READ);
            self.guest.follows();
            let next = {
                let Connection { stream, buffer, ending, held, guest, .. } = &mut *self;
                tokio::select! {
                    next = timeout(BEAT, events.next()) => next.map_or(Next::Beat, Next::Event),
                    read = stream.read_buf(buffer), if buffer.len() < PIECE => match read? {
                        0 => return Err(io::ErrorKind::ConnectionReset.into()),
                        _ => Next::Nothing,
                    },
                    () = ending.begun() => Next::Event(None),
                    () = lost(held) => Next::Event(None),
                    () = guest.must_leave() => Next::Event(None),
                }
            };
            match next {
                Next::Beat => self.write_piece(COMMENT, in_chunks).await?,
                Next::Event(Some(piece)) => self.write_piece(&piece, in_chunks).await?,
                Next::Event(None) => return self.end_pieces(in_chunks).await,
                Next::Nothing => (),
            }
        }
    }

    async fn send_lines(&mut self, mut lines: super::lines::DocumentLines, in_chunks: bool) -> io::Result<()> {
        self.held = lines.place.take();
        while let Some(piece) = lines.next().await? {
            self.write_piece(&piece, in_chunks).await?;
        }
        self.end_pieces(in_chunks).await
    }

    /// Ends the connection. What the client still sends is dropped for a while, or it might not get its answer.
    pub(super) async fn close(&mut self) -> io::Result<()> {
        self.stream.shutdown().await?;
        let deadline = Instant::now() + LINGER;
        let (mut dropped, mut piece) = (0, vec![0; READ]);
        self.guest.is_waited_for();
        while dropped < MOST_DROPPED && !self.ending.has_begun() {
            let read = tokio::select! {
                read = timeout_at(deadline, self.stream.read(&mut piece)) => read,
                () = self.guest.must_leave() => break,
            };
            match read {
                Ok(Ok(count)) if count > 0 => dropped += count,
                _ => break,
            }
        }
        Ok(())
    }
}

/// What comes next to a follower.
enum Next {
    Event(Option<Bytes>),
    Beat,
    Nothing,
}

fn add_field(text: &mut String, name: &str, value: &str) {
    text.push_str(name);
    text.push_str(": ");
    // No value that came from a client has these: else it could add fields.
    text.extend(value.chars().filter(|letter| !matches!(letter, '\r' | '\n' | '\0')));
    text.push_str("\r\n");
}
