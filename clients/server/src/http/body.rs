//! The body of a request, read within limits of size and time.

use super::fields::{is_field, is_text};
use super::head::Framing;
use super::problem::Problem;
use crate::limits::{BODY as MOST_BODY, SMALL};
use crate::program::room::{lost, Taken};
use bytes::{Buf, BytesMut};
use std::time::Duration;
use tokio::io::{AsyncReadExt, AsyncWriteExt};
use tokio::net::TcpStream;
use tokio::time::{timeout, timeout_at, Instant};

/// The longest line between chunks, and the most bytes of all fields after the last one.
const MOST_CHUNK_LINE: usize = 1 << 12;
const MOST_TRAILER: usize = 1 << 14;

const PIECE: usize = 1 << 14;

/// What is left of a body.
#[derive(Clone, Copy, Debug, PartialEq, Eq)]
enum Left {
    /// This many bytes, and then nothing.
    Length(u64),
    /// The line that begins a chunk.
    Chunk,
    /// This many bytes of a chunk.
    InChunk(u64),
    /// The end of a chunk.
    EndOfChunk,
    /// The fields after the last chunk, of which so many bytes were read.
    Trailer(usize),
    Nothing,
}

/// What was done of a body.
pub struct BodyState {
    left: Left,
    /// Whether the client waits for a word before it sends it.
    expects: bool,
    /// Whether it couldn't be read.
    is_wrong: bool,
}

/// Why a body can't be read.
enum Fault {
    NotWhole,
    TooLong,
    NoRoom,
    Slow,
}

impl BodyState {
    /// A body that nothing was read of.
    pub fn new(framing: Framing, expects: bool) -> BodyState {
        let left = match framing {
            Framing::Length(0) => Left::Nothing,
            Framing::Length(length) => Left::Length(length),
            Framing::Chunks => Left::Chunk,
        };
        BodyState { left, expects: expects && left != Left::Nothing, is_wrong: false }
    }

    /// Whether all was read.
    pub fn is_done(&self) -> bool {
        self.left == Left::Nothing
    }

    /// Whether what is left may be read only to go on after it.
    pub fn may_be_dropped(&self) -> bool {
        let is_long = matches!(self.left, Left::Length(length) if length > MOST_BODY as u64);
        !self.expects && !self.is_wrong && !is_long
    }

    /// The body. The room for it is taken, of one in chunks piece by piece, and none of it is given to others when it is whole.
    pub async fn all(
        &mut self,
        stream: &mut TcpStream,
        buffer: &mut BytesMut,
        taken: &mut Option<Taken>,
        patience: Duration,
    ) -> Result<Vec<u8>, Problem> {
        if matches!(self.left, Left::Length(length) if length > MOST_BODY as u64) {
            return Err(too_long());
        }
        let read = timeout(patience, self.read(stream, buffer, taken, patience)).await.unwrap_or(Err(Fault::Slow));
        taken.iter().for_each(|taken| taken.waits(false));
        self.is_wrong = read.is_err();
        read.map_err(|fault| match fault {
            Fault::NotWhole => Problem::new(400, "body", "the body is not whole"),
            Fault::TooLong => too_long(),
            Fault::NoRoom => Problem::busy("too many bytes of requests are on their way: send the request again"),
            Fault::Slow => {
                let seconds = patience.as_secs();
                let told =
                    format!("the body did not come within {seconds} seconds, and half of that for {SMALL} bytes");
                Problem::new(408, "slow", told)
            }
        })
    }

    /// Reads what is left, and drops it; whether it came.
    pub async fn drop_rest(&mut self, stream: &mut TcpStream, buffer: &mut BytesMut, patience: Duration) -> bool {
        matches!(timeout(patience, self.read(stream, buffer, &mut None, patience)).await, Ok(Ok(_)))
    }

    /// The body that is read, or nothing if no room is taken for it.
    async fn read(
        &mut self,
        stream: &mut TcpStream,
        buffer: &mut BytesMut,
        taken: &mut Option<Taken>,
        patience: Duration,
    ) -> Result<Vec<u8>, Fault> {
        let (mut body, mut count_of_all) = (Vec::new(), 0);
        let mut rate = LeastRate::new(patience / 2);
        if let Left::Length(length) = self.left {
            // At once, so that those who have a part of their room don't wait for each other.
            has_room(taken, length as usize).await?;
            if taken.is_some() {
                body.reserve(length as usize);
            }
        }
        if std::mem::take(&mut self.expects) && buffer.is_empty() {
            stream.write_all(b"HTTP/1.1 100 Continue\r\n\r\n").await.map_err(|_| Fault::NotWhole)?;
        }
        loop {
            while let Some(count) = self.step(buffer)? {
                count_of_all += count;
                if count_of_all > MOST_BODY {
                    return Err(Fault::TooLong);
                }
                if matches!(self.left, Left::InChunk(_)) {
                    has_room(taken, count_of_all).await?;
                }
                if let Some(taken) = taken {
                    taken.moved(count);
                    body.extend_from_slice(&buffer[..count]);
                }
                buffer.advance(count);
                rate.moved(count);
            }
            if self.is_done() {
                return Ok(body);
            }
            buffer.reserve(PIECE);
            tokio::select! {
                read = timeout_at(rate.deadline, stream.read_buf(buffer)) => match read {
                    Ok(Ok(count)) if count > 0 => (),
                    Ok(_) => return Err(Fault::NotWhole),
                    Err(_) => return Err(Fault::Slow),
                },
                () = lost(taken) => return Err(Fault::NoRoom),
            }
        }
    }

    /// How many of the bytes that have come are next in the body; none if more must come, or nothing is left.
    fn step(&mut self, buffer: &mut BytesMut) -> Result<Option<usize>, Fault> {
        loop {
            self.left = match self.left {
                Left::Nothing => return Ok(None),
                Left::Length(0) => Left::Nothing,
                Left::InChunk(0) => Left::EndOfChunk,
                Left::Length(left) | Left::InChunk(left) => {
                    let count = left.min(buffer.len() as u64);
                    if count == 0 {
                        return Ok(None);
                    }
                    let rest = left - count;
                    self.left =
                        if matches!(self.left, Left::Length(_)) { Left::Length(rest) } else { Left::InChunk(rest) };
                    return Ok(Some(count as usize));
                }
                Left::Chunk => match line(buffer, MOST_CHUNK_LINE)? {
                    Some(line) => match chunk_size(&line).ok_or(Fault::NotWhole)? {
                        0 => Left::Trailer(0),
                        size => Left::InChunk(size),
                    },
                    None => return Ok(None),
                },
                Left::EndOfChunk => match line(buffer, 0)? {
                    Some(_) => Left::Chunk,
                    None => return Ok(None),
                },
                Left::Trailer(read) => match line(buffer, MOST_TRAILER)? {
                    Some(line) if line.is_empty() => Left::Nothing,
                    Some(line) if read + line.len() > MOST_TRAILER || !is_field(&line) => return Err(Fault::NotWhole),
                    Some(line) => Left::Trailer(read + line.len()),
                    None => return Ok(None),
                },
            };
        }
    }
}

/// The rate at which a client has to send at least: so much of a time for each small piece.
struct LeastRate {
    of_a_piece: Duration,
    /// When the rest of this piece has to be there.
    deadline: Instant,
    moved: usize,
}

impl LeastRate {
    fn new(of_a_piece: Duration) -> LeastRate {
        LeastRate { of_a_piece, deadline: Instant::now() + of_a_piece, moved: 0 }
    }

    fn moved(&mut self, count: usize) {
        self.moved += count;
        if self.moved >= SMALL {
            (self.moved, self.deadline) = (0, Instant::now() + self.of_a_piece);
        }
    }
}

/// Takes room for a body of so many bytes in all, from now on as one whose client is waited for.
async fn has_room(taken: &mut Option<Taken>, size: usize) -> Result<(), Fault> {
    if let Some(taken) = taken {
        if !taken.becomes_soon(size).await {
            return Err(Fault::NoRoom);
        }
        taken.waits(true);
    }
    Ok(())
}

fn too_long() -> Problem {
    Problem::new(413, "body", "the body has over 2,097,152 bytes: send a smaller one, or several")
}

/// Takes a line of at most so many bytes, without its CR and LF, if it is there whole.
fn line(buffer: &mut BytesMut, most: usize) -> Result<Option<BytesMut>, Fault> {
    let end = match memchr::memchr(b'\n', buffer) {
        Some(place) if place == 0 || buffer[place - 1] != b'\r' => return Err(Fault::NotWhole),
        Some(place) => place - 1,
        None if buffer.len() > most + 1 || (most == 0 && !b"\r".starts_with(buffer)) => return Err(Fault::NotWhole),
        None => return Ok(None),
    };
    if end > most || memchr::memchr(b'\r', &buffer[..end]).is_some() {
        return Err(Fault::NotWhole);
    }
    let line = buffer.split_to(end);
    buffer.advance(2);
    Ok(Some(line))
}

/// The size in the line that begins a chunk (RFC 9112, section 7.1); extensions are left out.
fn chunk_size(line: &[u8]) -> Option<u64> {
    let digits = line.iter().take_while(|byte| byte.is_ascii_hexdigit()).count();
    let rest = &line[digits..];
    // Blanks are allowed before an extension alone.
    let is_extension = || rest.iter().copied().all(is_text);
    let is_end =
        rest.is_empty() || (rest.iter().find(|byte| !matches!(byte, b' ' | b'\t')) == Some(&b';') && is_extension());
    let text = std::str::from_utf8(&line[..digits]).ok().filter(|_| is_end && (1..=16).contains(&digits))?;
    u64::from_str_radix(text, 16).ok()
}

#[cfg(test)]
mod tests {
    use super::{chunk_size, BodyState, Framing};
    use bytes::{Buf, BytesMut};

    /// What is read of bytes that come one by one, and what is left of them.
    fn read(framing: Framing, sent: &[u8]) -> Option<(Vec<u8>, usize)> {
        let (mut state, mut buffer, mut body) = (BodyState::new(framing, false), BytesMut::new(), Vec::new());
        for (place, byte) in sent.iter().enumerate() {
            buffer.extend_from_slice(&[*byte]);
            while let Some(count) = state.step(&mut buffer).ok()? {
                body.extend_from_slice(&buffer[..count]);
                buffer.advance(count);
            }
            if state.is_done() {
                return Some((body, sent.len() - place - 1));
            }
        }
        None
    }

    #[test]
    fn chunks_are_joined() {
        let sent = b"3\r\nabc\r\n0002 \t;x=y\r\nde\r\n0\r\nX: 1\r\n\r\nrest";
        assert_eq!(read(Framing::Chunks, sent), Some((b"abcde".to_vec(), 4)));
        assert_eq!(read(Framing::Length(3), b"abcd"), Some((b"abc".to_vec(), 1)));
    }

    #[test]
    fn what_is_no_chunk_is_refused() {
        for sent in [
            &b"2\r\n{}XX0\r\n\r\n"[..],
            b"2\n{}\r\n0\r\n\r\n",
            b"x\r\n",
            b"\r\n",
            b"2\r\n{}\n0\r\n\r\n",
            b"-1\r\n",
            b"0\r\n\n",
            b"2 \r\n{}\r\n0\r\n\r\n",
            b"12345678901234567\r\n",
            b"2;x=\0\r\n{}\r\n0\r\n\r\n",
            b"0\r\nX\r\n\r\n",
            b"0\r\nX: 1\r\n 2\r\n\r\n",
            b"0\r\nX : 1\r\n\r\n",
            b"0\r\nX: \0\r\n\r\n",
        ] {
            assert_eq!(read(Framing::Chunks, sent), None, "{:?}", String::from_utf8_lossy(sent));
        }
        assert_eq!((chunk_size(b"fF"), chunk_size(b"1g"), chunk_size(b"")), (Some(255), None, None));
    }
}
