//! The ends of the program's pipes: lines are written while replies are read, so that neither waits for the other.

use bytes::{Bytes, BytesMut};
use std::io;
use std::os::unix::io::AsRawFd;
use tokio::io::{AsyncReadExt, AsyncWriteExt};
use tokio::process::{ChildStdin, ChildStdout};

/// How many bytes a pipe holds, if the system allows it.
const PIPE: libc::c_int = 1 << 20;

/// How many bytes are read at once.
const PIECE: usize = 1 << 16;

/// The program's standard input and output.
pub struct Pipes {
    input: Option<ChildStdin>,
    output: ChildStdout,
    buffer: BytesMut,
    /// How many bytes of the buffer are known to have no LF.
    looked: usize,
}

fn widen(pipe: &impl AsRawFd) {
    // SAFETY: the descriptor is open as long as `pipe` is borrowed, and this call touches no memory of ours. If it fails,
    // the pipe is as wide as it was.
    unsafe {
        libc::fcntl(pipe.as_raw_fd(), libc::F_SETPIPE_SZ, PIPE);
    }
}

impl Pipes {
    /// The ends of these pipes.
    pub fn new(input: ChildStdin, output: ChildStdout) -> Pipes {
        widen(&input);
        widen(&output);
        Pipes { input: Some(input), output, buffer: BytesMut::new(), looked: 0 }
    }

    /// Writes lines, and reads this many replies, each with its LF. It fails if the program ends before.
    pub async fn exchange(&mut self, lines: &[u8], count: usize) -> io::Result<Vec<Bytes>> {
        let Pipes { input, output, buffer, looked } = self;
        let input = input.as_mut().ok_or(io::ErrorKind::BrokenPipe)?;
        let written = async {
            input.write_all(lines).await?;
            input.flush().await
        };
        let read = async {
            let mut replies = Vec::with_capacity(count);
            while replies.len() < count {
                replies.push(next_line(output, buffer, looked).await?);
            }
            Ok(replies)
        };
        let ((), replies) = tokio::try_join!(written, read)?;
        Ok(replies)
    }

    /// Says that no more lines come, and reads what the program still writes: else it would wait for that.
    pub async fn close(&mut self) {
        self.input = None;
        self.buffer.clear();
        // The replies are nobody's any more.
        let _ = tokio::io::copy(&mut self.output, &mut tokio::io::sink()).await;
    }
}

async fn next_line(output: &mut ChildStdout, buffer: &mut BytesMut, looked: &mut usize) -> io::Result<Bytes> {
    loop {
        if let Some(place) = memchr::memchr(b'\n', &buffer[*looked..]) {
            let line = buffer.split_to(*looked + place + 1).freeze();
            *looked = 0;
            return Ok(line);
        }
        *looked = buffer.len();
        buffer.reserve(PIECE);
        if output.read_buf(buffer).await? == 0 {
            return Err(io::ErrorKind::UnexpectedEof.into());
        }
    }
}
