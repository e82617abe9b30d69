//! The least rate at which a client takes what it is sent.

use std::io;
use std::os::unix::io::AsRawFd;
use std::time::Duration;
use tokio::net::TcpStream;
use tokio::time::timeout;

/// How many bytes a client takes in each period.
const PIECE: usize = 1 << 16;

/// Writes all bytes, unless the client takes too few in a period. Those count that it has acknowledged: the system has
/// room for further ones only after much more. `moved` is told how many bytes the system took, each time.
pub async fn write_all(
    stream: &TcpStream,
    mut bytes: &[u8],
    period: Duration,
    moved: impl Fn(usize),
) -> io::Result<()> {
    let mut left = bytes.len() + waiting_in(stream);
    loop {
        if let Ok(done) = timeout(period, write_some(stream, &mut bytes, &moved)).await {
            return done;
        }
        let before = std::mem::replace(&mut left, bytes.len() + waiting_in(stream));
        if before.saturating_sub(left) < PIECE {
            return Err(io::ErrorKind::TimedOut.into());
        }
    }
}

/// Writes bytes until none are left; those that were written are taken away from them.
async fn write_some(stream: &TcpStream, bytes: &mut &[u8], moved: &impl Fn(usize)) -> io::Result<()> {
    while !bytes.is_empty() {
        stream.writable().await?;
        match stream.try_write(bytes) {
            Ok(count) => {
                *bytes = &bytes[count..];
                moved(count);
            }
            Err(error) if error.kind() == io::ErrorKind::WouldBlock => (),
            Err(error) => return Err(error),
        }
    }
    Ok(())
}

/// How many bytes the system has that the client hasn't acknowledged.
fn waiting_in(stream: &TcpStream) -> usize {
    let mut count: libc::c_int = 0;
    // SAFETY: the descriptor is that of an open socket, and `count` is one such number, which lives until the call returns.
    let done = unsafe { libc::ioctl(stream.as_raw_fd(), libc::TIOCOUTQ, &mut count) };
    usize::try_from(count).ok().filter(|_| done == 0).unwrap_or(0)
}
