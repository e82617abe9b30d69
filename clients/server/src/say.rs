//! What is said on the standard streams. The server serves on if they take nothing, such as a log on a full disk.

use crate::error::{system_words, Error};
use std::io::{self, Write};
use std::os::unix::ffi::OsStrExt;
use std::os::unix::io::AsRawFd;
use std::os::unix::net::UnixDatagram;
use std::sync::atomic::{AtomicBool, Ordering};
use std::sync::Mutex;

/// The complaints that standard error didn't take, and whether there are some.
static WAITING: Mutex<Vec<String>> = Mutex::new(Vec::new());
static WAITS: AtomicBool = AtomicBool::new(false);

/// The most that wait.
const MOST_WAITING: usize = 16;

/// Writes a line to a standard stream, unless that takes nothing now, such as a pipe that nobody reads.
fn write_line(stream: &mut (impl Write + AsRawFd), text: &str) -> io::Result<()> {
    let mut asked = libc::pollfd { fd: stream.as_raw_fd(), events: libc::POLLOUT, revents: 0 };
    // SAFETY: `asked` is one such structure, which lives until the call returns, and it doesn't wait.
    if unsafe { libc::poll(&mut asked, 1, 0) } == 0 {
        return Err(io::ErrorKind::WouldBlock.into());
    }
    writeln!(stream, "{text}").and_then(|()| stream.flush())
}

/// Says on standard output that clients may connect.
pub fn announce(text: &str) {
    if let Err(error) = write_line(&mut io::stdout(), text) {
        complain(&format!("standard output cannot be written: {error}"));
    }
}

/// Shows a text on standard output, for which alone the server was started.
pub fn show(text: &str) -> Result<(), Error> {
    let mut output = io::stdout();
    let shown = output.write_all(text.as_bytes()).and_then(|()| output.flush());
    shown.map_err(|error| Error::new(format!("standard output cannot be written: {}", system_words(&error))))
}

/// Says on standard error what went wrong.
pub fn complain(text: &str) {
    let mut waiting = WAITING.lock().unwrap_or_else(std::sync::PoisonError::into_inner);
    waiting.push(text.to_owned());
    let said = waiting.iter().take_while(|text| write_line(&mut io::stderr(), text).is_ok()).count();
    waiting.drain(..said);
    let more = waiting.len().saturating_sub(MOST_WAITING);
    waiting.drain(..more);
    WAITS.store(!waiting.is_empty(), Ordering::Relaxed);
}

/// Says what standard error didn't take before, if there is anything.
pub fn try_again() {
    if WAITS.load(Ordering::Relaxed) {
        let last = WAITING.lock().unwrap_or_else(std::sync::PoisonError::into_inner).pop();
        last.iter().for_each(|text| complain(text));
    }
}

/// Tells systemd how far the service is, if it asks for that (`sd_notify`, section "Description").
pub fn notify(state: &str) {
    let name = std::env::var_os("NOTIFY_SOCKET").unwrap_or_default();
    let sent = match name.as_bytes() {
        [b'/', ..] => UnixDatagram::unbound().and_then(|socket| socket.send_to(state.as_bytes(), &name)),
        [b'@', abstract_name @ ..] => send_to_abstract(abstract_name, state.as_bytes()),
        _ => return,
    };
    if let Err(error) = sent {
        complain(&format!("systemd was not told `{state}`: {error}"));
    }
}

/// Sends a datagram to a socket in the abstract namespace (unix(7)).
fn send_to_abstract(name: &[u8], sent: &[u8]) -> io::Result<usize> {
    // SAFETY: all bytes of this structure may be 0.
    let mut address: libc::sockaddr_un = unsafe { std::mem::zeroed() };
    address.sun_family = libc::AF_UNIX as libc::sa_family_t;
    let place = address.sun_path.get_mut(1..=name.len()).ok_or(io::ErrorKind::InvalidInput)?;
    place.iter_mut().zip(name).for_each(|(place, byte)| *place = *byte as libc::c_char);
    let length = std::mem::size_of::<libc::sa_family_t>() + 1 + name.len();
    let socket = UnixDatagram::unbound()?;
    // SAFETY: both pointers are to as many bytes as is said, which live until the call returns; the socket is open.
    let count = unsafe {
        let address = std::ptr::addr_of!(address).cast();
        libc::sendto(socket.as_raw_fd(), sent.as_ptr().cast(), sent.len(), 0, address, length as libc::socklen_t)
    };
    usize::try_from(count).map_err(|_| io::Error::last_os_error())
}
