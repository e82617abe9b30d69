//! The address at which the server is asked over HTTP.

use crate::error::{system_words, Error};
use crate::limits::{BACKLOG, RECEIVED, SENT};
use std::io::{self, ErrorKind};
use std::net::{SocketAddr, ToSocketAddrs};
use std::time::{Duration, Instant};
use tokio::net::{TcpListener, TcpSocket};
use tokio::runtime::Handle;
use tokio::time::sleep;

/// How long it waits before it tries a port again that another program has.
const PAUSE: Duration = Duration::from_millis(50);

/// The host and the port of `HOST:PORT`, with an IPv6 address in brackets.
pub fn place(listen: &str) -> Result<(String, u16), Error> {
    let wrong = || Error::new(format!("`{listen}` is not HOST:PORT, such as 127.0.0.1:8080 or [::1]:8080"));
    let (host, port) = listen.rsplit_once(':').ok_or_else(wrong)?;
    let host = match host.strip_prefix('[').and_then(|host| host.strip_suffix(']')) {
        Some(host) => host,
        None if host.is_empty() || host.contains(|letter| matches!(letter, ':' | '[' | ']')) => return Err(wrong()),
        None => host,
    };
    let is_number = (1..=5).contains(&port.len()) && port.bytes().all(|byte| byte.is_ascii_digit());
    let port = port.parse().ok().filter(|_| is_number).ok_or_else(wrong)?;
    Ok((host.to_owned(), port))
}

/// The address; only that of this machine without a token.
pub fn address(host: &str, port: u16, has_token: bool) -> Result<SocketAddr, Error> {
    let found = (host, port)
        .to_socket_addrs()
        .map_err(|error| Error::new(format!("{host} is no address: {}", system_words(&error))))?;
    let address = found.into_iter().next().ok_or_else(|| Error::new(format!("{host} is no address")))?;
    if !address.ip().is_loopback() && !has_token {
        return Err(Error::new(format!(
            "{host} can be reached from other machines: that needs a token (--token-file)"
        )));
    }
    Ok(address)
}

/// A socket at the address, which belongs to the runtime of `workers`. A port that another program has is waited for: a
/// server that was killed may have a child that hasn't let go of it yet.
pub async fn at(address: SocketAddr, wait: Duration, workers: &Handle) -> Result<TcpListener, Error> {
    let until = Instant::now() + wait;
    loop {
        match bound(address, workers) {
            Err(error) if error.kind() == ErrorKind::AddrInUse && Instant::now() < until => sleep(PAUSE).await,
            bound => return bound.map_err(|error| told(address, &error)),
        }
    }
}

fn bound(address: SocketAddr, workers: &Handle) -> io::Result<TcpListener> {
    let _entered = workers.enter();
    let socket = if address.is_ipv4() { TcpSocket::new_v4()? } else { TcpSocket::new_v6()? };
    socket.set_reuseaddr(true)?;
    socket.set_recv_buffer_size(RECEIVED)?;
    socket.set_send_buffer_size(SENT)?;
    socket.bind(address)?;
    socket.listen(BACKLOG)
}

fn told(address: SocketAddr, error: &io::Error) -> Error {
    match error.kind() {
        ErrorKind::AddrInUse => {
            Error::new(format!("another program listens at {address}: end it, or choose another port"))
        }
        ErrorKind::PermissionDenied => {
            Error::new(format!("only root may listen at {address}: choose a port from 1024 on, and a proxy before it"))
        }
        _ => Error::new(format!("{address} cannot be listened at: {}", system_words(error))),
    }
}

#[cfg(test)]
mod tests {
    use super::{address, place};

    #[test]
    fn addresses_have_a_host_and_a_port() {
        assert_eq!(place("127.0.0.1:80").unwrap(), ("127.0.0.1".to_owned(), 80));
        assert_eq!(place("[::1]:0").unwrap(), ("::1".to_owned(), 0));
        for listen in ["8080", "127.0.0.1", "127.0.0.1:99999", ":80", "::1:80", "x:", "x:+1", "[x:1"] {
            assert!(place(listen).is_err(), "{listen}");
        }
        assert!(
            address("127.0.0.1", 0, false).is_ok()
                && address("0.0.0.0", 0, false).is_err()
                && address("0.0.0.0", 0, true).is_ok()
        );
    }
}
