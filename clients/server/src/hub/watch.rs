//! The answer to `watch`: each change after a number, and each further one when it is made.

use super::client::Client;
use crate::history::{Beginning, Event, Gone, History};
use crate::lines::replies::{gone, refusal};
use crate::refusals::WATCHING;
use std::io;
use std::os::unix::io::AsRawFd;
use std::time::Duration;
use tokio::io::AsyncReadExt;

/// The bytes of changes that are handed on at once.
const PIECE: usize = 1 << 16;

/// How often it looks whether a client that sends nothing more is still there.
const LOOK: Duration = Duration::from_secs(1);

/// Tells a client changes until it goes away, sends a further line, which is refused, or is so slow that the next ones are
/// gone.
pub(super) async fn tell(
    client: &mut Client,
    history: &History,
    from: Option<u64>,
    name: Option<String>,
) -> io::Result<()> {
    let mut news = history.news();
    let mut since = match history.begin(from, name.as_deref()) {
        Ok(Beginning { since, history, last }) => {
            let begin = format!("{{\"from\":{since},\"history\":\"{history}\",\"ok\":true,\"seq\":{last}}}\n");
            client.write(begin.as_bytes()).await?;
            since
        }
        Err(Gone(from)) => return client.write(&gone(from)).await,
    };
    loop {
        news.borrow_and_update();
        let events = match history.after(since, PIECE) {
            Ok(events) => events,
            Err(Gone(from)) => return client.write(&gone(from)).await,
        };
        if events.is_empty() {
            if !wait(client, &mut news).await? {
                return Ok(());
            }
            continue;
        }
        since += events.len() as u64;
        match &events[..] {
            // It isn't copied: many watchers may be sent the same one.
            [one] => client.write(&one.line()).await?,
            some => client.write(&some.iter().map(Event::line).collect::<Vec<_>>().concat()).await?,
        }
    }
}

/// Waits for the next change; false if the client has gone away or sent a further line, or the server ends.
async fn wait(client: &mut Client, news: &mut tokio::sync::watch::Receiver<u64>) -> io::Result<bool> {
    if client.framing.next().is_some() {
        client.write(&refusal(WATCHING)).await?;
        return Ok(false);
    }
    client.framing.buffer.reserve(1 << 12);
    client.guest.follows();
    tokio::select! {
        changed = news.changed() => return Ok(changed.is_ok()),
        () = client.ending.begun() => return Ok(false),
        () = client.guest.must_leave() => return Ok(false),
        count = client.stream.read_buf(&mut client.framing.buffer), if !client.ended => client.ended = count? == 0,
        () = tokio::time::sleep(LOOK), if client.ended => return Ok(!has_gone(client)),
    }
    if !client.has_room() {
        return Ok(false);
    }
    if client.ended && client.framing.last().is_some() {
        client.write(&refusal(WATCHING)).await?;
        return Ok(false);
    }
    Ok(true)
}

/// Whether neither side of the connection is open any more.
fn has_gone(client: &Client) -> bool {
    let mut asked = libc::pollfd { fd: client.stream.as_raw_fd(), events: 0, revents: 0 };
    // SAFETY: `asked` is one such structure, which lives until the call returns, and it doesn't wait.
    unsafe { libc::poll(&mut asked, 1, 0) > 0 }
}
