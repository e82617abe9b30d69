//! The Unix socket at which clients send lines.

mod client;
pub mod listening;
mod watch;

use crate::doors::{let_in, Places};
use crate::ending::Ending;
use crate::limits::{GRACE, SOCKET_EXPORTS, SOCKET_LINES, SOCKET_REPLIES};
use crate::program::room::Room;
use crate::program::Handle;
use tokio::net::UnixListener;
use tokio::runtime::Handle as Threads;

/// What all clients share: bytes, exports, and the threads on which changes are told.
struct Rooms {
    replies: Room,
    lines: Room,
    exports: Room,
    large: Threads,
}

/// Takes clients, each of which is attended beside the others, until the end.
pub async fn serve(listener: UnixListener, store: Handle, places: Places, large: Threads, ending: Ending) {
    let (replies, lines) = (Room::of_bytes(SOCKET_REPLIES), Room::of_bytes(SOCKET_LINES));
    let rooms = Rooms { replies, lines, exports: Room::of_places(SOCKET_EXPORTS, GRACE), large };
    let listener = &listener;
    let accept = || async move { Ok(listener.accept().await?.0) };
    let attend = |stream, guest| client::attend(stream, store.clone(), &rooms, ending.clone(), guest);
    let_in(places, ending.clone(), accept, attend).await;
}
