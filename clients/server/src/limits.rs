//! What the server keeps for clients, and how it shares itself among them: one rule, and one table.
//!
//! The rule: what is small (up to [`SMALL`] bytes) seldom waits for what is large, and needs no room that others share. What is
//! large takes room; when there is none left, the client that moved least lately gives its room up. Whatever is done for a client
//! at once ends after some bytes, and then it is the turn of others. What takes long leaves others the most of the time. What is
//! large, or goes to many, has threads of its own, and leaves the other processors to what is small.

use std::time::Duration;

/// Up to this size a head, a body, a line, an answer, or a reply is small.
pub const SMALL: usize = 1 << 16;

// Rounds of the program: the small changes that have arrived, then some questions, then one line that may take long.

/// The most lines that are done together, and the most bytes of them.
pub const ROUND_LINES: usize = 1024;
pub const ROUND_BYTES: usize = 1 << 22;

/// After this many bytes of replies to small questions others have their turn; a client is handed no more at once.
pub const ROUND_REPLIES: usize = 1 << 18;

/// The most questions that are sent to the program before their replies are looked at.
pub const WINDOW: usize = 64;

/// What takes so long that others notice it. Before the next of its kind so many small requests come for each that waited for it,
/// or they have had so many times as long as it took, but this at least, and this at most; all of it only while they come. So it
/// isn't seen at the 99th percentile of what they wait.
pub const LONG: Duration = Duration::from_millis(1);
pub const OTHERS: u64 = 500;
pub const TIMES_AS_LONG: u32 = 8;
pub const LEAST_OTHERS: Duration = Duration::from_millis(64);
pub const MOST_OTHERS: Duration = Duration::from_secs(15);

/// After so many tasks a thread looks for those that have come from elsewhere, and the next connections are let in.
pub const TASKS: u32 = 8;

// Rooms: the bytes of all clients together, beyond the small ones of each.

/// Bodies of requests, and heads, which anybody may send.
pub const BODIES: usize = 1 << 25;
pub const HEADS: usize = 1 << 25;

/// Answers over HTTP, and replies and lines at the socket.
pub const ANSWERS: usize = 1 << 28;
pub const SOCKET_REPLIES: usize = 1 << 28;
pub const SOCKET_LINES: usize = 1 << 28;

// Places: how many clients may do something at once.

/// Those that follow the changes, and those that read all documents: each may have a file of them.
pub const FOLLOWERS: usize = 1000;
pub const EXPORTS: usize = 16;
pub const SOCKET_EXPORTS: usize = 32;

/// Queries that are asked: a reply to one may have 16 MiB.
pub const QUERIES: usize = 8;

// Connections.

/// The most files that may be open, and how many of them are for the server itself.
pub const FILES: libc::rlim_t = 1 << 16;
pub const OWN_FILES: libc::rlim_t = 64;

/// How many connections wait until they are taken, and how many bytes of each the system keeps before they are read, and after
/// they are written. It takes twice as much for them.
pub const BACKLOG: u32 = 4096;
pub const RECEIVED: u32 = 1 << 16;
pub const SENT: u32 = 1 << 17;

/// The most bytes of a body. A line has half of that, so a text with blanks may be sent too.
pub const BODY: usize = 1 << 21;

// Times. A client has half of its patience (`--patience`) for each `SMALL` bytes of a body or an answer.

/// How long the store may take for a reply, and for that to a probe.
pub const REPLY: Duration = Duration::from_secs(60);
pub const PROBE: Duration = Duration::from_secs(3);

/// What has room or a place keeps it for so long, whatever it moves.
pub const GRACE: Duration = Duration::from_millis(500);

/// The same of a place of a follower, which may have nothing to move.
pub const PLACE: Duration = Duration::from_secs(4);

/// How long one waits for room or a place.
pub const WAIT: Duration = Duration::from_secs(5);
