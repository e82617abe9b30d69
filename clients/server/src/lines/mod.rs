//! The lines of clients and the replies to them: how bytes are cut into lines, which line is what, what a reply says.

pub mod framing;
pub mod kinds;
pub mod replies;
pub mod transactions;

use bytes::Bytes;
use std::collections::VecDeque;

pub use crate::protocol::{MOST_CHANGES, MOST_LINE_BYTES as MOST_LINE};

/// A line with its LF. One without any byte stands for a line that is too long.
pub type Line = Bytes;

/// The line that asks for the status.
pub const STATUS: &[u8] = b"{\"cmd\":\"status\"}\n";

/// The line that asks for the names.
pub const LIST: &[u8] = b"{\"cmd\":\"list\"}\n";

/// The line that makes all slots of a store in format 3 hold what was committed last. In the others it does nothing.
pub const SEAL: &[u8] = b"{\"cmd\":\"seal\"}\n";

/// Lines of a client in the order of the parts of a round: what changes, what asks, what makes room.
#[derive(Debug, Default)]
pub struct Lines {
    /// Those that change documents.
    pub changes: VecDeque<Line>,
    /// Those that only ask, or are refused.
    pub questions: VecDeque<Line>,
    /// Those that make a snapshot or a step of one.
    pub snapshots: VecDeque<Line>,
}

impl Lines {
    /// How many they are.
    pub fn count(&self) -> usize {
        self.changes.len() + self.questions.len() + self.snapshots.len()
    }

    /// Whether there are none.
    pub fn is_empty(&self) -> bool {
        self.count() == 0
    }
}
