//! The end of the server: all that serves clients learns it, and it is known when they have done.

use std::time::Duration;
use tokio::sync::{mpsc, watch};

/// What one who serves a client holds until it is done.
#[derive(Clone)]
pub struct Ending {
    begun: watch::Receiver<bool>,
    _held: mpsc::Sender<()>,
}

impl Ending {
    /// Waits until the server ends.
    pub async fn begun(&mut self) {
        while !*self.begun.borrow() {
            if self.begun.changed().await.is_err() {
                return;
            }
        }
    }

    /// Whether the server ends.
    pub fn has_begun(&self) -> bool {
        *self.begun.borrow()
    }
}

/// The one who ends the server.
pub struct End {
    begin: watch::Sender<bool>,
    all: mpsc::Receiver<()>,
}

/// The two sides of an end.
pub fn ending() -> (End, Ending) {
    let (begin, begun) = watch::channel(false);
    let (held, all) = mpsc::channel(1);
    (End { begin, all }, Ending { begun, _held: held })
}

impl End {
    /// Tells all of the end.
    pub fn begin(&self) {
        self.begin.send_replace(true);
    }

    /// Waits until all are done, for so long at most.
    pub async fn all_done(&mut self, most: Duration) {
        // Those that aren't done then are broken off.
        let _ = tokio::time::timeout(most, self.all.recv()).await;
    }
}
