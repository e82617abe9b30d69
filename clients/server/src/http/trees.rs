//! Turns to make values of large texts, one at a time, on a thread beside that for what is large. They may take a hundred times the
//! bytes of their text, and are there only as long as they are worked on. A small text waits for no turn.

use crate::limits::SMALL;
use std::panic::resume_unwind;
use tokio::runtime::Handle;
use tokio::sync::Mutex;

/// From this size on what the values of a text took is given back to the system at once.
const MUCH: usize = 1 << 18;

/// The turns.
pub struct Trees {
    turn: Mutex<()>,
    large: Handle,
}

impl Trees {
    /// Turns beside these threads.
    pub fn new(large: Handle) -> Trees {
        Trees { turn: Mutex::new(()), large }
    }

    /// Works on the values of texts of this many bytes together.
    pub async fn work<Made>(&self, size: usize, on: impl FnOnce() -> Made + Send + 'static) -> Made
    where
        Made: Send + 'static,
    {
        if size <= SMALL {
            return on();
        }
        let _turn = self.turn.lock().await;
        let worked = self.large.spawn_blocking(move || {
            let made = on();
            if size >= MUCH {
                // Before the next one has its turn, the system has what the values took: each thread would else keep it.
                // SAFETY: it only gives back what is free.
                unsafe { libc::malloc_trim(0) };
            }
            made
        });
        match worked.await {
            Ok(made) => made,
            Err(failed) if failed.is_panic() => resume_unwind(failed.into_panic()),
            // The threads are ended, and this one too.
            Err(_) => std::future::pending().await,
        }
    }
}

#[cfg(test)]
mod tests {
    use super::{Trees, SMALL};
    use std::time::Duration;
    use tokio::runtime::Handle;
    use tokio::time::timeout;

    #[tokio::test]
    async fn small_texts_wait_for_no_large_one() {
        let trees = Trees::new(Handle::current());
        let turn = trees.turn.lock().await;
        assert_eq!(trees.work(SMALL, || 1).await, 1);
        assert!(timeout(Duration::from_millis(5), trees.work(SMALL + 1, || 1)).await.is_err());
        drop(turn);
        assert_eq!(trees.work(SMALL + 1, || 1).await, 1);
    }
}
