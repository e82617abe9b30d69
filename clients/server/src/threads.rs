//! The threads that serve clients: some for what is small, and one for what is large or is done for many. So what is small waits for
//! nothing that takes long, and finds a processor that is free, if there are two.

use crate::error::Error;
use crate::limits::TASKS;
use tokio::runtime::{Builder, Handle, Runtime};

/// All of them.
pub struct Threads {
    small: Runtime,
    large: Runtime,
}

/// What tasks are given to.
#[derive(Clone)]
pub struct Workers {
    /// The threads for what is small.
    pub small: Handle,
    /// The one for what is large.
    pub large: Handle,
}

impl Threads {
    /// Begins them.
    pub fn begin() -> Result<Threads, Error> {
        Ok(Threads {
            small: runtime(Builder::new_multi_thread().thread_name("jpstored"))?,
            large: runtime(Builder::new_multi_thread().thread_name("jpstored-large").worker_threads(1))?,
        })
    }

    /// What tasks are given to.
    pub fn workers(&self) -> Workers {
        Workers { small: self.small.handle().clone(), large: self.large.handle().clone() }
    }

    /// Ends them, whatever they do.
    pub fn end(self) {
        self.small.shutdown_background();
        self.large.shutdown_background();
    }
}

/// A runtime that soon looks for what has come while other tasks are to be done.
pub fn runtime(builder: &mut Builder) -> Result<Runtime, Error> {
    let built = builder.enable_all().event_interval(TASKS).global_queue_interval(TASKS).build();
    built.map_err(|error| Error::new(format!("the server cannot begin: {error}")))
}
