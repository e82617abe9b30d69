//! The proved program, in a process of its own, and what is done with it: rounds of the lines of all clients.

pub mod cache;
mod changes;
mod complaints;
pub mod engine;
pub mod export;
mod growing;
mod handle;
mod job;
mod larger;
mod pipes;
mod questions;
pub mod room;
mod share;
mod sizes;
mod spool;
mod start;
mod waiting;

pub use complaints::as_called;
pub use handle::Handle;
pub use job::{Job, Reply};
pub use larger::remove_leftovers;
pub use spool::Spool;
pub use start::{find, make, start};
