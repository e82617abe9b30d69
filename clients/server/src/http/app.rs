//! What all requests share.

use super::date::Clock;
use super::facts::Counts;
use super::guard::Guard;
use super::reasons::Reasons;
use super::trees::Trees;
use crate::limits::{BODIES, EXPORTS, FOLLOWERS, GRACE, HEADS, PLACE, QUERIES};
use crate::program::room::Room;
use crate::store::Store;
use crate::threads::Workers;
use std::time::Duration;
use tokio::sync::Semaphore;

/// The store over HTTP.
pub struct App {
    /// The store.
    pub store: Store,
    /// Who may ask.
    pub guard: Guard,
    /// Why a document is not valid.
    pub reasons: Reasons,
    /// What was answered.
    pub facts: Counts,
    /// The time now.
    pub date: Clock,
    /// The bytes of bodies.
    pub bodies: Room,
    /// The bytes of long heads.
    pub heads: Room,
    /// The queries that are asked.
    pub queries: Semaphore,
    /// The texts of which values are made.
    pub trees: Trees,
    /// The clients that read all documents.
    pub exports: Room,
    /// The followers that there may be.
    pub followers: Room,
    /// How long a client may take for a request; for a piece of an answer half of it.
    pub patience: Duration,
    /// The threads.
    pub workers: Workers,
}

impl App {
    /// The store over HTTP.
    pub fn new(store: Store, guard: Guard, reasons: Reasons, patience: Duration, workers: Workers) -> App {
        App {
            store,
            guard,
            reasons,
            facts: Counts::default(),
            date: Clock::default(),
            bodies: Room::of_bytes(BODIES),
            heads: Room::of_bytes(HEADS),
            queries: Semaphore::new(QUERIES),
            trees: Trees::new(workers.large.clone()),
            exports: Room::of_places(EXPORTS, GRACE),
            followers: Room::of_places(FOLLOWERS, PLACE),
            patience,
            workers,
        }
    }
}
