//! What clients share: bytes of requests or replies that are in memory at once, or places. When there is none left, the one that
//! moved least lately gives its share up.

use crate::limits::{GRACE, SMALL, WAIT};
use std::sync::atomic::{AtomicBool, Ordering};
use std::sync::{Arc, Mutex, MutexGuard, PoisonError};
use std::time::{Duration, Instant};
use tokio::sync::Notify;

/// How often one who waits looks again.
const LOOK: Duration = Duration::from_millis(25);

/// After this time what a client has moved counts half.
const HALF: Duration = Duration::from_millis(250);

/// So many bytes or places, of which each one takes what it needs as long as it needs it.
#[derive(Clone)]
pub struct Room(Arc<Shared>);

struct Shared {
    /// What each has of its own, and takes of no room.
    own: usize,
    left: Mutex<Left>,
}

/// What is left, and who has the rest.
struct Left {
    size: usize,
    /// How long one keeps what it has, whatever it moves.
    grace: Duration,
    /// When nobody was found that had to give something up.
    failed: Option<Instant>,
    holders: Vec<Arc<Holder>>,
}

/// What was taken of a room; it is given back when this is dropped.
pub struct Taken {
    room: Room,
    size: usize,
    holder: Option<Arc<Holder>>,
}

/// One who has taken something that is shared.
struct Holder {
    begun: Instant,
    state: Mutex<Holding>,
    is_lost: AtomicBool,
    lost: Notify,
}

struct Holding {
    /// What it has of the room.
    size: usize,
    /// What it moved, and until when: it counts half after a while.
    moved: f64,
    at: Instant,
    /// Whether its client is waited for.
    waits: bool,
}

fn lock<T>(mutex: &Mutex<T>) -> MutexGuard<'_, T> {
    mutex.lock().unwrap_or_else(PoisonError::into_inner)
}

impl Room {
    /// A room of this many bytes. What is small needs none of them.
    pub fn of_bytes(most: usize) -> Room {
        Room::new(most, SMALL, GRACE)
    }

    /// A room of so many places, each of which is kept for this time at least.
    pub fn of_places(most: usize, grace: Duration) -> Room {
        Room::new(most, 0, grace)
    }

    fn new(size: usize, own: usize, grace: Duration) -> Room {
        Room(Arc::new(Shared { own, left: Mutex::new(Left { size, grace, failed: None, holders: Vec::new() }) }))
    }

    /// Takes nothing yet.
    pub fn begin(&self) -> Taken {
        Taken { room: self.clone(), size: 0, holder: None }
    }

    /// Takes this much, if there is enough.
    #[cfg(test)]
    pub fn take(&self, size: usize) -> Option<Taken> {
        let mut taken = self.begin();
        taken.more(size).then(|| taken)
    }

    /// Takes this much as soon as there is enough; none if that takes too long.
    pub async fn take_soon(&self, size: usize) -> Option<Taken> {
        let mut taken = self.begin();
        taken.becomes_soon(size).await.then(|| taken)
    }
}

impl Taken {
    /// Takes so much more; whether there is enough.
    pub fn more(&mut self, size: usize) -> bool {
        self.becomes(self.size + size)
    }

    /// Has as much taken as this as soon as there is enough for it; whether there was.
    pub async fn becomes_soon(&mut self, size: usize) -> bool {
        let until = Instant::now() + WAIT;
        while !self.becomes(size) {
            if self.is_lost() || Instant::now() >= until {
                return false;
            }
            tokio::time::sleep(LOOK).await;
        }
        true
    }

    /// Has as much taken as this; whether there is enough for it.
    pub fn becomes(&mut self, size: usize) -> bool {
        let own = self.room.0.own;
        let wanted = size.saturating_sub(own);
        if wanted == self.size.saturating_sub(own) {
            self.size = size;
            return true;
        }
        let holder = self.holder.get_or_insert_with(Holder::new).clone();
        let enough = !holder.has_lost() && lock(&self.room.0.left).give(&holder, wanted);
        if enough {
            self.size = size;
        }
        enough
    }

    /// Gives back what was taken.
    pub fn give_back(&mut self) {
        self.becomes(0);
    }

    /// Notes that the client is waited for, which begins or ends: only then it may lose what it has.
    pub fn waits(&self, waits: bool) {
        if let Some(holder) = &self.holder {
            let mut state = lock(&holder.state);
            state.waits = waits;
            state.move_by(0);
        }
    }

    /// Notes that the client sent or took so many bytes.
    pub fn moved(&self, size: usize) {
        if let Some(holder) = &self.holder {
            lock(&holder.state).move_by(size);
        }
    }

    /// Whether it had to be given up, so that others have it.
    pub fn is_lost(&self) -> bool {
        self.holder.as_ref().map_or(false, |holder| holder.has_lost())
    }

    /// Ends when it has to be given up.
    pub async fn lost(&self) {
        match &self.holder {
            Some(holder) => {
                while !holder.has_lost() {
                    holder.lost.notified().await;
                }
            }
            None => std::future::pending().await,
        }
    }
}

/// Ends when what is held has to be given up; never if nothing is.
pub async fn lost(held: &Option<Taken>) {
    match held {
        Some(taken) => taken.lost().await,
        None => std::future::pending().await,
    }
}

impl Drop for Taken {
    fn drop(&mut self) {
        if let Some(holder) = &self.holder {
            lock(&self.room.0.left).give(holder, 0);
        }
    }
}

impl Left {
    /// Gives one so much in all, if there is enough; others may lose what they have for it.
    fn give(&mut self, holder: &Arc<Holder>, wanted: usize) -> bool {
        let has = lock(&holder.state).size;
        while wanted.saturating_sub(has) > self.size {
            match self.least(holder) {
                Some(place) => self.end(place),
                None => {
                    self.failed = Some(Instant::now());
                    return false;
                }
            }
        }
        self.size = self.size + has - wanted;
        lock(&holder.state).size = wanted;
        match (has, wanted) {
            (0, size) if size > 0 => self.holders.push(holder.clone()),
            (size, 0) if size > 0 => self.holders.retain(|other| !Arc::ptr_eq(other, holder)),
            _ => (),
        }
        true
    }

    /// Where the one is that moved least lately, of those whose clients are waited for. One that has just come isn't judged, and
    /// one that goes on well keeps what it has. Many may wait, so it isn't looked for all the time.
    fn least(&self, but: &Arc<Holder>) -> Option<usize> {
        let now = Instant::now();
        if self.failed.map_or(false, |failed| now < failed + LOOK / 2) {
            return None;
        }
        let judged = self.holders.iter().enumerate().filter(|(_, holder)| !Arc::ptr_eq(holder, but));
        let moved = judged.filter_map(|(place, holder)| {
            let state = lock(&holder.state);
            let moved = state.moved_until(now);
            (state.waits && now >= holder.begun + self.grace && moved < SMALL as f64).then(|| (place, moved))
        });
        moved.min_by(|one, other| one.1.total_cmp(&other.1)).map(|(place, _)| place)
    }

    /// Takes all away that one has.
    fn end(&mut self, place: usize) {
        let holder = self.holders.swap_remove(place);
        self.size += std::mem::take(&mut lock(&holder.state).size);
        holder.is_lost.store(true, Ordering::Release);
        holder.lost.notify_one();
    }
}

impl Holder {
    fn new() -> Arc<Holder> {
        let now = Instant::now();
        let state = Mutex::new(Holding { size: 0, moved: 0.0, at: now, waits: false });
        Arc::new(Holder { begun: now, state, is_lost: AtomicBool::new(false), lost: Notify::new() })
    }

    fn has_lost(&self) -> bool {
        self.is_lost.load(Ordering::Acquire)
    }
}

impl Holding {
    fn moved_until(&self, now: Instant) -> f64 {
        let halves = now.saturating_duration_since(self.at).as_secs_f64() / HALF.as_secs_f64();
        self.moved * 0.5_f64.powf(halves)
    }

    fn move_by(&mut self, size: usize) {
        let now = Instant::now();
        self.moved = self.moved_until(now) + size as f64;
        self.at = now;
    }
}

#[cfg(test)]
mod tests {
    use super::{Duration, Room, SMALL};

    fn room(most: usize) -> Room {
        Room::new(most, 0, Duration::ZERO)
    }

    #[test]
    fn what_is_taken_is_given_back() {
        let room = room(10);
        let mut some = room.take(4).unwrap();
        assert!(some.more(6) && !some.more(1) && room.take(1).is_none());
        assert!(some.becomes(3) && room.take(8).is_none() && some.becomes(9) && !some.becomes(11));
        drop(some);
        assert!(room.take(10).is_some() && room.take(11).is_none());
    }

    #[test]
    fn what_is_small_needs_no_room() {
        let room = Room::of_bytes(10);
        let all: Vec<_> = (0..100).map(|_| room.take(SMALL).unwrap()).collect();
        let mut large = room.take(SMALL + 10).unwrap();
        assert!(room.take(SMALL + 1).is_none() && room.take(SMALL).is_some());
        assert!(large.becomes(SMALL) && room.take(SMALL + 10).is_some());
        drop(all);
    }

    #[test]
    fn who_moved_least_gives_its_share_up() {
        let room = room(10);
        let [slow, fast, busy] = [room.take(4).unwrap(), room.take(3).unwrap(), room.take(3).unwrap()];
        [&slow, &fast].iter().for_each(|taken| taken.waits(true));
        slow.moved(10);
        fast.moved(1000);
        let mut new = room.take(2).unwrap();
        assert!(slow.is_lost() && !fast.is_lost());
        // What it had is there for others once.
        assert!(new.more(2) && new.size == 4);
        drop(slow);
        assert!(new.more(3) && fast.is_lost() && !new.more(1) && !busy.is_lost());
    }

    #[test]
    fn who_goes_on_well_or_has_just_come_keeps_its_share() {
        let quick = room(1);
        let taken = quick.take(1).unwrap();
        taken.waits(true);
        taken.moved(4 * SMALL);
        assert!(quick.take(1).is_none() && !taken.is_lost());
        let new = Room::of_places(1, Duration::from_secs(3600));
        let taken = new.take(1).unwrap();
        taken.waits(true);
        assert!(new.take(1).is_none() && !taken.is_lost());
    }

    #[tokio::test]
    async fn who_waits_gets_what_becomes_free() {
        let room = room(1);
        let taken = room.take(1).unwrap();
        let (new, ()) = tokio::join!(room.take_soon(1), async {
            tokio::task::yield_now().await;
            taken.waits(true);
            taken.lost().await;
        });
        assert!(new.is_some());
    }
}
