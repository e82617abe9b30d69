//! The doors: how clients are let in, and how many, so that this server has descriptors left for itself. If all places of a door
//! are taken, the client that is waited for longest gives its place to the next one.

use crate::ending::Ending;
use crate::limits::{FILES, OWN_FILES, TASKS};
use crate::say;
use std::collections::HashMap;
use std::future::Future;
use std::io;
use std::sync::atomic::{AtomicBool, AtomicU64, Ordering::SeqCst};
use std::sync::{Arc, Mutex, MutexGuard, PoisonError};
use std::time::{Duration, Instant};
use tokio::sync::{Notify, OwnedSemaphorePermit, Semaphore};

/// How long it waits before it accepts again, if a connection couldn't be taken, and before a further client has to leave.
const PAUSE: Duration = Duration::from_millis(100);

/// Those who follow something come after all who are waited for.
const FOLLOWING: u64 = 1 << 62;

/// In place of a time: the client waits itself, or has to leave.
const WAITS: u64 = u64::MAX;
const LEAVES: u64 = u64::MAX - 1;

/// Of so many clients one leaves for those that come.
const SHARE: usize = 64;

/// When so many clients have gone, the system has the memory that they took.
const MANY: usize = 1000;

/// The places of a door.
#[derive(Clone)]
pub struct Places(Arc<Door>);

struct Door {
    free: Arc<Semaphore>,
    guests: Mutex<Guests>,
    opened: Instant,
}

#[derive(Default)]
struct Guests {
    all: HashMap<u64, Arc<Guest>>,
    /// How many there have been at once since memory was given back.
    most: usize,
    /// How many have to leave, and are still there.
    leaving: usize,
}

/// A client that was let in.
pub struct Guest {
    /// Since which millisecond of the door it is waited for.
    since: AtomicU64,
    /// Whether it has to leave once it is answered.
    is_last: AtomicBool,
    opened: Instant,
    leave: Notify,
}

impl Guest {
    fn new(opened: Instant) -> Guest {
        Guest { since: AtomicU64::new(WAITS), is_last: AtomicBool::new(false), opened, leave: Notify::new() }
    }

    /// From now on the client is waited for, if it wasn't before: for a request, or until it takes an answer.
    pub fn is_waited_for(&self) {
        self.set_since(0);
    }

    /// From now on the client follows something. It may be waited for, and has to leave after all others.
    pub fn follows(&self) {
        self.set_since(FOLLOWING);
    }

    fn set_since(&self, after: u64) {
        let now = self.opened.elapsed().as_millis() as u64;
        // One that has to leave does so.
        let _ = self.since.compare_exchange(WAITS, now + after, SeqCst, SeqCst);
    }

    /// From now on the client waits. One that has to leave is answered before.
    pub fn waits(&self) {
        if self.since.swap(WAITS, SeqCst) == LEAVES {
            self.is_last.store(true, SeqCst);
        }
    }

    /// Whether the answer is the last one, since others wait for its place.
    pub fn is_last(&self) -> bool {
        self.is_last.load(SeqCst)
    }

    /// Ends when it has to leave, since others wait for its place.
    pub async fn must_leave(&self) {
        while self.since.load(SeqCst) != LEAVES {
            self.leave.notified().await;
        }
    }

    /// Has it leave if it has been waited for since then; whether it does.
    fn tell(&self, since: u64) -> bool {
        let is_told = self.since.compare_exchange(since, LEAVES, SeqCst, SeqCst).is_ok();
        if is_told {
            self.leave.notify_one();
        }
        is_told
    }

    fn was_told(&self) -> bool {
        self.is_last() || self.since.load(SeqCst) == LEAVES
    }
}

/// A place that a client has.
struct Place {
    door: Arc<Door>,
    number: u64,
    guest: Arc<Guest>,
    _permit: OwnedSemaphorePermit,
}

impl Drop for Place {
    fn drop(&mut self) {
        let mut guests = self.door.guests();
        guests.all.remove(&self.number);
        guests.leaving = guests.leaving.saturating_sub(usize::from(self.guest.was_told()));
        if guests.all.len() + MANY <= guests.most {
            guests.most = guests.all.len();
            // At the server's end there is no runtime any more.
            if let Ok(runtime) = tokio::runtime::Handle::try_current() {
                // SAFETY: it only gives back what is free, which would else be kept for connections that have gone.
                runtime.spawn_blocking(|| unsafe { libc::malloc_trim(0) });
            }
        }
    }
}

impl Door {
    fn guests(&self) -> MutexGuard<'_, Guests> {
        self.guests.lock().unwrap_or_else(PoisonError::into_inner)
    }

    /// Has the one leave that is waited for longest; of many clients a few, so that they aren't all looked at for each one that
    /// comes. While some leave already others do so only if these take too long.
    fn make_room(&self, is_late: bool) {
        let mut guests = self.guests();
        if guests.leaving > 0 && !is_late {
            return;
        }
        let mut waited_for: Vec<(u64, &Arc<Guest>)> =
            guests.all.values().map(|guest| (guest.since.load(SeqCst), guest)).collect();
        waited_for.retain(|(since, _)| *since < LEAVES);
        let few = waited_for.len().min(1.max(guests.all.len() / SHARE));
        if few < waited_for.len() {
            waited_for.select_nth_unstable_by_key(few, |(since, _)| *since);
        }
        guests.leaving = waited_for[..few].iter().filter(|(since, guest)| guest.tell(*since)).count();
    }
}

impl Places {
    /// So many places.
    fn new(count: usize) -> Places {
        let door = Door { free: Arc::new(Semaphore::new(count)), guests: Mutex::default(), opened: Instant::now() };
        Places(Arc::new(door))
    }

    /// A place for the next client, which has this number; none if the server ends before there is one.
    async fn next(&self, number: u64, ending: &mut Ending) -> Option<Place> {
        let door = &self.0;
        let mut is_late = false;
        let permit = loop {
            if let Ok(permit) = door.free.clone().try_acquire_owned() {
                break permit;
            }
            door.make_room(is_late);
            tokio::select! {
                permit = door.free.clone().acquire_owned() => break permit.ok()?,
                () = tokio::time::sleep(PAUSE) => is_late = true,
                () = ending.begun() => return None,
            }
        };
        let guest = Arc::new(Guest::new(door.opened));
        let mut guests = door.guests();
        guests.all.insert(number, guest.clone());
        guests.most = guests.most.max(guests.all.len());
        drop(guests);
        Some(Place { door: door.clone(), number, guest, _permit: permit })
    }
}

/// Raises the number of files that this process may have open; the places of each of so many doors.
pub fn places(doors: usize) -> Places {
    let mut limit = libc::rlimit { rlim_cur: 1024, rlim_max: 1024 };
    // SAFETY: `limit` is one such structure, which lives until the calls return. If they fail, the limit is as it was.
    unsafe {
        if libc::getrlimit(libc::RLIMIT_NOFILE, &mut limit) == 0 {
            limit.rlim_cur = limit.rlim_max.min(FILES);
            libc::setrlimit(libc::RLIMIT_NOFILE, &limit);
        }
    }
    let for_clients = limit.rlim_cur.saturating_sub(OWN_FILES).max(limit.rlim_cur / 2);
    let count = usize::try_from(for_clients).unwrap_or(usize::MAX >> 4) / doors.max(1);
    Places::new(count.max(1))
}

/// Takes clients, each of which is served beside the others, until the end.
pub async fn let_in<Client, Accepted, Served>(
    places: Places,
    mut ending: Ending,
    accept: impl Fn() -> Accepted,
    serve: impl Fn(Client, Arc<Guest>) -> Served,
) where
    Accepted: Future<Output = io::Result<Client>>,
    Served: Future<Output = ()> + Send + 'static,
{
    let (mut short, mut number) = (false, 0);
    loop {
        let accepted = tokio::select! {
            accepted = accept() => accepted,
            () = ending.begun() => return,
        };
        match accepted {
            Ok(client) => {
                (short, number) = (false, number + 1);
                if number % u64::from(TASKS) == 0 {
                    // However fast they come, those that are there have their turns.
                    tokio::task::yield_now().await;
                }
                let place = match places.next(number, &mut ending).await {
                    Some(place) => place,
                    None => return,
                };
                let served = serve(client, place.guest.clone());
                tokio::spawn(async move {
                    served.await;
                    drop(place);
                });
            }
            Err(error) => short = refused(&error, short).await,
        }
    }
}

/// Waits after a connection that couldn't be taken. It is said once, and not again until one could be taken.
async fn refused(error: &io::Error, said: bool) -> bool {
    if !said {
        say::complain(&format!("no connection can be taken now: {error}"));
    }
    tokio::time::sleep(PAUSE).await;
    true
}

#[cfg(test)]
mod tests {
    use super::{Places, SHARE};
    use crate::ending::ending;

    #[tokio::test]
    async fn who_is_waited_for_longest_gives_its_place_up() {
        let (places, (_end, mut ending)) = (Places::new(3), ending());
        let mut all = Vec::new();
        for number in 0..3 {
            all.push(places.next(number, &mut ending).await.unwrap());
        }
        // The second one is waited for longest, after the third one, which follows something.
        all[2].guest.follows();
        tokio::time::sleep(std::time::Duration::from_millis(5)).await;
        all[1].guest.is_waited_for();
        tokio::time::sleep(std::time::Duration::from_millis(5)).await;
        all[0].guest.is_waited_for();
        let guest = all[1].guest.clone();
        let leaving = async {
            guest.must_leave().await;
            drop(all.remove(1));
        };
        let (next, ()) = tokio::join!(places.next(3, &mut ending), leaving);
        assert!(next.is_some() && places.0.guests().all.len() == 3);
    }

    #[tokio::test]
    async fn no_more_leave_than_come() {
        let (places, (_end, mut ending)) = (Places::new(SHARE * 2), ending());
        let mut all = Vec::new();
        for number in 0..2 * SHARE as u64 {
            all.push(places.next(number, &mut ending).await.unwrap());
            all[number as usize].guest.is_waited_for();
        }
        places.0.make_room(false);
        places.0.make_room(false);
        assert_eq!(all.iter().filter(|place| place.guest.was_told()).count(), 2);
        // One of them has sent a request meanwhile: it is answered before it leaves.
        let told = all.iter().position(|place| place.guest.was_told()).unwrap();
        all[told].guest.waits();
        all[told].guest.is_waited_for();
        let leaves = tokio::time::timeout(std::time::Duration::from_millis(5), all[told].guest.must_leave()).await;
        assert!(all[told].guest.is_last() && leaves.is_err());
        all.retain(|place| !place.guest.was_told());
        assert_eq!((all.len(), places.0.guests().leaving), (2 * SHARE - 2, 0));
    }
}
