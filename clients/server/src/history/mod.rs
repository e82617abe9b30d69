//! The newest changes of the store, in memory, for those who follow them: each as the bytes that all followers are sent.

mod event;
pub mod name;
mod naming;

use crate::lines::replies::Status;
use crate::lines::transactions::Transaction;
use crate::lines::MOST_CHANGES as MOST_LINES;
use event::line_of;
use naming::Naming;
use std::collections::VecDeque;
use std::future::Future;
use std::io;
use std::sync::{Arc, RwLock, RwLockReadGuard, RwLockWriteGuard};
use tokio::sync::watch;

pub use event::{Event, HEAD};

/// The most changes that are kept, and the most bytes of them. If there are more, the oldest quarter goes.
const MOST_CHANGES: usize = 1 << 16;
const MOST_BYTES: usize = 1 << 24;

/// The next changes of those that are wanted.
#[derive(Debug, Default)]
pub struct Next {
    /// The changes.
    pub events: Vec<Event>,
    /// The number of the last of them; 0 if there is none.
    pub last: u64,
    /// The number up to which no other one is wanted.
    pub until: u64,
}

/// The changes after a number are not kept any more, but those after this one are.
#[derive(Clone, Copy, Debug, PartialEq, Eq)]
pub struct Gone(pub u64);

/// What a follower begins with.
#[derive(Debug, PartialEq, Eq)]
pub struct Beginning {
    /// The number after which the first change is told.
    pub since: u64,
    /// The text that names the history up to there.
    pub history: String,
    /// The number of the last change.
    pub last: u64,
}

struct Kept {
    naming: Naming,
    base: u64,
    /// The text that names the history up to the base.
    before: String,
    events: VecDeque<Event>,
    bytes: usize,
}

impl Kept {
    fn last(&self) -> u64 {
        self.base + self.events.len() as u64
    }

    /// The text that names the history up to a change, if that is known here.
    fn name_at(&self, seq: u64) -> Option<&str> {
        match seq.checked_sub(self.base)? {
            0 => Some(&self.before),
            place => self.events.get(place as usize - 1).map(Event::history),
        }
    }

    fn begin_after(&mut self, seq: u64) {
        (self.base, self.bytes) = (seq, 0);
        self.before = self.naming.of_number(seq);
        self.events.clear();
    }

    /// Drops the oldest if there are too many, up to the end of a transaction.
    fn trim(&mut self) {
        if self.events.len() <= MOST_CHANGES && self.bytes <= MOST_BYTES {
            return;
        }
        let (mut drop, mut left) = (0, self.bytes);
        while self.events.len() - drop > MOST_CHANGES / 4 * 3 || left > MOST_BYTES / 4 * 3 {
            left -= self.events[drop].size();
            drop += 1;
        }
        let end = self.events.get(drop).map_or(self.last(), |first| first.span().0 - 1);
        self.before = self.name_at(end).unwrap_or_default().to_owned();
        let dropped = self.events.drain(..(end - self.base) as usize);
        self.bytes -= dropped.map(|event| event.size()).sum::<usize>();
        self.base = end;
    }
}

/// The changes after number `base`.
pub struct History {
    kept: RwLock<Kept>,
    news: watch::Sender<u64>,
    /// The same for those who follow: however many they are, no change waits until all are woken.
    handed_on: watch::Sender<u64>,
}

impl History {
    /// That of a store that was opened, without any change yet.
    pub fn new(opened: &Status) -> io::Result<History> {
        let (naming, events) = (Naming::new(opened)?, VecDeque::new());
        let kept = Kept { before: naming.of_number(0), naming, base: 0, events, bytes: 0 };
        Ok(History { kept: RwLock::new(kept), news: watch::channel(0).0, handed_on: watch::channel(0).0 })
    }

    fn kept(&self) -> RwLockReadGuard<'_, Kept> {
        self.kept.read().unwrap_or_else(std::sync::PoisonError::into_inner)
    }

    fn kept_mut(&self) -> RwLockWriteGuard<'_, Kept> {
        self.kept.write().unwrap_or_else(std::sync::PoisonError::into_inner)
    }

    /// The number of the last change.
    pub fn last(&self) -> u64 {
        self.kept().last()
    }

    /// The text that names the history up to a change, if that is kept.
    pub fn name_at(&self, seq: u64) -> Option<String> {
        self.kept().name_at(seq).map(str::to_owned)
    }

    /// What a follower begins with that has all changes up to a number, or wants the next one; it may tell the text that
    /// names the history up to there.
    pub fn begin(&self, from: Option<u64>, theirs: Option<&str>) -> Result<Beginning, Gone> {
        let kept = self.kept();
        let last = kept.last();
        let since = from.unwrap_or(last);
        let ours = kept.name_at(since).ok_or(Gone(kept.base))?;
        if theirs.map_or(false, |theirs| !kept.naming.agree(theirs, ours)) {
            return Err(Gone(kept.base));
        }
        Ok(Beginning { since, history: ours.to_owned(), last })
    }

    /// The next changes after a number: at most so many bytes, but one if there is one.
    pub fn after(&self, seq: u64, most: usize) -> Result<Vec<Event>, Gone> {
        self.wanted_after(seq, most, usize::MAX, |_| true).map(|some| some.events)
    }

    /// The same of the changes that are wanted. So many are looked at, since others wait for that.
    pub fn wanted_after(
        &self,
        seq: u64,
        most: usize,
        looks: usize,
        is_wanted: impl Fn(&Event) -> bool,
    ) -> Result<Next, Gone> {
        let kept = self.kept();
        if seq < kept.base || seq > kept.last() {
            return Err(Gone(kept.base));
        }
        let (mut some, mut size) = (Next { until: seq, ..Next::default() }, 0_usize);
        for event in kept.events.range((seq - kept.base) as usize..).take(looks) {
            if is_wanted(event) {
                size = size.saturating_add(event.size());
                if size > most && !some.events.is_empty() {
                    break;
                }
                some.events.push(event.clone());
                some.last = some.until + 1;
            }
            some.until += 1;
        }
        Ok(some)
    }

    /// The lines that make the transactions after a number again, each with the number of its last change: no more than one
    /// group may have, and none after the one with which they have `most` bytes. A transaction ends with the number.
    pub fn lines_after(&self, seq: u64, most: usize) -> Result<Vec<(u64, Vec<u8>)>, Gone> {
        let kept = self.kept();
        if seq < kept.base || seq > kept.last() {
            return Err(Gone(kept.base));
        }
        let (mut lines, mut size) = (Vec::new(), 0);
        let mut rest = kept.events.range((seq - kept.base) as usize..).peekable();
        while let Some((first, last)) = rest.peek().map(|event| event.span()) {
            if size >= most || lines.len() >= MOST_LINES {
                break;
            }
            let line = line_of(&rest.by_ref().take((last - first + 1) as usize).collect::<Vec<_>>());
            size += line.len();
            lines.push((last, line));
        }
        Ok(lines)
    }

    /// The events of these transactions, which come next.
    pub fn events_of(&self, transactions: &[Transaction]) -> Vec<Event> {
        let kept = self.kept();
        let named = |each: &Transaction| Event::of(each, &kept.naming.of_transaction(each.text));
        transactions.iter().flat_map(named).collect()
    }

    /// Adds the events of whole transactions, and wakes those who wait for further changes.
    pub fn add(&self, events: Vec<Event>) {
        let mut kept = self.kept_mut();
        kept.bytes += events.iter().map(Event::size).sum::<usize>();
        kept.events.extend(events);
        kept.trim();
        self.tell(kept);
    }

    /// Forgets all changes: the next one comes after this number. Those who follow learn that some are gone.
    pub fn begin_after(&self, seq: u64) {
        let mut kept = self.kept_mut();
        kept.begin_after(seq);
        self.tell(kept);
    }

    /// Goes on in another file of the store, which has the same changes.
    pub fn go_on(&self, opened: &Status) {
        self.kept_mut().naming.go_on(opened);
    }

    fn tell(&self, kept: RwLockWriteGuard<'_, Kept>) {
        let last = kept.last();
        drop(kept);
        self.news.send_replace(last);
    }

    /// Tells when there are further changes.
    pub fn news(&self) -> watch::Receiver<u64> {
        self.handed_on.subscribe()
    }

    /// Hands the news from now on to those who follow.
    pub fn hand_news_on(self: Arc<Self>) -> impl Future<Output = ()> {
        let mut news = self.news.subscribe();
        async move {
            while news.changed().await.is_ok() {
                self.handed_on.send_replace(*news.borrow_and_update());
            }
        }
    }
}

#[cfg(test)]
mod tests;
