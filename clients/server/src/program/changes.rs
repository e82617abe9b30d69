//! The part of a round that changes documents, and what is known of changes by the program's line `changes`.
//!
//! That line follows all lines of clients. So whatever they changed is told in the program's words, and is in the history,
//! and the copies of the documents are replaced, before any of them is answered.

use super::engine::{Engine, REST};
use super::job::document_in;
use super::waiting::Portion;
use crate::history::Event;
use crate::lines::replies::{self, seq_in};
use crate::lines::transactions::{changes_after, Told};
use crate::lines::Line;
use bytes::Bytes;
use std::collections::BTreeSet;
use std::io;
use tokio::time::Instant;

/// How many documents are asked for together.
const TOGETHER: usize = 32;

/// How often changes are asked for if the program is out of memory.
const TRIES: usize = 5;

impl Engine {
    /// Makes the small changes of a round, which are one group. The program keeps four times as much of its newest
    /// transactions, so none of a group is gone.
    pub(super) async fn small_changes(&mut self) -> io::Result<()> {
        let portion = self.waiting.small_changes();
        self.change(portion).await
    }

    /// Makes some changes.
    pub(super) async fn change(&mut self, mut portion: Portion) -> io::Result<()> {
        if portion.lines.is_empty() {
            self.hand_on(portion.jobs, false);
            return Ok(());
        }
        let replies = self.group(&portion.lines).await;
        let done = replies.map(|replies| portion.answer(&replies));
        self.hand_on(portion.jobs, false);
        done
    }

    /// The replies to a group of changes.
    async fn group(&mut self, group: &[(usize, Line)]) -> io::Result<Vec<Bytes>> {
        let mut lines = Vec::with_capacity(group.iter().map(|(_, line)| line.len()).sum());
        group.iter().for_each(|(_, line)| lines.extend_from_slice(line));
        let replies = self.clients_lines(lines, group.len()).await?;
        let (answered, told) = (replies.iter().rev().find_map(|reply| seq_in(reply)), self.history.last());
        match answered {
            Some(answered) if answered != told => {
                Err(wrong(format!("the program answered {answered} for a change, and told of changes up to {told}")))
            }
            _ => Ok(replies),
        }
    }

    /// The replies to lines of clients, once the changes that were made are known.
    pub(super) async fn clients_lines(&mut self, mut lines: Vec<u8>, count: usize) -> io::Result<Vec<Bytes>> {
        lines.extend_from_slice(changes_after(self.history.last()).as_bytes());
        let mut replies = self.exchange(&lines, count + 1).await?;
        self.take_changes(replies.pop().unwrap_or_default()).await?;
        Ok(replies)
    }

    /// Takes the changes that the program tells, of which this is the first reply, up to its last one.
    pub(super) async fn take_changes(&mut self, mut reply: Bytes) -> io::Result<()> {
        let mut refused = 0;
        loop {
            let known = self.history.last();
            let until = match Told::of(&reply, known) {
                Some(Told::Some { transactions, seq }) => {
                    let events = self.history.events_of(&transactions);
                    self.keep_changes(events).await?;
                    Some(seq)
                }
                Some(Told::Gone { seq, .. }) => {
                    self.begin_anew(seq);
                    Some(seq)
                }
                None => None,
            };
            let last = self.history.last();
            if until == Some(last) {
                return Ok(());
            }
            refused += usize::from(last == known);
            if refused > TRIES || until.map_or(false, |until| until < last) {
                let told = String::from_utf8_lossy(&reply[..reply.len().min(200)]).trim_end().to_owned();
                return Err(wrong(format!("the program answered to `changes` after {known}: {told}")));
            }
            reply = self.exchange(changes_after(last).as_bytes(), 1).await?.swap_remove(0);
        }
    }

    /// Adds changes to the history. Who is told of one reads no older document.
    async fn keep_changes(&mut self, events: Vec<Event>) -> io::Result<()> {
        if !events.is_empty() {
            self.replace_copies(events.iter().map(Event::name).collect()).await?;
            self.history.add(events);
            self.seal_at = Some(Instant::now() + REST);
        }
        Ok(())
    }

    /// Goes on after this number without the changes up to it, which the program doesn't know any more.
    fn begin_anew(&mut self, seq: u64) {
        self.cache.clear();
        self.history.begin_after(seq);
        self.seal_at = Some(Instant::now() + REST);
    }

    /// Replaces the copies of documents that have changed, so that nobody reads an older one after the change is answered.
    async fn replace_copies(&mut self, names: BTreeSet<&str>) -> io::Result<()> {
        let read = self.cache.changed(names.into_iter());
        for some in read.chunks(TOGETHER) {
            let lines: String = some.iter().map(|name| replies::rev(name) + &replies::get(name, "")).collect();
            let told = self.exchange(lines.as_bytes(), 2 * some.len()).await?;
            for (name, pair) in some.iter().zip(told.chunks(2)) {
                match document_in(&pair[0], &pair[1]) {
                    Ok(document) => self.cache.put(name, document),
                    Err(_) => self.cache.remove(name),
                }
            }
        }
        Ok(())
    }
}

fn wrong(told: String) -> io::Error {
    io::Error::new(io::ErrorKind::InvalidData, told)
}
