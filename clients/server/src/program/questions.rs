//! The parts of a round that ask, or may take long.

use super::engine::Engine;
use super::job::{Pending, State};
use super::share::Slow;
use super::waiting::{Portion, Turn};
use crate::lines::replies::refusal;
use crate::lines::Line;
use bytes::Bytes;
use std::io;

impl Engine {
    /// Asks the questions that are answered by little, until it is the turn of others.
    pub(super) async fn small_questions(&mut self) -> io::Result<()> {
        let mut turn = Turn::new();
        while let Some(most) = turn.left() {
            let portion = self.waiting.small_questions(most);
            if portion.jobs.is_empty() {
                break;
            }
            turn.used(&self.ask(portion).await?);
        }
        Ok(())
    }

    /// Makes one large change, or a snapshot, if it is the turn of one.
    pub(super) async fn slow_change(&mut self) -> io::Result<()> {
        let begun = self.waiting.begin();
        if let Some(portion) = self.waiting.slow_change(begun.at) {
            match portion.jobs.first().map(Pending::state) {
                Some(State::Changes) => self.change(portion).await?,
                _ => drop(self.ask(portion).await?),
            }
            self.took(Slow::Change, begun);
        }
        Ok(())
    }

    /// Asks one question that may take long, if it is the turn of one.
    pub(super) async fn slow_question(&mut self) -> io::Result<()> {
        let begun = self.waiting.begin();
        if let Some(portion) = self.waiting.slow_question(begun.at) {
            self.ask(portion).await?;
            self.took(Slow::Question, begun);
        }
        Ok(())
    }

    /// Answers questions that have arrived; changes wait.
    pub(super) async fn answer_questions(&mut self) -> io::Result<()> {
        self.gather();
        self.small_questions().await?;
        self.slow_question().await
    }

    /// Asks some questions, or makes a snapshot; the replies, which the jobs have.
    async fn ask(&mut self, mut portion: Portion) -> io::Result<Vec<Bytes>> {
        let before = self.history.last();
        let replies = match self.replies(&portion.lines).await {
            Ok(replies) => replies,
            Err(error) => {
                self.hand_on(portion.jobs, false);
                return Err(error);
            }
        };
        self.waiting.learn(&portion.lines, &replies);
        portion.answer(&replies);
        // If one was a change after all, others may have read what was there before it.
        self.hand_on(portion.jobs, self.history.last() == before);
        Ok(replies)
    }

    async fn replies(&mut self, lines: &[(usize, Line)]) -> io::Result<Vec<Bytes>> {
        if lines.is_empty() {
            return Ok(Vec::new());
        }
        let input: Vec<u8> = lines.iter().flat_map(|(_, line)| line.iter().copied()).collect();
        let count = lines.iter().filter(|(_, line)| !line.is_empty()).count();
        let mut told = self.clients_lines(input, count).await?.into_iter();
        // A line without any byte stands for one that is too long.
        let mut of_line = |line: &Line| match line.is_empty() {
            true => refusal(10).into(),
            false => told.next().unwrap_or_default(),
        };
        Ok(lines.iter().map(|(_, line)| of_line(line)).collect())
    }
}
