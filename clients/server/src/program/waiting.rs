//! The jobs that wait, by what is next of each, and the portions of lines that a round takes of them.
//!
//! What is small never waits for more than one line that is large or may take long, and seldom for one. Jobs of a kind come by
//! turns.

use super::cache::Document;
use super::export::Wanted;
use super::job::{Job, Pending, State};
use super::share::{Begun, Shares, Slow};
use super::sizes::Sizes;
use crate::limits::{ROUND_BYTES, ROUND_LINES, ROUND_REPLIES, SMALL, WINDOW};
use crate::lines::Line;
use bytes::Bytes;
use std::collections::VecDeque;
use std::sync::Arc;
use tokio::time::Instant;

/// The jobs that wait.
#[derive(Default)]
pub(super) struct Waiting {
    /// Those whose next line is a small change.
    changing: VecDeque<Pending>,
    /// Those whose next question is answered by little, as far as that is known.
    asking: VecDeque<Pending>,
    /// Those whose next line is a large change, or a snapshot.
    slow_changes: VecDeque<Pending>,
    /// Those whose next question may take long, or is answered by much.
    slow_questions: VecDeque<Pending>,
    exports: VecDeque<Wanted>,
    shares: Shares,
    sizes: Sizes,
}

/// Some jobs, and lines of them that are done together.
#[derive(Default)]
pub(super) struct Portion {
    /// The jobs.
    pub jobs: Vec<Pending>,
    /// The lines: each with the place of its job.
    pub lines: Vec<(usize, Line)>,
}

impl Waiting {
    /// When the next one may be done; none if none waits.
    pub fn next(&self, now: Instant) -> Option<Instant> {
        if self.small() > 0 {
            return Some(now);
        }
        let all = [Slow::Change, Slow::Question, Slow::Export];
        all.into_iter().filter(|kind| self.waits(*kind)).map(|kind| self.shares.next(kind).unwrap_or(now)).min()
    }

    /// Whether one of a kind waits.
    fn waits(&self, kind: Slow) -> bool {
        match kind {
            Slow::Change => !self.slow_changes.is_empty(),
            Slow::Question => !self.slow_questions.is_empty(),
            Slow::Export => !self.exports.is_empty(),
        }
    }

    fn may_be_done(&self, kind: Slow, now: Instant) -> bool {
        self.waits(kind) && self.shares.next(kind).map_or(true, |next| next <= now)
    }

    /// What begins now.
    pub fn begin(&self) -> Begun {
        self.shares.begin(Instant::now())
    }

    /// Notes that one of a kind was done, once those are added that came meanwhile.
    pub fn took(&mut self, kind: Slow, begun: Begun, ended: Instant) {
        self.shares.took(kind, begun, ended);
    }

    /// Adds an export.
    pub fn add_export(&mut self, wanted: Wanted) {
        self.exports.push_back(wanted);
    }

    /// The next export that may be done now.
    pub fn export(&mut self, now: Instant) -> Option<Wanted> {
        if self.may_be_done(Slow::Export, now) {
            return self.exports.pop_front();
        }
        None
    }

    /// Adds a job that has come. One without lines is returned.
    pub fn come(&mut self, job: Job) -> Option<Pending> {
        let before = self.small();
        let done = self.add(Pending::new(job));
        if self.small() > before {
            self.shares.came(Instant::now());
        }
        done
    }

    /// How many jobs wait whose next line is small.
    fn small(&self) -> usize {
        self.changing.len() + self.asking.len()
    }

    /// Adds a job for its next line. One whose replies are to be handed on is returned.
    pub fn add(&mut self, pending: Pending) -> Option<Pending> {
        let Pending { job, .. } = &pending;
        let is_small = match pending.state() {
            State::Changes => job.lines.changes[0].len() <= SMALL,
            State::Questions => self.expected(job) <= SMALL,
            State::Snapshots => false,
            State::Answered | State::NoRoom => return Some(pending),
        };
        let queue = match (is_small, pending.state()) {
            (true, State::Changes) => &mut self.changing,
            (true, _) => &mut self.asking,
            (false, State::Questions) => &mut self.slow_questions,
            (false, _) => &mut self.slow_changes,
        };
        queue.push_back(pending);
        None
    }

    /// All jobs, of which no line is done any more.
    pub fn take_all(&mut self) -> impl Iterator<Item = Pending> + '_ {
        let queues = [&mut self.changing, &mut self.asking, &mut self.slow_changes, &mut self.slow_questions];
        queues.into_iter().flat_map(|queue| queue.drain(..))
    }

    /// Answers all others who wait for a document that was read now.
    pub fn hand_out(&mut self, name: &str, document: &Arc<Document>) {
        for queue in [&mut self.asking, &mut self.slow_questions] {
            let all = std::mem::take(queue).into_iter();
            *queue = all.filter_map(|pending| pending.unless_wanted(name, document)).collect();
        }
    }

    /// How long the replies to the next questions of a job are expected to be: to all of one that is done whole.
    fn expected(&self, job: &Job) -> usize {
        let count = if job.whole { job.lines.questions.len() } else { 1 };
        job.lines.questions.iter().take(count).map(|line| self.sizes.expected(line)).sum()
    }

    /// The small changes that come first in their jobs, as many as are one group.
    pub fn small_changes(&mut self) -> Portion {
        let (mut portion, mut size) = (Portion::default(), 0);
        while let Some(pending) = self.changing.pop_front() {
            let before = portion.lines.len();
            for line in pending.job.lines.changes.iter().take_while(|line| line.len() <= SMALL) {
                if portion.lines.len() == ROUND_LINES || size + line.len() > ROUND_BYTES {
                    break;
                }
                size += line.len();
                portion.lines.push((portion.jobs.len(), line.clone()));
            }
            if portion.lines.len() == before {
                // It is the first of the next group.
                self.changing.push_front(pending);
                break;
            }
            portion.jobs.push(pending);
        }
        portion
    }

    /// Questions whose replies are expected to be small, of jobs by turns: some, but of replies no more than this together.
    pub fn small_questions(&mut self, most: usize) -> Portion {
        let (mut portion, mut size) = (Portion::default(), 0);
        while portion.lines.len() < WINDOW && size < most {
            let pending = match self.asking.pop_front() {
                Some(pending) => pending,
                None => break,
            };
            if self.expected(&pending.job) > SMALL {
                // The document has become large, or is known by now.
                self.slow_questions.push_back(pending);
                continue;
            }
            for line in &pending.job.lines.questions {
                let expected = self.sizes.expected(line);
                let is_enough = portion.lines.len() >= WINDOW || size >= most || expected > SMALL;
                if is_enough && !pending.job.whole {
                    break;
                }
                size += expected;
                portion.lines.push((portion.jobs.len(), line.clone()));
            }
            portion.jobs.push(pending);
        }
        portion
    }

    /// The next line that is large, or a snapshot, if one may be done now.
    pub fn slow_change(&mut self, now: Instant) -> Option<Portion> {
        let next = if self.may_be_done(Slow::Change, now) { self.slow_changes.pop_front() } else { None };
        next.map(Portion::next_of)
    }

    /// The next question that may take long, if one may be asked now; of a job that is done whole, all of them.
    pub fn slow_question(&mut self, now: Instant) -> Option<Portion> {
        let next = if self.may_be_done(Slow::Question, now) { self.slow_questions.pop_front() } else { None };
        next.map(Portion::next_of)
    }

    /// Notes how long the replies to the questions of a portion were.
    pub fn learn(&mut self, questions: &[(usize, Line)], replies: &[Bytes]) {
        questions.iter().zip(replies).for_each(|((_, line), reply)| self.sizes.learn(line, reply.len()));
    }
}

impl Portion {
    fn next_of(pending: Pending) -> Portion {
        let lines = &pending.job.lines;
        let (next, count) = match pending.state() {
            State::Changes => (&lines.changes, 1),
            State::Questions if pending.job.whole => (&lines.questions, lines.questions.len()),
            State::Questions => (&lines.questions, 1),
            _ => (&lines.snapshots, 1),
        };
        let lines = next.iter().take(count).map(|line| (0, line.clone())).collect();
        Portion { jobs: vec![pending], lines }
    }

    /// Gives each job the replies to its lines.
    pub fn answer(&mut self, replies: &[Bytes]) {
        for ((place, _), reply) in self.lines.iter().zip(replies) {
            self.jobs[*place].add(reply);
        }
    }
}

/// Counts down to the end of the turn of small questions, by what they were answered.
pub(super) struct Turn {
    bytes: usize,
    lines: usize,
}

impl Turn {
    /// A whole turn.
    pub fn new() -> Turn {
        Turn { bytes: ROUND_REPLIES, lines: ROUND_LINES }
    }

    /// The most bytes of further replies; none at its end.
    pub fn left(&self) -> Option<usize> {
        (self.bytes > 0 && self.lines > 0).then(|| self.bytes)
    }

    /// Notes what was answered.
    pub fn used(&mut self, replies: &[Bytes]) {
        self.lines = self.lines.saturating_sub(replies.len());
        self.bytes = self.bytes.saturating_sub(replies.iter().map(Bytes::len).sum());
    }
}

#[cfg(test)]
mod tests {
    use super::super::job::{Answer, NoRoom, Reply};
    use super::super::room::Room;
    use super::{
        Arc, Bytes, Document, Instant, Job, Line, Portion, Slow, Turn, Waiting, ROUND_BYTES, ROUND_LINES,
        ROUND_REPLIES, SMALL,
    };
    use crate::limits::LONG;
    use crate::lines::Lines;
    use tokio::sync::oneshot::{self, Receiver};

    type Answered = Receiver<Result<Answer, NoRoom>>;

    fn add(waiting: &mut Waiting, lines: Lines, whole: bool) -> Answered {
        let (reply, answered) = oneshot::channel();
        let job = Job { lines, room: Room::of_bytes(1 << 30), whole, reply: Reply::Lines(reply) };
        assert!(waiting.come(job).is_none());
        answered
    }

    fn changes(waiting: &mut Waiting, sizes: &[usize]) -> Answered {
        let changes = sizes.iter().map(|size| Line::from(vec![b' '; *size])).collect();
        add(waiting, Lines { changes, ..Lines::default() }, false)
    }

    fn questions(waiting: &mut Waiting, names: &[&str], whole: bool) -> Answered {
        let questions = names.iter().map(|name| crate::lines::replies::get(name, "").into()).collect();
        add(waiting, Lines { questions, ..Lines::default() }, whole)
    }

    /// Answers a portion by replies of which each has as many bytes as this says of its line; how many each has.
    fn answer(waiting: &mut Waiting, mut portion: Portion, size: impl Fn(&[u8]) -> usize) -> Vec<usize> {
        let replies: Vec<Bytes> = portion.lines.iter().map(|(_, line)| vec![b' '; size(line)].into()).collect();
        waiting.learn(&portion.lines, &replies);
        portion.answer(&replies);
        for pending in portion.jobs {
            waiting.add(pending).into_iter().for_each(|done| drop(done.send()));
        }
        replies.iter().map(Bytes::len).collect()
    }

    fn is_large(line: &[u8]) -> usize {
        if memchr::memmem::find(line, b"large").is_some() {
            1 << 20
        } else {
            100
        }
    }

    #[test]
    fn a_group_has_no_more_than_the_program_keeps() {
        for (size, count, wanted) in [(10, 2000, ROUND_LINES), (SMALL, 70, ROUND_BYTES / SMALL), (SMALL - 1, 70, 64)] {
            let mut waiting = Waiting::default();
            let mut answered: Vec<Answered> = (0..count).map(|_| changes(&mut waiting, &[size])).collect();
            let portion = waiting.small_changes();
            assert_eq!(portion.lines.len(), wanted);
            answer(&mut waiting, portion, |_| 10);
            // Who came first is answered first.
            for (place, answered) in answered.iter_mut().enumerate() {
                assert_eq!(answered.try_recv().is_ok(), place < wanted);
            }
        }
    }

    #[test]
    fn a_large_change_is_done_alone_and_in_order() {
        let mut waiting = Waiting::default();
        let mut mixed = changes(&mut waiting, &[1, SMALL + 1, 2]);
        let mut small = changes(&mut waiting, &[3]);
        let lengths = |portion: &Portion| portion.lines.iter().map(|(_, line)| line.len()).collect::<Vec<_>>();
        let first = waiting.small_changes();
        assert_eq!(lengths(&first), [1, 3]);
        answer(&mut waiting, first, |_| 10);
        assert!(small.try_recv().is_ok() && waiting.small_changes().jobs.is_empty());
        let large = waiting.slow_change(Instant::now()).unwrap();
        assert_eq!(lengths(&large), [SMALL + 1]);
        answer(&mut waiting, large, |_| 10);
        let last = waiting.small_changes();
        assert_eq!(lengths(&last), [2]);
        answer(&mut waiting, last, |_| 10);
        assert_eq!(mixed.try_recv().unwrap().unwrap().replies.len(), 30);
    }

    #[test]
    fn after_a_long_change_others_have_their_time() {
        let mut waiting = Waiting::default();
        let begun = waiting.begin();
        let _large: Vec<Answered> = (0..2).map(|_| changes(&mut waiting, &[SMALL + 1])).collect();
        let portion = waiting.slow_change(begun.at).unwrap();
        let _small = changes(&mut waiting, &[1]);
        answer(&mut waiting, portion, |_| 10);
        let ended = begun.at + 10 * LONG;
        waiting.took(Slow::Change, begun, ended);
        assert_eq!(waiting.next(ended), Some(ended));
        let portion = waiting.small_changes();
        answer(&mut waiting, portion, |_| 10);
        // Now only the other large one waits.
        let next = waiting.next(ended).unwrap();
        assert!(next > ended && waiting.slow_change(ended).is_none() && waiting.slow_change(next).is_some());
    }

    #[test]
    fn who_asks_for_much_waits_for_its_turn() {
        let mut waiting = Waiting::default();
        // A client that asks much before anything is known of the document.
        let mut greedy = questions(&mut waiting, &["large"; 200], false);
        let portion = waiting.small_questions(ROUND_REPLIES);
        assert!(portion.lines.len() <= 8, "{}", portion.lines.len());
        answer(&mut waiting, portion, is_large);
        let rest = greedy.try_recv().unwrap().unwrap().rest;
        assert!(rest.count() >= 192);
        // From now on it is asked one at a time, after what is small.
        let mut greedy = add(&mut waiting, rest, false);
        let mut small = questions(&mut waiting, &["small"], true);
        let portion = waiting.small_questions(ROUND_REPLIES);
        assert_eq!(answer(&mut waiting, portion, is_large), [100]);
        assert!(small.try_recv().is_ok() && waiting.small_questions(ROUND_REPLIES).jobs.is_empty());
        let portion = waiting.slow_question(Instant::now()).unwrap();
        assert_eq!(answer(&mut waiting, portion, is_large), [1 << 20]);
        assert_eq!(greedy.try_recv().unwrap().unwrap().rest.count(), 191);
        assert!(waiting.next(Instant::now()).is_none());
    }

    #[test]
    fn what_became_large_is_not_asked_with_what_is_small() {
        let mut waiting = Waiting::default();
        let mut first = questions(&mut waiting, &["large"], true);
        let _others: Vec<Answered> = (0..100).map(|_| questions(&mut waiting, &["large"], true)).collect();
        let portion = waiting.small_questions(ROUND_REPLIES);
        answer(&mut waiting, portion, is_large);
        assert!(first.try_recv().is_ok());
        assert!(waiting.small_questions(ROUND_REPLIES).jobs.is_empty());
        assert_eq!(waiting.slow_question(Instant::now()).unwrap().lines.len(), 1);
    }

    #[test]
    fn who_waits_for_a_document_that_was_read_now_gets_it() {
        let mut waiting = Waiting::default();
        let mut asked = ["a", "b", "a"].map(|name| {
            let (reply, answered) = oneshot::channel();
            let questions = [crate::lines::replies::get(name, "").into()].into();
            let (lines, reply) = (Lines { questions, ..Lines::default() }, Reply::Document(name.to_owned(), reply));
            assert!(waiting.come(Job { lines, room: Room::of_bytes(1 << 30), whole: true, reply }).is_none());
            answered
        });
        let mut same = questions(&mut waiting, &["a"], true);
        waiting.hand_out("a", &Arc::new(Document::new(7, Bytes::from_static(b"1"))));
        let rev = |answered: &mut Receiver<Result<Arc<Document>, Bytes>>| {
            answered.try_recv().ok().map(|found| found.unwrap().rev)
        };
        assert_eq!(asked.iter_mut().map(rev).collect::<Vec<_>>(), [Some(7), None, Some(7)]);
        let portion = waiting.small_questions(ROUND_REPLIES);
        assert_eq!(answer(&mut waiting, portion, |_| 10), [10, 10]);
        assert!(same.try_recv().is_ok());
    }

    #[test]
    fn clients_with_many_questions_come_by_turns() {
        let mut waiting = Waiting::default();
        let mut small = Vec::new();
        for name in ["a", "b", "c"] {
            small.push(questions(&mut waiting, &[name; 256], false));
        }
        let mut turn = Turn::new();
        let mut rounds = 0;
        while waiting.next(Instant::now()).is_some() {
            match turn.left() {
                Some(most) => {
                    let portion = waiting.small_questions(most);
                    let sizes = answer(&mut waiting, portion, |_| 1000);
                    turn.used(&sizes.iter().map(|size| vec![0; *size].into()).collect::<Vec<Bytes>>());
                }
                None => (turn, rounds) = (Turn::new(), rounds + 1),
            }
        }
        assert!(rounds >= 2 && small.iter_mut().all(|answered| answered.try_recv().is_ok()));
    }
}
