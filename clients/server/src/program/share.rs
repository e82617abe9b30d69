//! The shares of the program's time: few of the small requests meet what takes long.

use crate::limits::{LEAST_OTHERS, LONG, MOST_OTHERS, OTHERS, TIMES_AS_LONG};
use tokio::time::{Duration, Instant};

/// What may take long. One of each kind is done at a time.
#[derive(Clone, Copy, Debug, PartialEq, Eq)]
pub(super) enum Slow {
    /// A large change, or a snapshot.
    Change,
    /// A question that may take long, or is answered by much.
    Question,
    /// An export.
    Export,
}

/// The shares of all kinds.
#[derive(Default)]
pub(super) struct Shares {
    /// How many small requests came, and when the last one did.
    count: u64,
    came: Option<Instant>,
    held: [Option<Held>; 3],
}

/// When something began, and how many small requests had come by then.
#[derive(Clone, Copy)]
pub(super) struct Begun {
    pub at: Instant,
    count: u64,
}

/// What was done last of a kind, if it held others up.
#[derive(Clone, Copy)]
struct Held {
    took: Duration,
    ended: Instant,
    /// How many small requests have come when as many came as are to.
    enough: u64,
}

impl Shares {
    /// Notes that a small request came.
    pub fn came(&mut self, at: Instant) {
        (self.count, self.came) = (self.count + 1, Some(at));
    }

    /// What begins now.
    pub fn begin(&self, at: Instant) -> Begun {
        Begun { at, count: self.count }
    }

    /// Notes that one of a kind was done. What came since it began has waited for it.
    pub fn took(&mut self, kind: Slow, begun: Begun, ended: Instant) {
        let (took, waited) = (ended - begun.at, self.count - begun.count);
        let enough = self.count + OTHERS * waited;
        self.held[kind as usize] = (took >= LONG && waited > 0).then(|| Held { took, ended, enough });
    }

    /// When the next of a kind may be done; none if that is at once. Others lose the rest of their time if none of them comes for as
    /// long as the last one took.
    pub fn next(&self, kind: Slow) -> Option<Instant> {
        let Held { took, ended, enough } = self.held[kind as usize]?;
        let came = self.came.map_or(ended, |came| came.max(ended));
        let rest = (TIMES_AS_LONG * took).clamp(LEAST_OTHERS, MOST_OTHERS);
        let until = (ended + rest).min(came + took);
        (self.count < enough).then(|| until)
    }
}

#[cfg(test)]
mod tests {
    use super::{Duration, Instant, Shares, Slow, LEAST_OTHERS, LONG, MOST_OTHERS, OTHERS, TIMES_AS_LONG};

    const KIND: Slow = Slow::Change;
    const TOOK: Duration = Duration::from_millis(100);

    /// How long the next one waits after one that took so long, if so many of the others came while it was done, and then so many,
    /// each time so long after another.
    fn rest(took: Duration, waited: u64, count: u64, pause: Duration) -> Option<Duration> {
        let (mut shares, at) = (Shares::default(), Instant::now());
        shares.came(at);
        let begun = shares.begin(at);
        (0..waited).for_each(|_| shares.came(at));
        let (ended, mut now) = (at + took, at + took);
        shares.took(KIND, begun, ended);
        for _ in 0..count {
            now += pause;
            shares.came(now);
        }
        assert!([Slow::Question, Slow::Export].iter().all(|other| shares.next(*other).is_none()));
        shares.next(KIND).map(|next| next - ended)
    }

    #[test]
    fn many_others_come_before_the_next_one() {
        assert_eq!(rest(TOOK, 1, OTHERS - 1, TOOK), Some(TIMES_AS_LONG * TOOK));
        assert_eq!(rest(TOOK, 1, OTHERS, TOOK), None);
        assert_eq!(rest(TOOK, 2, OTHERS, TOOK), Some(TIMES_AS_LONG * TOOK));
        assert_eq!(rest(TOOK, 2, 2 * OTHERS, TOOK), None);
        assert_eq!(rest(MOST_OTHERS, 1, 9, LONG), Some(MOST_OTHERS));
        assert_eq!(rest(LONG, 1, 199, LONG), Some(LEAST_OTHERS));
    }

    #[test]
    fn it_goes_on_if_none_of_them_comes() {
        assert_eq!(rest(TOOK, 1, 0, LONG), Some(TOOK));
        assert_eq!(rest(TOOK, 1, 3, LONG), Some(3 * LONG + TOOK));
    }

    #[test]
    fn who_held_nobody_goes_on_at_once() {
        assert_eq!(rest(TOOK, 0, 9, LONG), None);
        assert_eq!(rest(LONG - Duration::from_nanos(1), 1, 9, LONG), None);
        assert_eq!(rest(LONG, 1, 0, LONG), Some(LONG));
    }
}
