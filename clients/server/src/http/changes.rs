//! The changes as server-sent events, as HTML has them (section 9.2).

use super::connection::Request;
use super::problem::Problem;
use super::response::{Body, Response};
use super::target::parameters;
use crate::history::name::name_in;
use crate::history::{Beginning, Event, Gone, History, HEAD};
use crate::json::{members_in, quoted};
use crate::lines::replies::is_name;
use crate::other::LineStream;
use crate::program::room::Taken;
use crate::refusals::{by_number, GONE};
use crate::store::{Store, Which};
use bytes::Bytes;
use serde_json::Value;
use std::path::PathBuf;
use std::sync::Arc;
use std::time::Duration;
use tokio::io::AsyncWriteExt;
use tokio::sync::watch;
use tokio::time::{sleep_until, Instant};

/// How many bytes are handed on at once.
const PIECE: usize = 1 << 16;

/// How long a client waits before it connects again, in milliseconds.
const RETRY: &str = "retry: 1000\n\n";

/// How long it waits before it connects to another server again: twice as long each time, since all followers do so.
const PAUSE: Duration = Duration::from_millis(50);
const LONGEST_PAUSE: Duration = Duration::from_secs(2);

/// How long after a change that isn't wanted its number is told, so that a client that comes again goes on after it.
const LAG: Duration = Duration::from_secs(1);

/// How many changes are looked at before others may do something.
const LOOKS: usize = 4096;

/// The changes that a client follows.
pub struct Events {
    source: Source,
    wanted: Wanted,
    /// What is sent first, so that a client that comes again before the first change goes on from here.
    begin: Option<Bytes>,
    told: Told,
    is_done: bool,
    /// Its place among the followers, until it is sent.
    pub place: Option<Taken>,
}

enum Source {
    Own { history: Arc<History>, news: watch::Receiver<u64>, since: u64 },
    Other(Followed),
}

/// The documents whose changes are wanted.
#[derive(Debug, PartialEq, Eq)]
enum Wanted {
    All,
    Named(String),
    Beginning(String),
}

impl Wanted {
    fn of(name: Option<String>, prefix: Option<String>) -> Result<Wanted, Problem> {
        match (name, prefix) {
            (Some(_), Some(_)) => Err(Problem::new(400, "parameter", "a request has `name` or `prefix`, and not both")),
            (Some(name), None) if is_name(&name) => Ok(Wanted::Named(name)),
            (Some(_), None) => Err(Problem::refused(15, by_number(15).map_or("", |row| row.advice))),
            (None, Some(prefix)) if !prefix.is_empty() => Ok(Wanted::Beginning(prefix)),
            (None, _) => Ok(Wanted::All),
        }
    }

    fn has(&self, name: &[u8]) -> bool {
        match self {
            Wanted::All => true,
            Wanted::Named(wanted) => name == wanted.as_bytes(),
            Wanted::Beginning(prefix) => name.starts_with(prefix.as_bytes()),
        }
    }
}

/// The number that the client was told last, by a change or alone, and when.
struct Told {
    seq: u64,
    at: Instant,
}

impl Told {
    fn now(seq: u64) -> Told {
        Told { seq, at: Instant::now() }
    }

    /// Waits until the number `since` is to be told alone, unless it was told.
    async fn is_late(&self, since: u64) {
        if since > self.seq {
            sleep_until(self.at + LAG).await;
        } else {
            std::future::pending::<()>().await;
        }
    }
}

/// The answer that follows the changes.
pub async fn follow(request: &Request<'_>) -> Result<Response, Problem> {
    let (since, history, wanted) = asked(request)?;
    let app = &request.app;
    let busy = || Problem::new(503, "busy", "1000 clients follow the changes already").with("Retry-After", "10");
    let follower = app.followers.take_soon(1).await.ok_or_else(busy)?;
    let events = Events::begin(&app.store, since, history, wanted, follower).await?;
    let mut response = Response::empty(200).with("Cache-Control", "no-store").with("X-Accel-Buffering", "no");
    response.kind = "text/event-stream; charset=utf-8";
    response.body = Body::Events(Box::new(events));
    Ok(response)
}

/// The number after which the first change is to come, and the history that it is of: `Last-Event-ID` of a client that
/// comes again, or `from`; and the documents that are wanted.
fn asked(request: &Request<'_>) -> Result<(Option<u64>, Option<String>, Wanted), Problem> {
    let [from, name, prefix] = parameters(&request.query, ["from", "name", "prefix"])?;
    let wanted = Wanted::of(name, prefix)?;
    let last = request.head.field("last-event-id").filter(|text| !text.is_empty()).map(str::to_owned);
    let text = match last.or(from) {
        Some(text) => text,
        None => return Ok((None, None, wanted)),
    };
    let (number, name) = text.split_once('-').map_or((&text[..], None), |(number, name)| (number, Some(name)));
    let is_number = (1..=18).contains(&number.len()) && number.bytes().all(|byte| byte.is_ascii_digit());
    match number.parse().ok().filter(|_| is_number) {
        Some(since) => Ok((Some(since), name.map(str::to_owned), wanted)),
        None => {
            let told = "`from` is the number of a change, and `Last-Event-ID` begins with one";
            Err(Problem::new(400, "parameter", told))
        }
    }
}

fn gone(since: u64, from: u64) -> Problem {
    let told = format!(
        "the changes after {since} are not kept, and one may follow them from {from} on: read the documents again, and go on \
         from there"
    );
    Problem { from: Some(from), ..Problem::refused(GONE, told).status(410) }
}

impl Events {
    async fn begin(
        store: &Store,
        since: Option<u64>,
        name: Option<String>,
        wanted: Wanted,
        follower: Taken,
    ) -> Result<Events, Problem> {
        let (source, since, name) = match &store.which {
            Which::Own(handle) => {
                let history = handle.history.clone();
                let news = history.news();
                let begun = history.begin(since, name.as_deref());
                let Beginning { since, history: name, .. } =
                    begun.map_err(|Gone(from)| gone(since.unwrap_or(from), from))?;
                (Source::Own { history, news, since }, since, name)
            }
            Which::Other(other) => {
                let mut followed = Followed { path: other.path.clone(), since, name, stream: None, pause: PAUSE };
                followed.connect().await?;
                let (since, name) = (followed.since.unwrap_or(0), followed.name.clone().unwrap_or_default());
                (Source::Other(followed), since, name)
            }
        };
        let begin = Some(format!("id: {since}-{name}\n{RETRY}").into());
        Ok(Events { source, wanted, begin, told: Told::now(since), is_done: false, place: Some(follower) })
    }

    /// The next events; none at the end. What came is kept if this is broken off.
    pub async fn next(&mut self) -> Option<Bytes> {
        if let Some(begin) = self.begin.take() {
            return Some(begin);
        }
        if self.is_done {
            return None;
        }
        let next = match &mut self.source {
            Source::Own { history, news, since } => {
                own_events(history, news, since, &self.wanted, &mut self.told).await
            }
            Source::Other(followed) => followed.event(&self.wanted, &mut self.told).await,
        };
        match next {
            Ok(events) => events,
            Err(Gone(from)) => {
                self.is_done = true;
                Some(format!("event: gone\ndata: {{\"from\":{from}}}\n\n").into())
            }
        }
    }
}

/// What tells a number alone: an identifier without data, which is no event (HTML, section 9.2.6).
fn number_alone(since: u64, name: &str) -> Bytes {
    format!("id: {since}-{name}\n\n").into()
}

async fn own_events(
    history: &History,
    news: &mut watch::Receiver<u64>,
    since: &mut u64,
    wanted: &Wanted,
    told: &mut Told,
) -> Result<Option<Bytes>, Gone> {
    loop {
        let last = *news.borrow_and_update();
        let next = history.wanted_after(*since, PIECE, LOOKS, |event| wanted.has(event.name().as_bytes()))?;
        *since = next.until;
        match &next.events[..] {
            [] if *since < last && told.at.elapsed() < LAG => tokio::task::yield_now().await,
            [] => tokio::select! {
                biased;
                () = told.is_late(*since) => {
                    *told = Told::now(*since);
                    // If it is gone by now, the next look finds that.
                    if let Some(name) = history.name_at(*since) {
                        return Ok(Some(number_alone(*since, &name)));
                    }
                }
                changed = news.changed() => if changed.is_err() {
                    return Ok(None);
                },
            },
            [one] => {
                *told = Told::now(next.last);
                return Ok(Some(one.bytes()));
            }
            some => {
                *told = Told::now(next.last);
                return Ok(Some(some.iter().map(Event::bytes).collect::<Vec<_>>().concat().into()));
            }
        }
    }
}

/// The changes of another server's store. A lost connection is made again.
struct Followed {
    path: PathBuf,
    since: Option<u64>,
    name: Option<String>,
    stream: Option<LineStream>,
    /// How long it waits next.
    pause: Duration,
}

impl Followed {
    /// Connects, and waits until the server says from which number it goes on.
    async fn connect(&mut self) -> Result<(), Problem> {
        let mut stream = LineStream::to(&self.path).await.map_err(|_| Problem::unavailable())?;
        let since = self.since.map_or_else(String::new, |since| format!(",\"from\":{since}"));
        let name = self
            .since
            .and(self.name.as_deref())
            .map_or_else(String::new, |name| format!(",\"history\":{}", quoted(name)));
        let line = format!("{{\"cmd\":\"watch\"{since}{name}}}\n");
        stream.stream.write_all(line.as_bytes()).await.map_err(|_| Problem::unavailable())?;
        let first = stream.line().await.ok().flatten().ok_or_else(Problem::unavailable)?;
        let told: Value = serde_json::from_slice(&first).unwrap_or_default();
        if told.get("ok").and_then(Value::as_bool) != Some(true) {
            let problem = Problem::of_reply(&first);
            let (since, from) = (self.since.unwrap_or(0), problem.from.unwrap_or(0));
            return Err(if problem.number == Some(GONE) { gone(since, from) } else { problem });
        }
        self.since = told.get("from").and_then(Value::as_u64);
        self.name = told.get("history").and_then(Value::as_str).map(str::to_owned);
        (self.stream, self.pause) = (Some(stream), PAUSE);
        Ok(())
    }

    async fn event(&mut self, wanted: &Wanted, told: &mut Told) -> Result<Option<Bytes>, Gone> {
        loop {
            let since = self.since.unwrap_or(0);
            let line = match &mut self.stream {
                Some(stream) => tokio::select! {
                    biased;
                    () = told.is_late(since) => {
                        *told = Told::now(since);
                        return Ok(Some(number_alone(since, self.name.as_deref().unwrap_or_default())));
                    }
                    line = stream.line() => line.ok().flatten(),
                },
                None => match self.connect().await {
                    Ok(()) => continue,
                    Err(problem) if problem.number == Some(GONE) => return Err(Gone(problem.from.unwrap_or(0))),
                    Err(_) => None,
                },
            };
            match line {
                Some(line) if line.starts_with(HEAD) => {
                    let event = self.told(&line);
                    if wanted.has(name_in(&line)) {
                        *told = Told::now(since + 1);
                        return Ok(Some(event));
                    }
                }
                Some(line) if line.starts_with(b"{\"error\":\"gone\"") => {
                    return Err(Gone(Problem::of_reply(&line).from.unwrap_or(0)));
                }
                _ => {
                    self.stream = None;
                    tokio::time::sleep(self.pause).await;
                    self.pause = LONGEST_PAUSE.min(2 * self.pause);
                }
            }
        }
    }

    fn told(&mut self, line: &Bytes) -> Bytes {
        let seq = self.since.map_or(0, |since| since + 1);
        self.since = Some(seq);
        self.name = history_in(line).or_else(|| self.name.take());
        let head = format!("id: {seq}-{}\ndata: ", self.name.as_deref().unwrap_or_default());
        [head.as_bytes(), line, b"\n"].concat().into()
    }
}

/// The text in a line of a change that names the history up to there.
fn history_in(line: &[u8]) -> Option<String> {
    serde_json::from_str(members_in(line)?.get("history")?.get()).ok()
}

#[cfg(test)]
mod tests {
    use super::{history_in, Wanted};

    #[test]
    fn the_history_is_that_of_the_line_and_of_no_document() {
        let line =
            br#"{"change":{"cmd":"create","doc":{"history":"x"},"name":"d","schema":true},"history":"a.1.b","seq":3}"#;
        assert_eq!(history_in(line).as_deref(), Some("a.1.b"));
        assert_eq!(history_in(br#"{"change":{"history":"x"},"seq":3}"#), None);
    }

    #[test]
    fn documents_are_wanted_by_their_names() {
        let wanted = |name: Option<&str>, prefix: Option<&str>| {
            Wanted::of(name.map(str::to_owned), prefix.map(str::to_owned)).map_err(|problem| problem.status)
        };
        assert_eq!(wanted(None, None), Ok(Wanted::All));
        assert_eq!(wanted(None, Some("")), Ok(Wanted::All));
        let named = wanted(Some("a.1"), None).unwrap();
        assert!(named.has(b"a.1") && !named.has(b"a.12") && !named.has(b""));
        let beginning = wanted(None, Some("a")).unwrap();
        assert!(beginning.has(b"a") && beginning.has(b"ab") && !beginning.has(b"b"));
        for (name, prefix) in [(Some("a"), Some("a")), (Some(""), None), (Some("a/b"), None), (Some("\u{e4}"), None)] {
            assert_eq!(wanted(name, prefix), Err(400), "{name:?}");
        }
    }
}
