//! The status of the store and of the server, as JSON and as metrics, and what the types of problems mean.

use super::connection::Request;
use super::problem::Problem;
use super::response::Response;
use super::target::parameters;
use crate::json::Object;
use crate::limits::PROBE;
use crate::lines::replies::Status;
use crate::lines::STATUS;
use crate::refusals::{by_name, by_number};
use std::fmt::Write;
use std::sync::atomic::{AtomicU64, Ordering};
use tokio::time::timeout;

/// The methods that are counted each by itself. A client may make methods up, and each figure stays.
const METHODS: [&str; 8] = ["DELETE", "GET", "HEAD", "OPTIONS", "PATCH", "POST", "PUT", "other"];

/// The statuses that are counted: from 100 on.
const STATUSES: usize = 500;

/// How many requests were answered, by method and status.
pub struct Counts {
    counts: Vec<AtomicU64>,
}

impl Default for Counts {
    fn default() -> Counts {
        Counts { counts: (0..METHODS.len() * STATUSES).map(|_| AtomicU64::new(0)).collect() }
    }
}

impl Counts {
    /// Counts an answered request.
    pub fn count(&self, method: &str, status: u16) {
        let method = METHODS.iter().position(|known| *known == method).unwrap_or(METHODS.len() - 1);
        let place = method * STATUSES + usize::from(status.saturating_sub(100)).min(STATUSES - 1);
        self.counts[place].fetch_add(1, Ordering::Relaxed);
    }

    fn add_to(&self, text: &mut String) {
        *text += "# HELP jpstore_http_requests_total answered requests\n# TYPE jpstore_http_requests_total counter\n";
        for (place, count) in self.counts.iter().map(|count| count.load(Ordering::Relaxed)).enumerate() {
            if count > 0 {
                let (method, status) = (METHODS[place / STATUSES], place % STATUSES + 100);
                // Writing into a text can't fail.
                let _ =
                    writeln!(text, "jpstore_http_requests_total{{method=\"{method}\",status=\"{status}\"}} {count}");
            }
        }
    }
}

async fn status_of(request: &Request<'_>) -> Result<Status, Problem> {
    let reply = request.app.store.one(String::from_utf8_lossy(STATUS).into_owned()).await?;
    Status::of(&reply).ok_or_else(|| Problem::of_reply(&reply))
}

/// The status of the store.
pub async fn status(request: &Request<'_>) -> Result<Response, Problem> {
    let [] = parameters(&request.query, [])?;
    let found = status_of(request).await?;
    let mut told = Object::new()
        .json("broken", if found.broken { "true" } else { "false" })
        .number("capacity", found.capacity)
        .number("documents", found.documents)
        .number("half", found.half);
    if let Some(identity) = found.identity {
        told = told.text("id", &format!("{identity:032x}"));
    }
    let told = told
        .number("opens", found.opens)
        .number("sectors", found.sectors)
        .number("seq", found.seq)
        .number("used", found.used);
    Ok(Response::json(200, told.end()))
}

/// Whether the store answers, and can be changed.
pub async fn health(request: &Request<'_>) -> Result<Response, Problem> {
    let [] = parameters(&request.query, [])?;
    let found = timeout(PROBE, status_of(request)).await.map_err(|_| Problem::unavailable())?;
    if found?.broken {
        return Err(Problem::refused(62, by_number(62).map_or("", |row| row.meaning)));
    }
    Ok(Response::json(200, Object::new().json("ok", "true").end()))
}

/// The figures in the text form of Prometheus.
pub async fn figures(request: &Request<'_>) -> Result<Response, Problem> {
    let [] = parameters(&request.query, [])?;
    let mut text = String::new();
    let found = status_of(request).await;
    add(&mut text, "up", "gauge", "1 if the store answers", u64::from(found.is_ok()));
    if let Ok(found) = found {
        add(&mut text, "used_bytes", "gauge", "bytes of the current half that changes take", found.used);
        add(&mut text, "capacity_bytes", "gauge", "bytes of a half", found.capacity);
        add(&mut text, "documents", "gauge", "documents", found.documents);
        add(&mut text, "changes", "counter", "accepted changes", found.seq);
        add(&mut text, "opens", "counter", "times that the store was opened", found.opens);
        add(&mut text, "broken", "gauge", "1 if the device has failed", u64::from(found.broken));
    }
    request.app.facts.add_to(&mut text);
    Ok(Response::text(200, "text/plain; version=0.0.4; charset=utf-8", text))
}

fn add(text: &mut String, name: &str, kind: &str, told: &str, value: u64) {
    let name = format!("jpstore_{name}{}", if kind == "counter" { "_total" } else { "" });
    // Writing into a text can't fail.
    let _ = writeln!(text, "# HELP {name} {told}\n# TYPE {name} {kind}\n{name} {value}");
}

/// What a type of problem means.
pub fn problem(request: &Request<'_>, name: &str) -> Result<Response, Problem> {
    let [] = parameters(&request.query, [])?;
    let row = by_name(name).ok_or_else(|| Problem::new(404, "request", "there is nothing at this path"))?;
    let told = Object::new()
        .text("type", &format!("/problems/{}", row.name))
        .number("status", row.status.into())
        .number("number", row.number)
        .text("name", row.name)
        .text("meaning", row.meaning)
        .text("advice", row.advice);
    Ok(Response::json(200, told.end()))
}
