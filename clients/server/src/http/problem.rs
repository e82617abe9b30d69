//! Refusals and faults as Problem Details (RFC 9457).

use super::response::Response;
use crate::json::{quoted, Object};
use crate::lines::replies::{mark_in, Mark};
use crate::refusals::{self, by_number, NO_MAJORITY};
use serde_json::Value;

/// The refusals of which a place is told: in a text, a line, a schema or a query.
const PLACED: [u64; 15] = [11, 12, 13, 14, 15, 30, 31, 33, 40, 41, 42, 43, 44, 50, 51];

/// A request that is refused: its status, and the members of its Problem Details.
#[derive(Debug, Default)]
pub struct Problem {
    /// The status.
    pub status: u16,
    /// What is refused, in one word.
    pub name: String,
    /// What is wrong, and where, or else what to do.
    pub detail: String,
    /// What to do in particular, if `detail` tells the place.
    pub advice: Option<String>,
    /// The number of the refusal.
    pub number: Option<u64>,
    /// The change of a transaction that is at fault.
    pub change: Option<u64>,
    /// The operation of a patch that is at fault.
    pub op: Option<u64>,
    /// The document's revision.
    pub rev: Option<u64>,
    /// The mark that the key has, if another one was asked for.
    pub mark: Option<Option<Mark>>,
    /// The number from which on changes are kept.
    pub from: Option<u64>,
    /// The faults of a document, as a JSON text.
    pub errors: Option<String>,
    /// Fields of the answer.
    pub fields: Vec<(&'static str, String)>,
}

impl Problem {
    /// A problem without further members.
    pub fn new(status: u16, name: &str, detail: impl Into<String>) -> Problem {
        Problem { status, name: name.to_owned(), detail: detail.into(), ..Problem::default() }
    }

    /// The same with a field of the answer.
    pub fn with(mut self, name: &'static str, value: impl Into<String>) -> Problem {
        self.fields.push((name, value.into()));
        self
    }

    /// The problem for a refusal of the table, which the server itself has found.
    pub fn refused(number: u64, detail: impl Into<String>) -> Problem {
        let status = by_number(number).map_or(500, |row| row.status);
        Problem { number: Some(number), ..Problem::new(status, refusals::name_of(number), detail) }
    }

    /// The same with another status.
    pub fn status(self, status: u16) -> Problem {
        Problem { status, ..self }
    }

    /// The problem of a reply that refuses. A change of a transaction is told of another document than the target.
    pub fn of_reply(reply: &[u8]) -> Problem {
        let told: Value = serde_json::from_slice(reply).unwrap_or_default();
        let member = |name: &str| told.get(name).and_then(Value::as_u64);
        let number = member("number").unwrap_or(0);
        let row = by_number(number);
        let advice = row.map_or("", |row| row.advice);
        let mut problem = match row {
            None if refusals::name_of(number).is_empty() => {
                Problem::new(500, "failed", "the store answered what is not known here")
            }
            _ => Problem::refused(number, advice),
        };
        if number == NO_MAJORITY {
            problem.status = 503;
            problem.detail = "no majority of the log answered in time, and nothing was changed".to_owned();
        }
        problem.change = member("change");
        problem.op = member("op");
        problem.rev = member("rev");
        problem.from = member("from");
        problem.mark = mark_in(reply);
        if problem.change.is_some() && matches!(problem.status, 404 | 412) {
            problem.status = 409;
        }
        if problem.status == 503 {
            return problem.with("Retry-After", "1");
        }
        problem
    }

    /// The store isn't served now.
    pub fn unavailable() -> Problem {
        Problem::new(503, "unavailable", "the store is not served now: send the request again").with("Retry-After", "1")
    }

    /// Too much is asked at once.
    pub fn busy(detail: impl Into<String>) -> Problem {
        Problem::new(503, "busy", detail).with("Retry-After", "1")
    }

    /// A change of which it isn't known whether it is stored.
    pub fn lost(is_late: bool) -> Problem {
        let (status, name) = if is_late { (504, "answer-late") } else { (502, "answer-lost") };
        Problem::new(status, name, "the answer was lost: the change may or may not be stored, but never in part")
    }

    /// The answer.
    pub fn response(self) -> Response {
        let row = self.number.and_then(by_number);
        let kind = row.map_or("about:blank".to_owned(), |row| format!("/problems/{}", row.name));
        let title = row.map_or_else(|| phrase_of(self.status), |row| row.meaning);
        let mut told = Object::new()
            .text("type", &kind)
            .text("title", title)
            .number("status", self.status.into())
            .text("detail", &self.detail)
            .text("name", &self.name)
            .number_if("number", self.number)
            .number_if("change", self.change)
            .number_if("op", self.op)
            .number_if("rev", self.rev)
            .number_if("from", self.from);
        if let Some(mark) = &self.mark {
            let value = mark.as_ref().map_or("null".to_owned(), |mark| quoted(&mark.value));
            told = told.json("mark", &value).number_if("seq", mark.as_ref().map(|mark| mark.seq));
        }
        let advice = self.advice.as_deref().or_else(|| row.map(|row| row.advice));
        // The gateway's own refusals tell a place or nothing.
        let has_place = self.number.map_or(true, |number| PLACED.contains(&number));
        if let Some(advice) = advice.filter(|advice| has_place && *advice != self.detail) {
            told = told.text("advice", advice);
        }
        if let Some(errors) = &self.errors {
            told = told.json("errors", errors);
        }
        let mut response = Response::text(self.status, "application/problem+json", told.end() + "\n");
        response.fields.extend(self.fields);
        response
    }
}

/// The name of a status (RFC 9110, section 15).
pub fn phrase_of(status: u16) -> &'static str {
    match status {
        100 => "Continue",
        200 => "OK",
        201 => "Created",
        204 => "No Content",
        304 => "Not Modified",
        400 => "Bad Request",
        401 => "Unauthorized",
        403 => "Forbidden",
        404 => "Not Found",
        405 => "Method Not Allowed",
        408 => "Request Timeout",
        409 => "Conflict",
        410 => "Gone",
        412 => "Precondition Failed",
        413 => "Content Too Large",
        414 => "URI Too Long",
        415 => "Unsupported Media Type",
        417 => "Expectation Failed",
        421 => "Misdirected Request",
        422 => "Unprocessable Content",
        431 => "Request Header Fields Too Large",
        500 => "Internal Server Error",
        501 => "Not Implemented",
        502 => "Bad Gateway",
        503 => "Service Unavailable",
        504 => "Gateway Timeout",
        505 => "HTTP Version Not Supported",
        507 => "Insufficient Storage",
        _ => "",
    }
}
