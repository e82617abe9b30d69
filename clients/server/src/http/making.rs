//! Changes that the store is asked for, and the answers to them.

use super::app::App;
use super::connection::Request;
use super::documents::about;
use super::once::Made;
use super::problem::Problem;
use super::response::Response;
use crate::json::write::list;
use crate::json::Object;
use crate::lines::replies::seq_in;
use serde_json::Value;

/// The most warnings of an answer.
const MOST_WARNINGS: usize = 100;

/// A change that was refused.
pub struct Refused {
    /// The number of the refusal.
    pub number: u64,
    /// The document's revision, if the refusal tells it.
    pub rev: Option<u64>,
    /// The change of a transaction that is at fault.
    pub change: Option<u64>,
    problem: Problem,
    line: Vec<u8>,
}

impl Refused {
    /// The same as of this line alone, in place of a transaction that does it.
    pub fn of_one(mut self, line: &[u8]) -> Refused {
        if let Some(row) = crate::refusals::by_number(self.number) {
            self.problem.status = row.status;
        }
        (self.problem.change, self.problem.op) = (None, None);
        self.line = line.to_vec();
        self
    }

    /// The problem, with the place of the fault if that is found in time.
    pub async fn problem(self, app: &App) -> Problem {
        app.reasons.told_of_change(app, self.problem, &self.line).await
    }
}

/// Makes a change or a transaction, which is answered with this status, or tells how it was refused.
pub async fn make(request: &Request<'_>, line: Vec<u8>, status: u16) -> Result<Result<Made, Refused>, Problem> {
    let sent = request.once.as_ref().map_or_else(|| line.clone(), |once| once.line(&line, status));
    let reply = request.app.store.change(sent).await?;
    if let Some(seq) = seq_in(&reply) {
        return Ok(Ok(Made { seq, status }));
    }
    let told: Value = serde_json::from_slice(&reply).unwrap_or_default();
    let member = |name: &str| told.get(name).and_then(Value::as_u64);
    let problem = Problem::of_reply(&reply);
    Ok(Err(Refused {
        number: member("number").unwrap_or(0),
        rev: member("rev"),
        change: member("change"),
        problem,
        line,
    }))
}

/// What was made, or the problem of a change that was refused.
pub async fn or_problem(request: &Request<'_>, made: Result<Made, Refused>) -> Result<Made, Problem> {
    match made {
        Ok(made) => Ok(made),
        Err(refused) => Err(refused.problem(&request.app).await),
    }
}

/// What is answered to an accepted change: its number, and what may be a mistake in its schema, if anything.
pub fn done(seq: u64, warnings: &[String]) -> String {
    let told = Object::new().number("seq", seq);
    if warnings.is_empty() {
        return told.end();
    }
    told.json("warnings", &list(warnings.iter().take(MOST_WARNINGS))).end()
}

/// The answer to a change of a document that is there afterwards: the number is its revision now.
pub fn changed(name: &str, made: Made, warnings: &[String]) -> Response {
    let response = about(Response::json(made.status, done(made.seq, warnings)), name, made.seq);
    if made.status == 201 {
        return response.with("Location", format!("/documents/{name}"));
    }
    response
}
