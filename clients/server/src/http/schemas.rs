//! The schemas of the documents as resources.

use super::conditions::Condition;
use super::connection::Request;
use super::documents::{change_if, check_kind, read, setting, text_of, JSON};
use super::making::changed;
use super::notices::notices_in;
use super::once::or_before;
use super::problem::Problem;
use super::response::Response;
use super::target::parameters;
use crate::lines::replies;

/// The media type of a schema.
const SCHEMA: &str = "application/schema+json";

/// The schema of a document.
pub async fn get(request: &Request<'_>, name: &str) -> Result<Response, Problem> {
    let [] = parameters(&request.query, [])?;
    let (rev, text, taken) = request.app.store.of_one_moment(name, &replies::get_schema(name)).await?;
    read(request, name, rev, text, taken, SCHEMA)
}

/// Puts a document under another schema.
pub async fn put(request: &mut Request<'_>, name: &str) -> Result<Response, Problem> {
    let [] = parameters(&request.query, [])?;
    check_kind(request, &[SCHEMA, JSON])?;
    let condition = Condition::of(&request.head)?;
    let schema = text_of(request).await?.text;
    let made = change_if(request, name, &condition, &setting(name, &schema)).await;
    let made = or_before(request, made).await?;
    let notices = request.app.trees.work(schema.len(), move || notices_in(&schema)).await;
    Ok(changed(name, made, &notices))
}
