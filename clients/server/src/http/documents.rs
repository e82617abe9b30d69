//! The documents as resources.

use super::accept;
use super::conditions::{exists, tag_of, Condition};
use super::connection::Request;
use super::filters::{self, notice};
use super::guard::host_of;
use super::lines::DocumentLines;
use super::link;
use super::making::{changed, done, make, or_problem, Refused};
use super::merge::{operations_of, replacement_of};
use super::notices::notices_in;
use super::once::{or_before, Made};
use super::problem::Problem;
use super::response::{Body, Response};
use super::target::parameters;
use crate::json::canonical::{canonical, value_of};
use crate::json::compact::{LEVELS_OF_A_DOCUMENT, LEVELS_OF_A_LINE};
use crate::json::{compact, quoted, Compact, Fault};
use crate::limits::SMALL;
use crate::lines::replies::{self, names_in, text_in, told_names};
use crate::lines::MOST_LINE;
use crate::program::room::Taken;
use crate::refusals::{EXISTS, NO_DOCUMENT, REVISION};
use crate::store::{too_busy, ATTEMPTS};
use bytes::Bytes;

/// The media types of a document and of patches. Each that ends in `+json` is one of a document too, but those of patches.
pub const JSON: &str = "application/json";
const LINES: &str = "application/x-ndjson";
const PATCHES: [&str; 2] = ["application/json-patch+json", "application/merge-patch+json"];
pub const ACCEPT_PATCH: &str = "application/json-patch+json, application/merge-patch+json";

/// What the line of a change has at most beside its document or its operations.
const MOST_BESIDE: usize = 512;

/// The names in the order of creation, or the documents themselves as lines of JSON.
pub async fn names(request: &Request<'_>) -> Result<Response, Problem> {
    let [prefix] = parameters(&request.query, ["prefix"])?;
    let (prefix, store) = (prefix.unwrap_or_default(), &request.app.store);
    if accept::names(&request.head.list("accept").unwrap_or_default(), LINES, JSON) {
        let (seq, lines) = DocumentLines::begin(&request.app, &prefix).await?;
        let mut response = Response::empty(200).with("Vary", "Accept").with("Jpstore-Seq", seq.to_string());
        response.kind = LINES;
        response.body = Body::Lines(Box::new(lines));
        return Ok(response);
    }
    let reply = store.one(String::from_utf8_lossy(crate::lines::LIST).into_owned()).await?;
    let names = names_in(&reply).ok_or_else(|| Problem::of_reply(&reply))?;
    Ok(Response::text(200, JSON, told_names(&names, &prefix)).with("Vary", "Accept"))
}

/// A document, the value at a place of it, or the nodes that a query selects.
pub async fn get(request: &Request<'_>, name: &str) -> Result<Response, Problem> {
    let [pointer, query] = parameters(&request.query, ["pointer", "query"])?;
    let store = &request.app.store;
    let mut warning = None;
    let (rev, text, taken) = match (pointer, query) {
        (Some(_), Some(_)) => {
            return Err(Problem::new(400, "parameter", "a request has `pointer` or `query`, and not both"))
        }
        (None, Some(query)) => {
            let found = queried(request, name, &query).await?;
            if &found.1[..] == b"[]" {
                warning = notice(request, name, &query).await?;
            }
            found
        }
        (Some(pointer), None) if !pointer.is_empty() => {
            store.of_one_moment(name, &replies::get(name, &pointer)).await?
        }
        _ => {
            let document = store.document(name).await?;
            let text = document.text.clone();
            let taken = if text.len() > SMALL { Some(store.room(text.len()).await?) } else { None };
            (document.rev, text, taken)
        }
    };
    let response = read(request, name, rev, text, taken, JSON)?;
    Ok(warning.into_iter().fold(response, |response, told| response.with(filters::FIELD, told)))
}

async fn queried(request: &Request<'_>, name: &str, query: &str) -> Result<(u64, Bytes, Option<Taken>), Problem> {
    let _turn = request.app.queries.acquire().await;
    let line = replies::query(name, query);
    match request.app.store.of_one_moment(name, &line).await {
        Ok(found) => Ok(found),
        Err(problem) => Err(request.app.reasons.told(problem, line.as_bytes()).await),
    }
}

/// The answer to one who reads a document of this revision, or something of it.
pub fn read(
    request: &Request<'_>,
    name: &str,
    rev: u64,
    text: Bytes,
    taken: Option<Taken>,
    kind: &'static str,
) -> Result<Response, Problem> {
    let condition = Condition::of(&request.head)?;
    condition.check_read(Some(rev))?;
    let status = if condition.is_unchanged(rev) { 304 } else { 200 };
    let mut response = about(Response::empty(status), name, rev);
    response.kind = kind;
    response.body = Body::Bytes(text, taken);
    Ok(response)
}

/// The fields of an answer that has a document or is about its new state.
pub fn about(response: Response, name: &str, rev: u64) -> Response {
    let link = format!("</schemas/{name}>; rel=\"describedby\"");
    response.with("ETag", tag_of(rev)).with("Link", link).with("Accept-Patch", ACCEPT_PATCH)
}

/// Checks the media type of the body, and answers it in small letters.
pub fn check_kind(request: &Request<'_>, kinds: &[&str]) -> Result<String, Problem> {
    let field = request.head.field("content-type").unwrap_or(JSON);
    let (kind, rest) = field.split_once(';').unwrap_or((field, ""));
    let kind = kind.trim().to_ascii_lowercase();
    if let Some((_, charset)) = rest.to_ascii_lowercase().split_once("charset") {
        let charset = charset.trim_start().trim_start_matches('=').trim_start().trim_start_matches('"');
        let end = charset.find(|letter: char| letter == '"' || letter == ';' || letter.is_whitespace());
        if !matches!(&charset[..end.unwrap_or(charset.len())], "utf-8" | "utf8") {
            return Err(Problem::new(415, "media-type", "a JSON text is sent in UTF-8"));
        }
    }
    let is_json = kinds.contains(&JSON) && kind.ends_with("+json") && !PATCHES.contains(&kind.as_str());
    if kinds.contains(&kind.as_str()) || is_json {
        return Ok(kind);
    }
    let problem = Problem::new(415, "media-type", format!("the body is `{kind}`, and must be {}", kinds.join(" or ")));
    let field = if kinds == PATCHES { "Accept-Patch" } else { "Accept" };
    Err(problem.with(field, kinds.join(", ")))
}

/// The JSON text in the body.
pub async fn text_of(request: &mut Request<'_>) -> Result<Compact, Problem> {
    let coding = request.head.list("content-encoding").unwrap_or_default().to_ascii_lowercase();
    if !matches!(coding.trim(), "" | "identity") {
        let problem = Problem::new(415, "coding", "the body must not be compressed");
        return Err(problem.with("Accept-Encoding", "identity"));
    }
    checked(&request.body().await?)
}

/// A text that was checked, or the problem of one that no line can carry.
pub fn checked(text: &[u8]) -> Result<Compact, Problem> {
    let made = compact(text).map_err(|fault| match fault {
        Fault::NotJson(told) => Problem::refused(11, told),
        Fault::Unsendable(told) => Problem::refused(12, told),
    })?;
    match made.too_deep_for_a_line {
        Some(place) => Err(too_deep(11, place, LEVELS_OF_A_LINE)),
        None => Ok(made),
    }
}

/// The problem of a text at this line and column, at which the first level begins that is too deep.
fn too_deep(number: u64, (line, column): (usize, usize), most: usize) -> Problem {
    Problem::refused(number, format!("line {line}, column {column}: level {} begins", most + 1))
}

/// The line of a creation.
fn creation(name: &str, doc: &[u8], schema: &[u8]) -> Vec<u8> {
    [b"{\"cmd\":\"create\",\"doc\":", doc, b",\"name\":", quoted(name).as_bytes(), b",\"schema\":", schema, b"}\n"]
        .concat()
}

/// The line of a patch.
fn patching(name: &str, rev: Option<u64>, ops: &[u8]) -> Vec<u8> {
    let rev = rev.map_or_else(String::new, |rev| format!("\"if_rev\":{rev},"));
    [b"{\"cmd\":\"patch\",", rev.as_bytes(), b"\"name\":", quoted(name).as_bytes(), b",\"ops\":", ops, b"}\n"].concat()
}

/// The line that puts a document under another schema.
pub fn setting(name: &str, schema: &[u8]) -> Vec<u8> {
    [b"{\"cmd\":\"schema\",\"name\":", quoted(name).as_bytes(), b",\"schema\":", schema, b"}\n"].concat()
}

/// The line that replaces the whole of a document, and its schema too if one is given.
fn replacement(name: &str, rev: Option<u64>, doc: &[u8], schema: Option<&[u8]>) -> Vec<u8> {
    let ops = [b"[{\"op\":\"replace\",\"path\":\"\",\"value\":", doc, b"}]"].concat();
    match schema {
        None => patching(name, rev, &ops),
        Some(schema) => {
            // The old schema need not allow the new document, nor the new schema the old document.
            let guard = rev.map(|rev| patching(name, Some(rev), b"[]"));
            let changes = [setting(name, b"true"), patching(name, None, &ops), setting(name, schema)];
            transaction(&guard.into_iter().chain(changes).collect::<Vec<_>>())
        }
    }
}

/// The line of a transaction, of the lines of its changes.
fn transaction(changes: &[Vec<u8>]) -> Vec<u8> {
    let changes: Vec<&[u8]> = changes.iter().map(|line| line.strip_suffix(b"\n").unwrap_or(line)).collect();
    [b"{\"changes\":[", &changes.join(&b","[..])[..], b"],\"cmd\":\"transaction\"}\n"].concat()
}

/// Refuses a name to which no path leads: clients take it for a step to another path (RFC 3986, section 5.2.4).
pub fn check_path(name: &str) -> Result<(), Problem> {
    match name {
        "." | ".." => Err(Problem::new(
            400,
            "request",
            format!("clients can't ask for the path of `{name}`: choose another name"),
        )),
        _ => Ok(()),
    }
}

/// Makes a document, or replaces the whole of it.
pub async fn put(request: &mut Request<'_>, name: &str) -> Result<Response, Problem> {
    let [schema] = parameters(&request.query, ["schema"])?;
    check_path(name)?;
    check_kind(request, &[JSON])?;
    let condition = Condition::of(&request.head)?;
    let doc = text_of(request).await?;
    let (schema, made) = match schema_asked(request, schema).await {
        Ok(schema) => {
            let made = put_made(request, name, &doc, schema.as_deref(), &condition).await;
            (schema, made)
        }
        Err(problem) => (None, Err(problem)),
    };
    let made = or_before(request, made).await?;
    let schema = schema.unwrap_or_default();
    let notices = request.app.trees.work(schema.len(), move || notices_in(&schema)).await;
    Ok(changed(name, made, &notices))
}

/// Makes a document or replaces it; with a schema it is under that one then, else under its own, and a new one under `true`.
async fn put_made(
    request: &Request<'_>,
    name: &str,
    doc: &Compact,
    schema: Option<&[u8]>,
    condition: &Condition,
) -> Result<Made, Problem> {
    for _ in 0..ATTEMPTS {
        if let Some(made) = put_at(request, name, doc, schema, condition).await? {
            return Ok(made);
        }
    }
    Err(too_busy(name))
}

/// Makes or replaces a document; none if another client made, changed or deleted it at the same time.
async fn put_at(
    request: &Request<'_>,
    name: &str,
    doc: &Compact,
    schema: Option<&[u8]>,
    condition: &Condition,
) -> Result<Option<Made>, Problem> {
    let new = creation(name, &doc.text, schema.unwrap_or(b"true"));
    let mut rev = None;
    if condition.is_given() && !condition.is_only_new() {
        rev = request.app.store.rev_if_there(name).await?;
        condition.check(rev)?;
    }
    if rev.is_some() || !condition.is_given() {
        check_levels(name, doc)?;
        match make(request, replacement(name, rev, &doc.text, schema), 200).await? {
            Ok(made) => return Ok(Some(made)),
            Err(Refused { number: REVISION, .. }) => return Ok(None),
            Err(Refused { number: NO_DOCUMENT, .. }) if rev.is_some() => return Ok(None),
            Err(Refused { number: NO_DOCUMENT, .. }) => (),
            // It is judged as a whole, as a new document would be.
            Err(refused) if schema.is_some() => return Err(refused.of_one(&new).problem(&request.app).await),
            Err(refused) => return Err(refused.problem(&request.app).await),
        }
    }
    match make(request, new, 201).await? {
        Ok(made) => Ok(Some(made)),
        Err(Refused { number: EXISTS, .. }) if condition.is_only_new() => Err(exists(None)),
        Err(Refused { number: EXISTS, .. }) => Ok(None),
        Err(refused) => Err(refused.problem(&request.app).await),
    }
}

/// Refuses a document that nests too deep as one, and not as a part of the patch that replaces another.
fn check_levels(name: &str, doc: &Compact) -> Result<(), Problem> {
    // Else it is refused for its name, or for its length. Within a line a document is a level deeper.
    let is_line = doc.levels < LEVELS_OF_A_LINE;
    let is_refused = !is_line || (replies::is_name(name) && doc.text.len() < MOST_LINE - MOST_BESIDE);
    match doc.too_deep.filter(|_| is_refused) {
        Some(place) => Err(too_deep(if is_line { 13 } else { 11 }, place, LEVELS_OF_A_DOCUMENT)),
        None => Ok(()),
    }
}

/// The schema that a new document is to have: in `?schema=`, or by `Link` that of another document.
async fn schema_asked(request: &Request<'_>, text: Option<String>) -> Result<Option<Vec<u8>>, Problem> {
    let wrong = || {
        let told = "one schema is given: by `?schema=`, or by `Link: </schemas/NAME>; rel=\"describedby\"` to one here";
        Problem::new(400, "link", told)
    };
    let links = request.head.list("link").unwrap_or_default();
    let targets = link::described_by(&links).ok_or_else(wrong)?;
    match (text, &targets[..]) {
        (None, []) => Ok(None),
        (Some(text), []) => match checked(text.as_bytes()) {
            Ok(schema) => Ok(Some(schema.text)),
            Err(problem) => Err(Problem { detail: format!("`schema`: {}", problem.detail), ..problem }),
        },
        (None, [target]) => {
            let host = host_of(&request.head, request.host.as_deref())?;
            let name = link::name_at(target, &host).ok_or_else(wrong)?;
            let reply = request.app.store.one(replies::get_schema(&name)).await?;
            text_in(&reply).map(|text| Some(text.to_vec())).ok_or_else(|| Problem::of_reply(&reply))
        }
        _ => Err(wrong()),
    }
}

/// Changes a document by a JSON Patch or a JSON Merge Patch.
pub async fn patch(request: &mut Request<'_>, name: &str) -> Result<Response, Problem> {
    let [] = parameters(&request.query, [])?;
    let kind = check_kind(request, &PATCHES)?;
    let condition = Condition::of(&request.head)?;
    let patch = text_of(request).await?;
    let made = patch_made(request, name, &patch, kind == PATCHES[1], &condition).await;
    Ok(changed(name, or_before(request, made).await?, &[]))
}

async fn patch_made(
    request: &Request<'_>,
    name: &str,
    patch: &Compact,
    is_merge: bool,
    condition: &Condition,
) -> Result<Made, Problem> {
    for _ in 0..ATTEMPTS {
        let (rev, ops) = if is_merge {
            merging(request, name, patch, condition).await?
        } else {
            (revision_allowed(request, name, condition).await?, patch.text.clone())
        };
        match make(request, patching(name, rev, &ops), 200).await? {
            Ok(made) => return Ok(made),
            Err(Refused { number: REVISION, rev: found, .. }) if rev.is_some() => condition.check(found)?,
            Err(refused) => return Err(refused.problem(&request.app).await),
        }
    }
    Err(too_busy(name))
}

/// The revision of which a change may be made; none if that doesn't matter.
async fn revision_allowed(request: &Request<'_>, name: &str, condition: &Condition) -> Result<Option<u64>, Problem> {
    if !condition.is_given() {
        return Ok(None);
    }
    if condition.only_revision().is_some() {
        // The store compares it, and tells the other one.
        return Ok(condition.only_revision());
    }
    let rev = request.app.store.rev(name).await?;
    condition.check(Some(rev))?;
    Ok(Some(rev))
}

/// The operations of a merge patch on the document, and the revision of the document of which they were made. At another one
/// they would be wrong.
async fn merging(
    request: &Request<'_>,
    name: &str,
    patch: &Compact,
    condition: &Condition,
) -> Result<(Option<u64>, Vec<u8>), Problem> {
    let document = request.app.store.document(name).await?;
    condition.check(Some(document.rev))?;
    let (doc, patch) = (document.text.clone(), patch.text.clone());
    let operations = request.app.trees.work(doc.len() + patch.len(), move || merge_operations(&doc, &patch)).await;
    let told = "the patch nests deeper than 127 levels";
    operations.map(|operations| (Some(document.rev), operations)).ok_or_else(|| Problem::refused(11, told))
}

/// The operations that make of a document what a merge patch asks for; none if it nests too deep.
fn merge_operations(doc: &[u8], patch: &[u8]) -> Option<Vec<u8>> {
    let (doc, patch) = (value_of(doc)?, value_of(patch)?);
    let operations = canonical(&operations_of(&doc, &patch));
    // Operations may be longer than what they make, by their places.
    let is_short = operations.len() < MOST_LINE - MOST_BESIDE;
    Some(if is_short { operations } else { canonical(&replacement_of(&doc, &patch)) })
}

/// Deletes a document.
pub async fn delete(request: &Request<'_>, name: &str) -> Result<Response, Problem> {
    let [] = parameters(&request.query, [])?;
    let condition = Condition::of(&request.head)?;
    let line = format!("{{\"cmd\":\"delete\",\"name\":{}}}\n", quoted(name));
    let made = or_before(request, change_if(request, name, &condition, line.as_bytes()).await).await?;
    Ok(Response::json(made.status, done(made.seq, &[])))
}

/// Makes a change, whose command takes no revision, of a revision that the condition allows.
pub async fn change_if(request: &Request<'_>, name: &str, condition: &Condition, line: &[u8]) -> Result<Made, Problem> {
    if !condition.is_given() || condition.is_only_there() {
        return or_problem(request, make(request, line.to_vec(), 200).await?).await;
    }
    for _ in 0..ATTEMPTS {
        let rev = request.app.store.rev(name).await?;
        condition.check(Some(rev))?;
        let both = transaction(&[patching(name, Some(rev), b"[]"), line.to_vec()]);
        match make(request, both, 200).await? {
            Err(refused) if refused.number == REVISION && refused.change == Some(0) => (),
            made => return or_problem(request, made.map_err(|refused| refused.of_one(line))).await,
        }
    }
    Err(too_busy(name))
}
