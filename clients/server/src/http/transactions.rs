//! Several changes, all or none, and marks that are set with them.

use super::conditions::Condition;
use super::connection::Request;
use super::documents::{check_kind, check_path, text_of, JSON};
use super::making::{done, make, or_problem};
use super::notices::notices_of;
use super::once::or_before;
use super::problem::Problem;
use super::response::Response;
use super::target::parameters;
use crate::json::canonical::{canonical, value_of};
use crate::json::{quoted, Object};
use crate::lines::replies::{self, mark_in};
use serde_json::Value;

const CHANGES: [&str; 4] = ["create", "patch", "schema", "delete"];

/// The members of a body that speak of a mark.
const OF_MARK: [&str; 2] = ["if_mark", "mark"];

/// Makes the changes of the body.
pub async fn make_all(request: &mut Request<'_>) -> Result<Response, Problem> {
    let [] = parameters(&request.query, [])?;
    check_kind(request, &[JSON])?;
    if Condition::of(&request.head)?.check(None).is_err() {
        let told = "a transaction has no revision: a patch in it that has `if_rev` and no operations asks for that of a document";
        return Err(Problem::new(412, "condition", told));
    }
    let body = text_of(request).await?.text;
    let has_key = request.once.is_some();
    let (line, warnings) = request.app.trees.work(body.len(), move || line_of(&body, has_key)).await?;
    let made = match make(request, line, 200).await {
        Ok(made) => or_problem(request, made).await,
        Err(problem) => Err(problem),
    };
    let made = or_before(request, made).await?;
    Ok(Response::json(made.status, done(made.seq, &warnings)))
}

/// The line of the changes of a body, and what may be mistakes in it. A request with a key has no mark of its own.
fn line_of(body: &[u8], has_key: bool) -> Result<(Vec<u8>, Vec<String>), Problem> {
    let (changes, of_mark) = changes_in(body)?;
    if !of_mark.is_empty() && has_key {
        let told = "a transaction that sets a `mark` of its own has no `Idempotency-Key`";
        return Err(Problem::new(400, "idempotency-key", told));
    }
    let changed = canonical(&changes);
    let line = [b"{", &of_mark[..], b"\"changes\":", &changed, b",\"cmd\":\"transaction\"}\n"].concat();
    Ok((line, warnings_of(&changes)))
}

/// The mark of a key.
pub async fn mark(request: &Request<'_>, key: &str) -> Result<Response, Problem> {
    let [] = parameters(&request.query, [])?;
    let reply = request.app.store.one(replies::mark(key)).await?;
    let mark = mark_in(&reply).ok_or_else(|| Problem::of_reply(&reply))?;
    let value = mark.as_ref().map_or("null".to_owned(), |mark| quoted(&mark.value));
    let told = Object::new().json("mark", &value).number_if("seq", mark.map(|mark| mark.seq));
    Ok(Response::json(200, told.end()))
}

/// The changes of a body, and the texts of the members that speak of a mark, each with a comma after it.
fn changes_in(body: &[u8]) -> Result<(Value, Vec<u8>), Problem> {
    let mut value = value_of(body).ok_or_else(|| Problem::refused(11, "the body nests deeper than 127 levels"))?;
    let mut of_mark = Vec::new();
    let changes = value.as_object_mut().and_then(|members| {
        for name in OF_MARK {
            let value = members.remove(name);
            value
                .iter()
                .for_each(|value| of_mark.extend([quoted(name).as_bytes(), b":", &canonical(value), b","].concat()));
        }
        members.remove("changes").filter(|changes| members.is_empty() && changes.is_array())
    });
    let told = "the body is an object of `changes`, a list, and of `mark` and `if_mark`, which may be left out";
    let changes = changes.ok_or_else(|| Problem::refused(14, told))?;
    let is_change =
        |change: &Value| change.get("cmd").and_then(Value::as_str).map_or(false, |word| CHANGES.contains(&word));
    let wrong = changes.as_array().and_then(|changes| changes.iter().position(|change| !is_change(change)));
    let made = changes.as_array().into_iter().flatten().enumerate().filter(|(_, change)| change["cmd"] == CHANGES[0]);
    for (place, change) in made {
        let checked = check_path(change["name"].as_str().unwrap_or_default());
        checked.map_err(|problem| Problem { change: Some(place as u64), ..problem })?;
    }
    match wrong {
        Some(place) => {
            let told = format!(
                "change {place}, counted from 0: its `cmd` is none of `create`, `patch`, `schema` and `delete`"
            );
            Err(Problem::refused(14, told))
        }
        None => Ok((changes, of_mark)),
    }
}

fn warnings_of(changes: &Value) -> Vec<String> {
    let all = changes.as_array().into_iter().flatten().enumerate();
    all.flat_map(|(place, change)| {
        let notices = change.get("schema").map(notices_of).unwrap_or_default();
        notices.into_iter().map(move |notice| format!("change {place}, counted from 0: {notice}"))
    })
    .take(100)
    .collect()
}

#[cfg(test)]
mod tests {
    use super::{changes_in, warnings_of};

    #[test]
    fn a_body_has_its_changes_alone() {
        assert!(changes_in(br#"{"changes":[{"cmd":"delete","name":"d"}]}"#).is_ok());
        for body in [
            "[]",
            "{}",
            r#"{"changes":{}}"#,
            r#"{"changes":[1]}"#,
            r#"{"changes":[],"x":1}"#,
            r#"{"changes":[{"cmd":"get"}]}"#,
        ] {
            assert_eq!(changes_in(body.as_bytes()).unwrap_err().number, Some(14), "{body}");
        }
        let body = br#"{"mark":{"value":"v","key":"k"},"changes":[],"if_mark":null}"#;
        let of_mark = br#""if_mark":null,"mark":{"key":"k","value":"v"},"#;
        assert_eq!(changes_in(body).unwrap(), (serde_json::json!([]), of_mark.to_vec()));
        let (changes, _) =
            changes_in(br#"{"changes":[{"cmd":"delete"},{"cmd":"schema","schema":{"minimun":1}}]}"#).unwrap();
        assert_eq!(warnings_of(&changes), ["change 1, counted from 0: schema /minimun: `minimun` is not a keyword, and is ignored: perhaps `minimum` is meant"]);
    }
}
