//! Requests that are made once, however often they are sent: those with the field `Idempotency-Key`
//! (draft-ietf-httpapi-idempotency-key-header).
//!
//! The change is made together with a mark of the store, whose key is a digest of the field's. The value has the status of the
//! answer, and a digest of the request. The store refuses a second change with the key, before it looks at anything else. So
//! what is made once is decided there, also for requests of the same time, and after a stop.

use super::connection::Request;
use super::fields::Rest;
use super::head::Head;
use super::problem::Problem;
use crate::json::Object;
use crate::lines::replies::{self, mark_in, Mark, Status};
use crate::lines::STATUS;
use sha2::{Digest, Sha256};

const FIELD: &str = "Idempotency-Key";

/// The most characters of a key.
const MOST: usize = 200;

/// The fields that a request means something else by, beside its method, its target and its body.
const TOLD: [&str; 4] = ["content-type", "if-match", "if-none-match", "link"];

/// How the key of a mark begins, and how many digits of the digest follow.
const BEGIN: &str = "idem-";
const DIGITS: usize = 40;

const COMMAND: u64 = 14;

/// The line that a node of a replicated store alone answers: it takes no marks of clients.
const NODE: &str = "{\"cmd\":\"node\"}\n";

/// What was made, or was made before: the number of the last change, and the status of the answer.
#[derive(Clone, Copy, Debug, PartialEq, Eq)]
pub struct Made {
    /// The number.
    pub seq: u64,
    /// The status.
    pub status: u16,
}

/// A request that is made once.
#[derive(Debug)]
pub struct Once {
    /// The key of its mark.
    key: String,
    /// The digest of what is there of the request, and of all of it once it has been read.
    begun: Sha256,
    digest: Option<String>,
}

impl Once {
    /// What a request says by its field; none if it has none.
    pub fn of(head: &Head) -> Result<Option<Once>, Problem> {
        let text = match head.list(&FIELD.to_ascii_lowercase()) {
            Some(text) => text,
            None => return Ok(None),
        };
        let told = format!("`{FIELD}` is a text of 1 to {MOST} visible ASCII characters in double quotes");
        let key = key_in(&text).ok_or_else(|| Problem::new(400, "idempotency-key", told))?;
        let mut begun = Sha256::new();
        add(&mut begun, head.method.as_bytes());
        add(&mut begun, head.target.as_bytes());
        TOLD.iter().for_each(|name| add(&mut begun, head.list(name).unwrap_or_default().as_bytes()));
        let mut once =
            Once { key: BEGIN.to_owned() + &hex(Sha256::new_with_prefix(key))[..DIGITS], begun, digest: None };
        if head.method == "DELETE" {
            // It has no body that means anything.
            once.take_body(&[]);
        }
        Ok(Some(once))
    }

    /// Takes the body, with which the request is whole.
    pub fn take_body(&mut self, body: &[u8]) {
        let mut whole = self.begun.clone();
        add(&mut whole, body);
        self.digest = Some(hex(whole));
    }

    /// The line of a change that sets the mark, which must not be there. This is the status of the answer.
    pub fn line(&self, line: &[u8], status: u16) -> Vec<u8> {
        let value = format!("{status}-{}", self.digest.as_deref().unwrap_or_default());
        let mark = Object::new().text("key", &self.key).text("value", &value).end();
        // These come first, so that the end of a transaction's line still tells what it is.
        [b"{\"if_mark\":null,\"mark\":", mark.as_bytes(), b",", &line[1..]].concat()
    }

    /// What was made by the request that set this mark, or the problem of another one.
    fn answered(&self, mark: &Mark, digest: &str) -> Result<Made, Problem> {
        let status =
            mark.value.split_once('-').filter(|(_, of)| *of == digest).and_then(|(status, _)| status.parse().ok());
        status.map(|status| Made { seq: mark.seq, status }).ok_or_else(|| {
            let told = format!("another request had this `{FIELD}`: send this one with a key of its own");
            Problem::new(422, "idempotency-key-reused", told)
        })
    }

    fn has_no_marks() -> Problem {
        let told = format!(
            "`{FIELD}` needs a store in format 3, and no replicated one: `jpstore upgrade FILE` makes format 3"
        );
        Problem::new(501, "idempotency-key-unsupported", told)
    }
}

/// What was made. If it was refused, and the request has a key, what was made of it before counts: a condition that held then
/// may not hold after it.
pub async fn or_before(request: &Request<'_>, made: Result<Made, Problem>) -> Result<Made, Problem> {
    let (once, digest, problem) = match (made, &request.once) {
        (Err(problem), Some(once @ Once { digest: Some(digest), .. })) => (once, digest, problem),
        (made, _) => return made,
    };
    if let Some(Some(mark)) = &problem.mark {
        return once.answered(mark, digest);
    }
    if problem.status > 501 {
        // The store doesn't answer now.
        return Err(problem);
    }
    let asked = [replies::mark(&once.key), String::from_utf8_lossy(STATUS).into_owned(), NODE.to_owned()];
    let told = match request.app.store.ask(&asked).await {
        Ok(told) => told.lines,
        Err(_) => return Err(problem),
    };
    let has_identity = told.get(1).and_then(|reply| Status::of(reply)).map_or(true, |status| status.identity.is_some());
    let is_node = told.get(2).map_or(false, |reply| reply.starts_with(b"{\"age\":"));
    match told.first().and_then(|reply| mark_in(reply)) {
        Some(Some(mark)) => once.answered(&mark, digest),
        Some(None) if (has_identity && !is_node) || problem.number != Some(COMMAND) => Err(problem),
        None if problem.number != Some(COMMAND) => Err(problem),
        _ => Err(Once::has_no_marks()),
    }
}

/// Adds a part, in which none can be taken for another: its length comes first.
fn add(digest: &mut Sha256, part: &[u8]) {
    digest.update((part.len() as u64).to_be_bytes());
    digest.update(part);
}

fn hex(digest: Sha256) -> String {
    digest.finalize().iter().map(|byte| format!("{byte:02x}")).collect()
}

/// The characters of a string of structured fields (RFC 9651, section 3.3.3). Its parameters mean nothing here.
fn key_in(text: &str) -> Option<String> {
    let (mut letters, mut key) = (text.trim_matches(' ').strip_prefix('"')?.chars(), String::new());
    loop {
        key.push(match letters.next()? {
            '"' => break,
            '\\' => letters.next().filter(|letter| matches!(letter, '"' | '\\'))?,
            letter @ ' '..='~' => letter,
            _ => return None,
        });
    }
    let mut rest = Rest::of(letters.as_str());
    pass_parameters(&mut rest)?;
    ((1..=MOST).contains(&key.len()) && rest.is_empty()).then(|| key)
}

/// Passes over the parameters of an item of structured fields: blanks may come after a semicolon, and nowhere else.
fn pass_parameters(rest: &mut Rest<'_>) -> Option<()> {
    while rest.pass(';') {
        while rest.pass(' ') {}
        rest.some(is_key)?;
        if rest.pass('=') && rest.quoted().is_none() {
            rest.some(is_item)?;
        }
    }
    Some(())
}

/// Whether a byte may be in the name of a parameter.
fn is_key(byte: u8) -> bool {
    byte.is_ascii_lowercase() || byte.is_ascii_digit() || b"_-.*".contains(&byte)
}

/// Whether a byte may be in an item that is no string.
fn is_item(byte: u8) -> bool {
    byte.is_ascii_graphic() && !b"\",;".contains(&byte)
}

#[cfg(test)]
mod tests {
    use super::{key_in, Made, Once};
    use crate::http::head;
    use crate::lines::replies::Mark;
    use bytes::BytesMut;

    fn once(line: &str, fields: &str, body: &[u8]) -> Once {
        let text = format!("{line} HTTP/1.1\r\nIdempotency-Key: \"k\"\r\n{fields}\r\n");
        let head = head::take(&mut BytesMut::from(text.as_bytes()), &mut 0).unwrap().unwrap();
        let mut once = Once::of(&head).unwrap().unwrap();
        once.take_body(body);
        once
    }

    #[test]
    fn a_key_is_a_string_of_structured_fields() {
        assert_eq!(key_in(" \"a \\\"b\\\\\" ").as_deref(), Some("a \"b\\"));
        for text in ["\"a\";x=1", "\"a\";  x;y=\"b;\\\"\";z=:YQ==:;u=?1 "] {
            assert_eq!(key_in(text).as_deref(), Some("a"), "{text}");
        }
        assert_eq!(key_in(&format!("\"{}\"", "x".repeat(200))).map(|key| key.len()), Some(200));
        let long = format!("\"{}\"", "x".repeat(201));
        for text in [
            "",
            "a",
            "\"",
            "\"\"",
            "\"a",
            "\"a\"b\"",
            "\"\\a\"",
            "\"a\\\"",
            "\"\u{e4}\"",
            "\"a\", \"b\"",
            "\"a\";x=\"",
            "\"a\" x",
            "\"a\";=1",
            "\"a\" ;x=1",
            "\"a\";x =1",
            "\"a\";x= 1",
            "\"a\";X=1",
            "\"a\";",
            &long,
        ] {
            assert_eq!(key_in(text), None, "{text}");
        }
    }

    #[test]
    fn the_mark_tells_one_request_from_another() {
        let first = once("PUT /documents/d", "If-Match: \"1\"\r\n", b"1");
        let digest = first.digest.clone().unwrap();
        let mark = Mark { value: format!("201-{digest}"), seq: 7 };
        assert_eq!(first.answered(&mark, &digest).unwrap(), Made { seq: 7, status: 201 });
        for other in [
            once("PATCH /documents/d", "If-Match: \"1\"\r\n", b"1"),
            once("PUT /documents/e", "If-Match: \"1\"\r\n", b"1"),
            once("PUT /documents/d", "If-None-Match: \"1\"\r\n", b"1"),
            once("PUT /documents/d", "", b"1"),
            once("PUT /documents/d", "If-Match: \"1\"\r\n", b" 1"),
        ] {
            assert_eq!(other.key, first.key);
            assert_eq!(other.answered(&mark, other.digest.as_deref().unwrap()).unwrap_err().status, 422);
        }
        let told = Mark { value: "x".to_owned(), seq: 7 };
        assert_eq!(first.answered(&told, &digest).unwrap_err().status, 422);
    }

    #[test]
    fn the_line_has_the_mark_first() {
        let line = once("DELETE /documents/d", "", b"").line(b"{\"cmd\":\"delete\",\"name\":\"d\"}\n", 200);
        let line = String::from_utf8(line).unwrap();
        assert!(line.starts_with("{\"if_mark\":null,\"mark\":{\"key\": \"idem-"));
        assert!(line.ends_with("\"},\"cmd\":\"delete\",\"name\":\"d\"}\n") && line.contains("\"value\": \"200-"));
        assert!(line.len() < 250);
    }
}
