//! What a reply says, by its head, so that a long one need not be read; and the lines of requests and refusals.

use crate::json::{quoted, write::list};
use crate::refusals::{self, GONE, NOT_GROWN};

/// How a reply begins that tells of success and has one result.
pub const OK: &[u8] = b"{\"ok\":true";

fn number_between(reply: &[u8], head: &[u8]) -> Option<u64> {
    let digits = without_end(reply).strip_prefix(head)?.strip_suffix(b"}")?;
    std::str::from_utf8(digits).ok()?.parse().ok()
}

/// A reply without its LF.
pub fn without_end(reply: &[u8]) -> &[u8] {
    reply.strip_suffix(b"\n").unwrap_or(reply)
}

/// The number of an accepted change.
pub fn seq_in(reply: &[u8]) -> Option<u64> {
    number_between(reply, b"{\"ok\":true,\"seq\":")
}

/// The revision that a reply tells.
pub fn rev_in(reply: &[u8]) -> Option<u64> {
    number_between(reply, b"{\"ok\":true,\"rev\":")
}

/// The revision that a reply tells, which may have blanks, as another server than the program may write them.
pub fn rev_told(reply: &[u8]) -> Option<u64> {
    rev_in(reply).or_else(|| {
        let told: serde_json::Value = serde_json::from_slice(reply).ok()?;
        told.get("rev").filter(|_| told.get("ok") == Some(&serde_json::Value::Bool(true)))?.as_u64()
    })
}

/// A mark of the store: its value, and the number of the last change that was made with it.
#[derive(Clone, Debug, PartialEq, Eq)]
pub struct Mark {
    /// The value.
    pub value: String,
    /// The number.
    pub seq: u64,
}

/// The line that asks for the mark of a key.
pub fn mark(key: &str) -> String {
    format!("{{\"cmd\":\"mark\",\"key\":{}}}\n", quoted(key))
}

/// The mark that a reply tells, or a refusal; none if the key has none. The outer one is none if it tells nothing of a mark.
pub fn mark_in(reply: &[u8]) -> Option<Option<Mark>> {
    let told: serde_json::Value = serde_json::from_slice(reply).ok()?;
    match told.get("mark")? {
        serde_json::Value::Null => Some(None),
        value => Some(Some(Mark { value: value.as_str()?.to_owned(), seq: told.get("seq")?.as_u64()? })),
    }
}

/// Where the text of the value or of the nodes is that a reply has.
pub fn text_in(reply: &[u8]) -> Option<&[u8]> {
    let reply = without_end(reply);
    match reply.strip_prefix(b"{\"ok\":true,\"value\":") {
        Some(rest) => rest.strip_suffix(b"}"),
        None => reply.strip_prefix(b"{\"nodes\":")?.strip_suffix(b",\"ok\":true}"),
    }
}

/// Whether a reply says that the device failed: then the program has to open the store again.
pub fn is_failure(reply: &[u8]) -> bool {
    reply.starts_with(b"{\"error\":\"device\"") || reply.starts_with(b"{\"error\":\"broken\"")
}

/// The line that refuses a command by this number.
pub fn refusal(number: u64) -> Vec<u8> {
    let name = refusals::name_of(number);
    format!("{{\"error\":\"{name}\",\"number\":{number},\"ok\":false}}\n").into_bytes()
}

/// The line that says from which number on changes are kept.
pub fn gone(from: u64) -> Vec<u8> {
    let name = refusals::name_of(GONE);
    format!("{{\"error\":\"{name}\",\"from\":{from},\"number\":{GONE},\"ok\":false}}\n").into_bytes()
}

/// The line that says why the store has not grown.
pub fn not_grown(why: &str) -> Vec<u8> {
    let (name, why) = (refusals::name_of(NOT_GROWN), quoted(why));
    format!("{{\"error\":\"{name}\",\"number\":{NOT_GROWN},\"ok\":false,\"why\":{why}}}\n").into_bytes()
}

/// Whether a document may have this name.
pub fn is_name(text: &str) -> bool {
    (1..=64).contains(&text.len()) && text.bytes().all(|byte| byte.is_ascii_alphanumeric() || b"-_.".contains(&byte))
}

/// The line that asks for the revision of a document.
pub fn rev(name: &str) -> String {
    format!("{{\"cmd\":\"rev\",\"name\":{}}}\n", quoted(name))
}

/// The line that asks for the value at a place of a document.
pub fn get(name: &str, path: &str) -> String {
    format!("{{\"cmd\":\"get\",\"name\":{},\"path\":{}}}\n", quoted(name), quoted(path))
}

/// The line that asks for the schema of a document.
pub fn get_schema(name: &str) -> String {
    format!("{{\"cmd\":\"get-schema\",\"name\":{}}}\n", quoted(name))
}

/// The line that asks for the nodes that a query selects.
pub fn query(name: &str, path: &str) -> String {
    format!("{{\"cmd\":\"query\",\"name\":{},\"path\":{}}}\n", quoted(name), quoted(path))
}

/// The names in the reply to `list`.
pub fn names_in(reply: &[u8]) -> Option<Vec<String>> {
    let value: serde_json::Value = serde_json::from_slice(reply).ok()?;
    let names = value.get("names")?.as_array()?;
    names.iter().map(|name| name.as_str().map(str::to_owned)).collect()
}

/// The JSON text of names as an answer has them.
pub fn told_names(names: &[String], prefix: &str) -> String {
    list(names.iter().filter(|name| name.starts_with(prefix))) + "\n"
}

/// What `status` answers.
#[derive(Clone, Copy, Debug, Default)]
pub struct Status {
    /// Whether the device has failed.
    pub broken: bool,
    /// The bytes of a half.
    pub capacity: u64,
    /// How many documents there are.
    pub documents: u64,
    /// The half in force.
    pub half: u64,
    /// The identity of a store of format 3; format 2 has none.
    pub identity: Option<u128>,
    /// How often the store was opened.
    pub opens: u64,
    /// The sectors of the file.
    pub sectors: u64,
    /// The number of the last change.
    pub seq: u64,
    /// The bytes of the half in force that are taken.
    pub used: u64,
}

impl Status {
    /// The status in a reply.
    pub fn of(reply: &[u8]) -> Option<Status> {
        let value: serde_json::Value = serde_json::from_slice(reply).ok()?;
        let number = |name: &str| value.get(name)?.as_u64();
        Some(Status {
            broken: value.get("broken")?.as_bool()?,
            capacity: number("capacity")?,
            documents: number("documents")?,
            half: number("half")?,
            identity: value.get("id").and_then(|id| u128::from_str_radix(id.as_str()?, 16).ok()),
            opens: number("opens")?,
            sectors: number("sectors")?,
            seq: number("seq")?,
            used: number("used")?,
        })
    }
}

#[cfg(test)]
mod tests {
    use super::{get, mark_in, names_in, rev_in, rev_told, seq_in, text_in, told_names, Mark, Status};

    #[test]
    fn the_head_tells() {
        assert_eq!(seq_in(b"{\"ok\":true,\"seq\":17}\n"), Some(17));
        assert_eq!(seq_in(b"{\"ok\":true,\"rev\":17}\n"), None);
        assert_eq!(rev_in(b"{\"ok\":true,\"rev\":17}"), Some(17));
        assert_eq!(rev_told(b"{\"ok\": true, \"rev\": 17}"), Some(17));
        assert_eq!(rev_told(b"{\"ok\": false, \"rev\": 17}"), None);
        assert_eq!(text_in(b"{\"ok\":true,\"value\":{\"a\":1}}\n"), Some(&b"{\"a\":1}"[..]));
        assert_eq!(text_in(b"{\"nodes\":[],\"ok\":true}\n"), Some(&b"[]"[..]));
        assert_eq!(text_in(b"{\"error\":\"no-document\",\"number\":21,\"ok\":false}\n"), None);
    }

    #[test]
    fn marks_are_read() {
        let mark = Mark { value: "v".to_owned(), seq: 7 };
        assert_eq!(mark_in(b"{\"mark\":\"v\",\"ok\":true,\"seq\":7}\n"), Some(Some(mark.clone())));
        let refused = b"{\"error\":\"mark\",\"mark\":\"v\",\"number\":25,\"ok\":false,\"seq\":7}\n";
        assert_eq!(mark_in(refused), Some(Some(mark)));
        assert_eq!(mark_in(b"{\"mark\":null,\"ok\":true}\n"), Some(None));
        assert_eq!(mark_in(b"{\"error\":\"command\",\"number\":14,\"ok\":false}\n"), None);
    }

    #[test]
    fn names_and_status_are_read() {
        let names = names_in(b"{\"names\":[\"b\",\"a\"],\"ok\":true}\n").unwrap();
        assert_eq!(told_names(&names, ""), "[\"b\", \"a\"]\n");
        assert_eq!(told_names(&names, "a"), "[\"a\"]\n");
        let reply = b"{\"broken\":false,\"capacity\":3584,\"documents\":2,\"half\":1,\"ok\":true,\"opens\":1,\"sectors\":16,\"seq\":9,\"used\":7}\n";
        let status = Status::of(reply).unwrap();
        assert_eq!((status.broken, status.half, status.seq, status.used), (false, 1, 9, 7));
        assert_eq!(get("a\"", "/b"), "{\"cmd\":\"get\",\"name\":\"a\\\"\",\"path\":\"/b\"}\n");
    }
}
