//! Who may send requests: the token, and the pages of other origins.

use super::connection::Request;
use super::head::Head;
use super::problem::Problem;
use super::target::is_host;
use crate::error::Error;
use std::fs::File;
use std::io::Read;
use std::os::unix::fs::PermissionsExt;
use std::path::Path;

/// What is shown without a token: it has nothing of the store.
const OPEN: [&str; 5] = ["/", "/page.css", "/page.js", "/healthz", "/openapi.json"];

const LEAST_TOKEN: usize = 16;

/// The rights of those who don't own a file: of its group, and of all others.
const OTHERS: u32 = 0o077;
const OTHERS_OF_A_CREDENTIAL: u32 = 0o007;

const METHODS: &str = "GET, HEAD, PUT, PATCH, DELETE, POST";
const FIELDS: &str = "Authorization, Content-Type, Idempotency-Key, If-Match, If-None-Match, Last-Event-ID, Link";
const SHOWN: &str = "ETag, Link, Location, Retry-After, Accept-Patch, Jpstore-Seq, Jpstore-Warning";

/// What to do if a gateway without a token is asked by another name, as by a proxy or in a container.
const NO_TOKEN: &str =
    "ask `localhost` or 127.0.0.1, which a proxy sends as the field `Host`; or start the gateway with `--token-file`";

/// Refuses requests that haven't the token, and those of pages of origins that were not named.
pub struct Guard {
    token: Option<Vec<u8>>,
    origins: Vec<String>,
    hosts: Vec<String>,
}

impl Guard {
    /// A guard with this token, of a server at this host.
    pub fn new(token: Option<Vec<u8>>, origins: Vec<String>, host: &str) -> Guard {
        let hosts = ["localhost", "127.0.0.1", "[::1]"].map(str::to_owned).into_iter();
        let own = [host.to_ascii_lowercase(), format!("[{}]", host.to_ascii_lowercase())];
        Guard { token, origins, hosts: hosts.chain(own).collect() }
    }

    /// The problem of a request that may not be sent.
    pub fn check(&self, request: &Request) -> Result<(), Problem> {
        let head = &request.head;
        let host = host_of(head, request.host.as_deref())?;
        if self.token.is_none() && !self.knows(&host) {
            let problem = Problem::new(421, "host", "the gateway is not asked by this name without a token");
            return Err(Problem { advice: Some(NO_TOKEN.to_owned()), ..problem });
        }
        if let Some(origin) = head.bytes("origin") {
            let origin = String::from_utf8_lossy(origin);
            if !self.lets_in(&origin) && !is_own(&origin, &host) {
                let told = "pages of this origin may not use the store: the gateway lets them in by `--origin`";
                return Err(Problem::new(403, "origin", told));
            }
        }
        match &self.token {
            Some(token) if !OPEN.contains(&request.path.as_str()) && !self.is_preflight(head) => {
                check_token(head, token)
            }
            _ => Ok(()),
        }
    }

    /// Whether this is a name of this machine.
    fn knows(&self, host: &str) -> bool {
        let name = match host.rfind(':') {
            Some(place) if host[place + 1..].bytes().all(|byte| byte.is_ascii_digit()) => &host[..place],
            _ => host,
        };
        self.hosts.iter().any(|known| known.eq_ignore_ascii_case(name))
    }

    fn lets_in(&self, origin: &str) -> bool {
        self.origins.iter().any(|known| known == origin)
    }

    /// Whether a browser asks what a page of an origin may do that is let in.
    pub fn is_preflight(&self, head: &Head) -> bool {
        head.method == "OPTIONS" && head.field("origin").map_or(false, |origin| self.lets_in(origin))
    }

    /// The fields that tell that an answer is for one origin, and let a page of another origin read it, if it may.
    pub fn allowance(&self, head: &Head) -> Vec<(&'static str, String)> {
        // Whoever keeps an answer must not give it to the page of another origin.
        let mut fields = vec![("Vary", "Origin".to_owned())];
        let origin = match head.field("origin").filter(|origin| self.lets_in(origin)) {
            Some(origin) => origin.to_owned(),
            None => return fields,
        };
        fields.push(("Access-Control-Allow-Origin", origin));
        fields.push(("Access-Control-Expose-Headers", SHOWN.to_owned()));
        if head.method == "OPTIONS" {
            fields.push(("Access-Control-Allow-Methods", METHODS.to_owned()));
            fields.push(("Access-Control-Allow-Headers", FIELDS.to_owned()));
            fields.push(("Access-Control-Max-Age", "600".to_owned()));
        }
        fields
    }
}

/// The host that is asked: that of the target, or else of the field `Host` (RFC 9112, section 3.2).
pub fn host_of(head: &Head, of_target: Option<&str>) -> Result<String, Problem> {
    let wrong = |told: &str| Err(Problem::new(400, "request", told));
    let mut all = head.all("host");
    let host = match (all.next(), all.next()) {
        (None, _) if head.is_1_1 => return wrong("the request has no field `Host`"),
        (None, _) => String::new(),
        (Some(host), None) => String::from_utf8_lossy(host).into_owned(),
        _ => return wrong("the request has the field `Host` more than once"),
    };
    if !host.is_empty() && !is_host(&host) {
        return wrong("the field `Host` is no host");
    }
    Ok(of_target.map_or(host, str::to_owned))
}

/// An origin as browsers send it: the scheme and the host in small letters, and the port unless it is the scheme's own; none
/// if the text is no origin (RFC 6454, section 6.1).
pub fn origin_of(text: &str) -> Option<String> {
    let made = text.to_ascii_lowercase();
    let (scheme, host) = made.split_once("://")?;
    let is_letter = |byte: u8| byte.is_ascii_alphanumeric() || b"+-.".contains(&byte);
    let is_scheme = scheme.starts_with(|letter: char| letter.is_ascii_lowercase()) && scheme.bytes().all(is_letter);
    let own_port = match scheme {
        "http" => ":80",
        "https" => ":443",
        _ => ":",
    };
    let name = host.strip_suffix(own_port).unwrap_or(host);
    (is_scheme && is_host(name) && !name.ends_with(':')).then(|| format!("{scheme}://{name}"))
}

/// Whether an origin is that of this server.
fn is_own(origin: &str, host: &str) -> bool {
    let after = origin.split_once("://").map(|(_, rest)| rest);
    after.map_or(false, |own| !own.is_empty() && own.eq_ignore_ascii_case(host))
}

fn check_token(head: &Head, token: &[u8]) -> Result<(), Problem> {
    let given = head.bytes("authorization").unwrap_or_default();
    let space = memchr::memchr(b' ', given).unwrap_or(given.len());
    let (scheme, rest) = given.split_at(space);
    // One or more blanks (RFC 9110, section 11.4).
    let blanks = rest.iter().take_while(|byte| **byte == b' ').count();
    let is_known = is_same(&rest[blanks..], token);
    if scheme.eq_ignore_ascii_case(b"bearer") && is_known {
        return Ok(());
    }
    let problem = Problem::new(401, "token", "the request needs the token: `Authorization: Bearer TOKEN`");
    Err(problem.with("WWW-Authenticate", "Bearer realm=\"jpstore\""))
}

/// Whether two texts are the same, in a time that doesn't tell where they differ.
fn is_same(given: &[u8], known: &[u8]) -> bool {
    let differs = given.iter().zip(known).fold(0, |all, (one, other)| all | (one ^ other));
    given.len() == known.len() && differs == 0
}

/// Whether systemd gives this file to the service (systemd.exec(5), section "Credentials"): an access control list lets that
/// in alone, and the rights of the group show its mask.
fn is_credential(path: &Path) -> bool {
    std::env::var_os("CREDENTIALS_DIRECTORY").map_or(false, |folder| !folder.is_empty() && path.starts_with(folder))
}

/// The token in a file that others can't read: a line of 16 or more visible characters.
pub fn token_in(path: &Path) -> Result<Vec<u8>, Error> {
    let told = |error| Error::of_path(path, error);
    let mut file = File::open(path).map_err(told)?;
    let found = file.metadata().map_err(told)?;
    let others = if is_credential(path) { OTHERS_OF_A_CREDENTIAL } else { OTHERS };
    if found.is_file() && found.permissions().mode() & others != 0 {
        let path = path.display();
        return Err(Error::new(format!("{path}: other users can read or write this token: `chmod go= {path}`")));
    }
    let mut text = Vec::new();
    file.read_to_end(&mut text).map_err(told)?;
    let begin = text.iter().position(|byte| !byte.is_ascii_whitespace()).unwrap_or(text.len());
    let end = text.iter().rposition(|byte| !byte.is_ascii_whitespace()).map_or(begin, |place| place + 1);
    let token = &text[begin..end];
    if token.len() < LEAST_TOKEN || !token.iter().all(u8::is_ascii_graphic) {
        let path = path.display();
        let told = format!("{path}: a token is one line of {LEAST_TOKEN} or more visible ASCII characters");
        return Err(Error::new(told));
    }
    Ok(token.to_vec())
}

#[cfg(test)]
mod tests {
    use super::{is_own, is_same, origin_of, Guard};

    #[test]
    fn names_of_this_machine_are_known() {
        let guard = Guard::new(None, Vec::new(), "::2");
        for host in ["localhost", "LOCALHOST:80", "127.0.0.1:8080", "[::1]", "[::1]:1", "[::2]:80"] {
            assert!(guard.knows(host), "{host}");
        }
        for host in ["example.org", "", "localhost.example.org", "127.0.0.1.x", "[::3]"] {
            assert!(!guard.knows(host), "{host}");
        }
    }

    #[test]
    fn an_origin_has_a_scheme_and_a_host() {
        for (text, told) in [
            ("https://Example.org", "https://example.org"),
            ("https://example.org:443", "https://example.org"),
            ("http://[::1]:8081", "http://[::1]:8081"),
            ("http://localhost:443", "http://localhost:443"),
            ("moz-extension://0a1b", "moz-extension://0a1b"),
        ] {
            assert_eq!(origin_of(text).as_deref(), Some(told));
        }
        let none =
            ["evil", "null", "*", "https://", "https://example.org/", "https://a b", "://a", "http://a:", "http://a:b"];
        for text in none {
            assert_eq!(origin_of(text), None, "{text}");
        }
    }

    #[test]
    fn origins_and_tokens_are_compared_whole() {
        assert!(
            is_own("http://x:80", "x:80")
                && !is_own("http://x:801", "x:80")
                && !is_own("null", "")
                && !is_own("http://", "")
        );
        assert!(
            is_same(b"abc", b"abc") && !is_same(b"abd", b"abc") && !is_same(b"ab", b"abc") && !is_same(b"abcd", b"abc")
        );
    }
}
