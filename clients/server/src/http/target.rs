//! The target of a request: its path, and the parameters of its query string.

use super::problem::Problem;

/// The most parameters that are looked at.
const MOST_PARAMETERS: usize = 16;

/// The target that is the server as a whole, of which options alone may be asked (RFC 9112, section 3.2.4).
pub const WHOLE_SERVER: &str = "*";

/// A target, and the host that it names if it is a whole address (RFC 9112, section 3.2.2).
#[derive(Debug, PartialEq, Eq)]
pub struct Target<'t> {
    /// The host and the port.
    pub host: Option<&'t str>,
    /// The path, which begins with `/`, or is the whole server.
    pub path: &'t str,
    /// What is after `?`.
    pub query: &'t str,
}

/// The parts of a target; none if it isn't one for this server.
pub fn parts(target: &str) -> Option<Target<'_>> {
    if target == WHOLE_SERVER {
        return Some(Target { host: None, path: target, query: "" });
    }
    let target = target.split('#').next().unwrap_or_default();
    let (host, rest) = if target.starts_with('/') { (None, target) } else { of_address(target)? };
    let (path, query) = rest.split_once('?').unwrap_or((rest, ""));
    Some(Target { host, path: if path.is_empty() { "/" } else { path }, query })
}

fn of_address(target: &str) -> Option<(Option<&str>, &str)> {
    let (scheme, rest) = target.split_once("://")?;
    let end = rest.find(|letter| matches!(letter, '/' | '?')).unwrap_or(rest.len());
    let host = &rest[..end];
    let known = scheme.eq_ignore_ascii_case("http") || scheme.eq_ignore_ascii_case("https");
    (known && is_host(host)).then(|| (Some(host), &rest[end..]))
}

/// Whether a text has the form of a host with or without a port.
pub fn is_host(text: &str) -> bool {
    let (name, port) = match text.strip_prefix('[').and_then(|rest| rest.split_once(']')) {
        Some((address, port)) if address.parse::<std::net::Ipv6Addr>().is_ok() => ("x", port),
        Some(_) => return false,
        None => text.find(':').map_or((text, ""), |place| text.split_at(place)),
    };
    let is_letter = |byte: u8| byte.is_ascii_alphanumeric() || matches!(byte, b'-' | b'.' | b'_' | b'~');
    let is_port =
        port.is_empty() || port.strip_prefix(':').map_or(false, |port| port.bytes().all(|byte| byte.is_ascii_digit()));
    !name.is_empty() && name.bytes().all(is_letter) && is_port
}

/// A text percent-decoded once; none if it has a `%` that begins no encoded byte, or isn't UTF-8 then.
pub fn decoded(text: &str) -> Option<String> {
    let mut made = Vec::with_capacity(text.len());
    let mut rest = text.as_bytes();
    while let Some((first, after)) = rest.split_first() {
        rest = after;
        if *first != b'%' {
            made.push(*first);
            continue;
        }
        let digits = rest.get(..2).filter(|digits| digits.iter().all(u8::is_ascii_hexdigit))?;
        made.push(u8::from_str_radix(std::str::from_utf8(digits).ok()?, 16).ok()?);
        rest = &rest[2..];
    }
    String::from_utf8(made).ok()
}

/// The parameters of a query string, of which these are known; the problem 400 for one that is unknown or double.
pub fn parameters<const N: usize>(query: &str, known: [&str; N]) -> Result<[Option<String>; N], Problem> {
    let mut found = [(); N].map(|()| None);
    let wrong = |told: &str| Err(Problem::new(400, "parameter", told));
    let pairs: Vec<&str> = query.split('&').filter(|pair| !pair.is_empty()).collect();
    if pairs.len() > MOST_PARAMETERS {
        return wrong("the query string has too many parameters");
    }
    for pair in pairs {
        let (name, value) = pair.split_once('=').unwrap_or((pair, ""));
        let plain = |text: &str| decoded(&text.replace('+', " "));
        let (name, value) = match (plain(name), plain(value)) {
            (Some(name), Some(value)) => (name, value),
            _ => return wrong("the query string is not UTF-8, percent-encoded once: write `%25` for a `%`"),
        };
        let place = match known.iter().position(|known| *known == name) {
            Some(place) => place,
            None => return wrong(&format!("the parameter `{name}` is not known here")),
        };
        if found[place].replace(value).is_some() {
            return wrong("a parameter is given more than once");
        }
    }
    Ok(found)
}

#[cfg(test)]
mod tests {
    use super::{decoded, is_host, parameters, parts};

    #[test]
    fn targets_have_a_path() {
        let found = parts("/a/b?c=d?e#f").unwrap();
        assert_eq!((found.host, found.path, found.query), (None, "/a/b", "c=d?e"));
        let found = parts("http://x:80/a?b").unwrap();
        assert_eq!((found.host, found.path, found.query), (Some("x:80"), "/a", "b"));
        assert_eq!((parts("http://x").unwrap().path, parts("*").unwrap().path), ("/", "*"));
        for target in ["**", "*?x", "x:80", "http://evil:x[/", "ftp://x/", "http:///a", "http://a@b/"] {
            assert!(parts(target).is_none(), "{target}");
        }
        assert!(is_host("[::1]:80") && is_host("localhost") && !is_host("[::g]") && !is_host("a:b") && !is_host(""));
    }

    #[test]
    fn texts_are_decoded_once() {
        assert_eq!(decoded("a%2525%C3%A4").as_deref(), Some("a%25\u{e4}"));
        for text in ["%", "%2", "%zz", "%ff", "%+1"] {
            assert_eq!(decoded(text), None, "{text}");
        }
    }

    #[test]
    fn parameters_are_known_and_single() {
        let [pointer, query] = parameters("pointer=/a+b%2B&", ["pointer", "query"]).unwrap();
        assert_eq!((pointer.as_deref(), query), (Some("/a b+"), None));
        for text in ["x=1", "pointer=1&pointer=2", "pointer=%ff", &"&query=".repeat(17), "pionter=/foo"] {
            assert!(parameters(text, ["pointer", "query"]).is_err(), "{text}");
        }
        let [none] = parameters("", ["from"]).unwrap();
        assert_eq!(none, None);
    }
}
