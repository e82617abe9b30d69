//! The links of a request (RFC 8288), by which a new document may take the schema of another one.

use super::fields::{is_token, Parameter, Rest};
use super::guard::origin_of;
use super::target::{decoded, parts};

/// The relation of a document to its schema.
const RELATION: &str = "describedby";

/// The parameters of a link that are read by people alone.
const TITLES: [&str; 2] = ["title", "title*"];

struct Link<'t> {
    target: &'t str,
    parameters: Vec<Parameter>,
}

/// The targets by which the document is described; none if the text speaks of that in another way, or in a wrong form.
pub fn described_by(text: &str) -> Option<Vec<&str>> {
    let links = match links_in(text) {
        Some(links) => links,
        None if speaks_of_it(text) => return None,
        None => return Some(Vec::new()),
    };
    let mut targets = Vec::new();
    for link in links {
        if link.describes()? {
            targets.push(link.target);
        }
    }
    Some(targets)
}

fn speaks_of_it(text: &str) -> bool {
    text.to_ascii_lowercase().contains(RELATION)
}

fn links_in(text: &str) -> Option<Vec<Link<'_>>> {
    let (mut rest, mut links) = (Rest::of(text), Vec::new());
    loop {
        rest.pass_blanks();
        if rest.is_empty() {
            return Some(links);
        }
        if rest.pass(',') {
            continue;
        }
        let target = rest.pass('<').then(|| ()).and_then(|()| rest.until('>'))?;
        let parameters = rest.parameters(is_token)?;
        if !rest.is_empty() && !rest.begins_with(',') {
            return None;
        }
        links.push(Link { target, parameters });
    }
}

impl Link<'_> {
    /// Whether the document is described by the target; none if something else is said of such a relation.
    fn describes(&self) -> Option<bool> {
        // Of several `rel` the first one counts (section 3.3).
        let of_first = self.parameters.iter().position(|(name, _)| name == "rel");
        let relations = of_first.map_or("", |place| &self.parameters[place].1);
        let describes = relations.split_ascii_whitespace().any(|relation| relation.eq_ignore_ascii_case(RELATION));
        let has_anchor = self.parameters.iter().any(|(name, _)| name == "anchor");
        let is_told_else =
            self.parameters.iter().enumerate().any(|(place, (name, value))| match of_first == Some(place) {
                true => value.split_ascii_whitespace().any(is_like_it),
                false => !TITLES.contains(&&name[..]) && (speaks_of_it(name) || speaks_of_it(value)),
            });
        let is_understood = !(is_told_else || describes && has_anchor);
        is_understood.then(|| describes)
    }
}

/// Whether a relation has the word in it, as one with a whole address may.
fn is_like_it(relation: &str) -> bool {
    speaks_of_it(relation) && !relation.eq_ignore_ascii_case(RELATION)
}

/// The document whose schema is at the target of a link, at a server that is asked by this host.
pub fn name_at(target: &str, host: &str) -> Option<String> {
    if target.contains(|letter| matches!(letter, '?' | '#')) || target.starts_with("//") {
        return None;
    }
    let found = parts(target)?;
    if let Some(theirs) = found.host {
        let scheme = target.split_once("://").map_or("", |(scheme, _)| scheme);
        let origin = |host: &str| origin_of(&format!("{scheme}://{host}"));
        origin(theirs).filter(|theirs| Some(theirs) == origin(host).as_ref())?;
    }
    let name = found.path.strip_prefix("/schemas/").filter(|name| !name.is_empty() && !name.contains('/'))?;
    decoded(name)
}

#[cfg(test)]
mod tests {
    use super::{described_by, name_at};

    #[test]
    fn links_are_read_whole() {
        for text in [
            "</s>; rel=\"describedby\"",
            "</s>;rel=describedby",
            "</s>; rel=\"describedby\"; type=\"application/schema+json\"",
            "</s>; type=\"application/schema+json\"; REL=DescribedBy",
            "</s>; rel=\"describedby self\"",
            "</s>;rel=describedby;title=\"a, b; rel=\\\"x\\\"\"",
            "</a,b>; rel=next, , </s>;rel=\"x describedby\" ;hreflang=en;",
            "</describedby>; rel=next; title=describedby, </s>; rel = describedby ; rel=next",
        ] {
            assert_eq!(described_by(text), Some(vec!["/s"]), "{text}");
        }
        assert_eq!(described_by("</s>; rel=describedby, </t>; rel=describedby").map(|all| all.len()), Some(2));
    }

    #[test]
    fn what_is_not_understood_is_not_passed_over() {
        for text in [
            "/s; rel=describedby",
            "</s; rel=describedby",
            "</s> rel=describedby",
            "</s>; rel=\"describedby",
            "</s>; rel=describedby/x",
            "</s>; rel=describedby x",
            "</s>; rel=describedby; anchor=\"#x\"",
            "</s>; rev=describedby",
            "</s>; rel*=UTF-8''describedby",
            "</s>; rel=next; rel=describedby",
            "</s>; rel=\"http://www.iana.org/assignments/relation/describedby\"",
        ] {
            assert_eq!(described_by(text), None, "{text}");
        }
        for text in ["", "x", "</s>; rel=next", "<", "</s>; rel=\"describes\""] {
            assert_eq!(described_by(text), Some(Vec::new()), "{text}");
        }
    }

    #[test]
    fn a_schema_is_at_a_path_of_this_server() {
        for target in [
            "/schemas/typed",
            "/schemas/%74yped",
            "http://127.0.0.1:8080/schemas/typed",
            "HTTP://127.0.0.1:8080/schemas/t%79ped",
        ] {
            assert_eq!(name_at(target, "127.0.0.1:8080").as_deref(), Some("typed"), "{target}");
        }
        assert_eq!(name_at("https://Example.org:443/schemas/a", "example.org").as_deref(), Some("a"));
        for target in [
            "",
            "typed",
            "/schemas/",
            "/schemas/a/b",
            "/documents/a",
            "/schemas/a?x",
            "/schemas/a#/x",
            "/schemas/%zz",
            "//127.0.0.1:8080/schemas/a",
            "http://127.0.0.1:8081/schemas/a",
            "http://127.0.0.1/schemas/a",
            "ftp://127.0.0.1:8080/schemas/a",
        ] {
            assert_eq!(name_at(target, "127.0.0.1:8080"), None, "{target}");
        }
    }
}
