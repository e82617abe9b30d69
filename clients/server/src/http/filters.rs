//! Filters that find nothing since they ask the members of a document for what the document itself has.
//!
//! In a query such as `$[?@.total > 5]`, `@` is each member of the document. If the document is a plain object with a member
//! `total`, its members have none: `$.total` was meant.

use super::connection::Request;
use super::problem::Problem;
use crate::lines::replies::{self, text_in};

/// The field that tells it.
pub const FIELD: &str = "Jpstore-Warning";

/// White space of a query (RFC 9535, section 2.1.1).
const BLANKS: [char; 4] = [' ', '\t', '\n', '\r'];

const NONE: &[u8] = b"[]";

/// How many steps of a filter are looked at.
const MOST: usize = 4;

/// What may be a mistake in a query that has selected nothing in this document.
pub async fn notice(request: &Request<'_>, name: &str, query: &str) -> Result<Option<String>, Problem> {
    let mut steps = steps_in(query);
    steps.truncate(MOST);
    let asked = |step: &str| ["$", "$[*]"].map(|begin| replies::query(name, &format!("{begin}{step}")));
    let lines: Vec<String> = steps.iter().flat_map(|step| asked(step)).collect();
    if lines.is_empty() {
        return Ok(None);
    }
    let told = request.app.store.ask(&lines).await?.lines;
    let found: Vec<bool> = told.iter().map(|reply| text_in(reply).map_or(false, |nodes| nodes != NONE)).collect();
    let is_own = |pair: &[bool]| pair == [true, false];
    let step = found.chunks(2).position(is_own).and_then(|place| steps.get(place));
    Ok(step.map(|step| told_of(step)))
}

/// A text for a field, which has visible characters and blanks alone.
fn told_of(step: &str) -> String {
    let is_plain = step.bytes().all(|byte| byte.is_ascii_graphic());
    let step = if is_plain { step } else { ".NAME" };
    format!("`@` is each member of the document, and none of them has `{step}`: the document's own is `${step}`")
}

/// The steps, such as `.name`, that a query takes from `@` in a filter over the members of a document.
fn steps_in(query: &str) -> Vec<&str> {
    let (mut steps, mut depth) = (Vec::new(), 1);
    let mut rest = filter_in(query).unwrap_or("");
    while let Some(letter) = rest.chars().next() {
        let after = &rest[letter.len_utf8()..];
        rest = match letter {
            '\'' | '"' => after_text(rest),
            '@' if depth == 1 => {
                let (step, after) = step_at(after);
                steps.extend(step.filter(|step| !steps.contains(step)));
                after
            }
            ']' if depth == 1 => break,
            ']' => {
                depth -= 1;
                after
            }
            '[' => {
                depth += 1;
                after
            }
            _ => after,
        };
    }
    steps
}

/// The text of a filter over the members of a document, from behind its `?` on.
fn filter_in(query: &str) -> Option<&str> {
    let bracket = query.strip_prefix('$')?.trim_start_matches(BLANKS).strip_prefix('[')?;
    bracket.trim_start_matches(BLANKS).strip_prefix('?')
}

/// The step to a member at the beginning of a text, if there is one, and the rest.
fn step_at(text: &str) -> (Option<&str>, &str) {
    let text = text.trim_start_matches(BLANKS);
    match end_of_name(text).or_else(|| end_of_bracket(text)) {
        Some(end) => (Some(&text[..end]), &text[end..]),
        None => (None, text),
    }
}

fn end_of_name(text: &str) -> Option<usize> {
    let name = text.strip_prefix('.')?;
    let is_of_name = |letter: char| letter == '_' || letter.is_ascii_alphanumeric() || !letter.is_ascii();
    let length = name.find(|letter: char| !is_of_name(letter)).unwrap_or(name.len());
    (length > 0).then(|| 1 + length)
}

fn end_of_bracket(text: &str) -> Option<usize> {
    let name = text.strip_prefix('[')?.trim_start_matches(BLANKS);
    let rest = if name.starts_with(['\'', '"']) { after_text(name) } else { return None };
    let rest = rest.trim_start_matches(BLANKS).strip_prefix(']')?;
    Some(text.len() - rest.len())
}

/// What follows a text in quotes.
fn after_text(text: &str) -> &str {
    let (quote, mut letters) = (text.chars().next(), text.char_indices().skip(1));
    while let Some((place, letter)) = letters.next() {
        if letter == '\\' {
            letters.next();
        } else if Some(letter) == quote {
            return &text[place + 1..];
        }
    }
    ""
}

#[cfg(test)]
mod tests {
    use super::{steps_in, told_of};

    #[test]
    fn the_steps_are_those_from_each_member() {
        for (query, steps) in [
            ("$[?@.total > 5000 && @.state == \"open\"]", &[".total", ".state"][..]),
            ("$[?@.a == '@.b]' || @['c d'] || @[ \"e\" ]]", &[".a", "['c d']", "[ \"e\" ]"]),
            ("$ [ ? @ .n ]", &[".n"]),
            ("$[?@.tags[?@.red], ?@.n.m]", &[".tags", ".n"]),
            ("$[?(@.a || !@.a)]", &[".a"]),
            ("$[?@ == 8001]", &[]),
            ("$[?@[0] == 'x']", &[]),
            ("$[?$.a == 1]", &[]),
            ("$.lines[?@.n > 1]", &[]),
            ("$['a', ?@.n]", &[]),
            ("$[?@.a]['b']", &[".a"]),
            ("$[?@.é]", &[".é"]),
            ("$", &[]),
            ("", &[]),
        ] {
            assert_eq!(steps_in(query), steps, "{query}");
        }
    }

    #[test]
    fn a_field_has_visible_characters_alone() {
        assert!(told_of(".total").ends_with("the document's own is `$.total`"));
        assert!(told_of(".é").ends_with("the document's own is `$.NAME`"));
    }
}
