//! Conditional requests (RFC 9110, section 13), with the revision of a document as its entity tag.

use super::head::Head;
use super::problem::Problem;
use crate::refusals::{EXISTS, NO_DOCUMENT, REVISION};

/// The value of `If-Match` or `If-None-Match`.
#[derive(Debug, PartialEq, Eq)]
enum Tags {
    Any,
    /// Whether each is weak, and what is between its quotes.
    Listed(Vec<(bool, String)>),
}

impl Tags {
    /// Whether a document with this revision, or without one if there is no document, is meant.
    fn matches(&self, rev: Option<u64>, weakly: bool) -> bool {
        match (self, rev) {
            (_, None) => false,
            (Tags::Any, Some(_)) => true,
            (Tags::Listed(tags), Some(rev)) => {
                let rev = rev.to_string();
                tags.iter().any(|(weak, opaque)| *opaque == rev && (weakly || !weak))
            }
        }
    }
}

/// What a request asks of the revision that the document has.
#[derive(Debug)]
pub struct Condition {
    if_match: Option<Tags>,
    if_none_match: Option<Tags>,
}

impl Condition {
    /// The condition of a request.
    pub fn of(head: &Head) -> Result<Condition, Problem> {
        let tags = |field: &str| head.list(&field.to_ascii_lowercase()).map(|text| tags_in(&text, field)).transpose();
        Ok(Condition { if_match: tags("If-Match")?, if_none_match: tags("If-None-Match")? })
    }

    /// Whether there is a condition at all.
    pub fn is_given(&self) -> bool {
        self.if_match.is_some() || self.if_none_match.is_some()
    }

    /// Whether the document must not be there.
    pub fn is_only_new(&self) -> bool {
        self.if_match.is_none() && self.if_none_match == Some(Tags::Any)
    }

    /// Whether all that is asked is that the document is there.
    pub fn is_only_there(&self) -> bool {
        self.if_none_match.is_none() && self.if_match == Some(Tags::Any)
    }

    /// The only revision at which a change may be made, if it names one alone.
    pub fn only_revision(&self) -> Option<u64> {
        match (&self.if_match, &self.if_none_match) {
            (Some(Tags::Listed(tags)), None) => match &tags[..] {
                [(false, opaque)] => opaque.parse().ok().filter(|rev: &u64| rev.to_string() == *opaque),
                _ => None,
            },
            _ => None,
        }
    }

    /// Whether a client that reads has this revision already, so that it is answered 304.
    pub fn is_unchanged(&self, rev: u64) -> bool {
        self.if_none_match.as_ref().map_or(false, |tags| tags.matches(Some(rev), true))
    }

    /// The 412 if a client that writes expects another revision, or none (section 13.2.2).
    pub fn check(&self, rev: Option<u64>) -> Result<(), Problem> {
        self.check_read(rev)?;
        match &self.if_none_match {
            Some(tags) if tags.matches(rev, true) => Err(if *tags == Tags::Any { exists(rev) } else { failed(rev) }),
            _ => Ok(()),
        }
    }

    /// The 412 if a client expects another revision.
    pub fn check_read(&self, rev: Option<u64>) -> Result<(), Problem> {
        match &self.if_match {
            Some(tags) if !tags.matches(rev, false) => Err(failed(rev)),
            _ => Ok(()),
        }
    }
}

/// The problem of a condition that doesn't hold.
fn failed(rev: Option<u64>) -> Problem {
    match rev {
        None => Problem::refused(NO_DOCUMENT, "`If-Match` asks for a document that is there").status(412),
        Some(rev) => {
            let told = format!("the document has the revision {rev}: read it again, and send a change that fits it");
            Problem { rev: Some(rev), ..Problem::refused(REVISION, told) }.with("ETag", tag_of(rev))
        }
    }
}

/// The problem of a document that must not be there.
pub fn exists(rev: Option<u64>) -> Problem {
    Problem { rev, ..Problem::refused(EXISTS, "`If-None-Match` asks for a name without a document").status(412) }
}

/// The entity tag of a revision.
pub fn tag_of(rev: u64) -> String {
    format!("\"{rev}\"")
}

fn tags_in(text: &str, field: &str) -> Result<Tags, Problem> {
    let is_blank = |letter| matches!(letter, ' ' | '\t');
    if text.trim_matches(is_blank) == "*" {
        return Ok(Tags::Any);
    }
    let wrong = |told: String| Err(Problem::new(400, "condition", told));
    let (mut tags, mut rest) = (Vec::new(), text);
    loop {
        // Empty elements of a list are left out (section 5.6.1).
        rest = rest.trim_start_matches(|letter| matches!(letter, ' ' | '\t' | ','));
        let (tag, after) = match tag_at(rest) {
            Some(found) => found,
            None => return wrong(format!("`{field}` is neither `*` nor a list of entity tags such as \"17\"")),
        };
        tags.push(tag);
        rest = after.trim_start_matches(is_blank);
        if rest.chars().all(|letter| matches!(letter, ' ' | '\t' | ',')) {
            return Ok(Tags::Listed(tags));
        }
        if !rest.starts_with(',') {
            return wrong(format!("`{field}` lacks a comma between its entity tags"));
        }
    }
}

/// The entity tag with which a text begins, and what follows it (section 8.8.3).
fn tag_at(text: &str) -> Option<((bool, String), &str)> {
    let (weak, quoted) = text.strip_prefix("W/").map_or((false, text), |rest| (true, rest));
    let inner = quoted.strip_prefix('"')?;
    let end = inner.find('"')?;
    let is_letter = |letter: char| letter == '!' || ('#'..='~').contains(&letter) || !letter.is_ascii();
    inner[..end].chars().all(is_letter).then(|| ((weak, inner[..end].to_owned()), &inner[end + 1..]))
}

#[cfg(test)]
mod tests {
    use super::{tags_in, Condition, Tags};

    fn condition(if_match: Option<&str>, if_none_match: Option<&str>) -> Condition {
        let tags = |text: Option<&str>| text.map(|text| tags_in(text, "x").unwrap());
        Condition { if_match: tags(if_match), if_none_match: tags(if_none_match) }
    }

    #[test]
    fn lists_are_read_as_the_standard_has_them() {
        assert_eq!(tags_in(" * ", "x").unwrap(), Tags::Any);
        let listed = vec![(false, "1".to_owned()), (true, "a!".to_owned())];
        assert_eq!(tags_in(", \"1\" ,, W/\"a!\" ,", "x").unwrap(), Tags::Listed(listed));
        for text in ["", "1", "W/1", "\"1\" \"2\"", "*, *", "\"1", ",", "w/\"5\"", "\"a b\""] {
            assert!(tags_in(text, "x").is_err(), "{text}");
        }
    }

    #[test]
    fn comparison_is_strong_for_match_and_weak_for_none_match() {
        assert!(condition(Some("\"1\""), None).check(Some(1)).is_ok());
        assert!(condition(Some("W/\"1\""), None).check(Some(1)).is_err());
        assert!(condition(Some("*"), None).check(None).is_err());
        assert!(condition(None, Some("W/\"1\"")).check(Some(1)).is_err());
        assert!(condition(None, Some("*")).check(None).is_ok());
        assert!(condition(None, Some("\"2\"")).is_unchanged(2));
        assert_eq!(condition(Some("\"17\""), None).only_revision(), Some(17));
        for text in ["\"017\"", "W/\"17\"", "\"1\",\"2\"", "*"] {
            assert_eq!(condition(Some(text), None).only_revision(), None);
        }
    }
}
