//! Warnings of what the store accepts in a schema, although it may not be what was meant.

use crate::json::canonical::value_of;
use crate::protocol::{Holds, EARLIER, KEYWORDS};
use serde_json::Value;

/// The most warnings of one schema and letters of a place, and the most words that are looked at.
const MOST_NOTICES: usize = 100;
const MOST_LETTERS: usize = 1000;
const MOST_WORDS: usize = 1 << 16;

/// The longest word that may be meant as a keyword.
const LONGEST: usize = 22;

/// How the value of a word holds schemas.
fn holds(word: &str) -> Holds {
    KEYWORDS.iter().find(|(known, _)| *known == word).map_or(Holds::Nothing, |(_, holds)| *holds)
}

/// The keyword of 2020-12 that says the same as one of an earlier draft.
fn earlier(word: &str) -> Option<&'static str> {
    EARLIER.iter().find(|(known, _)| *known == word).map(|(_, same)| *same)
}

/// What may be a mistake in the text of a schema that the store accepted.
pub fn notices_in(schema: &[u8]) -> Vec<String> {
    // Most schemas are so short that nothing can be wrong.
    if matches!(schema, b"true" | b"false") {
        return Vec::new();
    }
    value_of(schema).map_or_else(Vec::new, |schema| notices_of(&schema))
}

/// A place in a schema: the one around it, and a name or an index. Its text is made only when it is told, as a schema may
/// have many places of long names.
struct Place {
    around: Option<usize>,
    token: String,
}

/// What may be a mistake in a schema that the store accepts, each with its place: the first 100 of it.
pub fn notices_of(schema: &Value) -> Vec<String> {
    let (mut places, mut waiting, mut notices, mut words) = (Vec::new(), vec![(None, schema)], Vec::new(), 0);
    while let Some((around, part)) = waiting.pop() {
        let members = match part.as_object() {
            Some(members) => members,
            None => continue,
        };
        for (word, value) in members {
            words += 1;
            if words > MOST_WORDS || notices.len() >= MOST_NOTICES {
                return notices;
            }
            notices.extend(notice_of(word).map(|told| format!("schema {}: {told}", pointer(&places, around, word))));
            below(&mut places, &mut waiting, around, word, value);
        }
    }
    notices
}

/// Adds the schemas in the value of a keyword to those that are looked at.
fn below<'s>(
    places: &mut Vec<Place>,
    waiting: &mut Vec<(Option<usize>, &'s Value)>,
    around: Option<usize>,
    word: &str,
    value: &'s Value,
) {
    let mut add = |around: Option<usize>, token: String| {
        places.push(Place { around, token });
        Some(places.len() - 1)
    };
    match holds(word) {
        Holds::Nothing => (),
        Holds::One if value.is_object() => waiting.push((add(around, word.to_owned()), value)),
        Holds::One => (),
        Holds::Several => {
            let list = add(around, word.to_owned());
            for (index, item) in value.as_array().into_iter().flatten().enumerate() {
                waiting.push((add(list, index.to_string()), item));
            }
        }
        Holds::Named => {
            let named = add(around, word.to_owned());
            for (name, item) in value.as_object().into_iter().flatten() {
                waiting.push((add(named, name.clone()), item));
            }
        }
    }
}

fn notice_of(word: &str) -> Option<String> {
    if let Some(same) = earlier(word) {
        return Some(format!("`{word}` is a keyword of earlier drafts, and is ignored: use `{same}`"));
    }
    if word == "format" {
        return Some("`format` is not checked, as JSON Schema has it; other keywords, as `maxLength`, are".to_owned());
    }
    let meant = meant_by(word)?;
    Some(format!("`{word}` is not a keyword, and is ignored: perhaps `{meant}` is meant"))
}

/// The JSON Pointer of a member, whose begin is left out if it is very long.
fn pointer(places: &[Place], around: Option<usize>, word: &str) -> String {
    let escaped = |token: &str| token.replace('~', "~0").replace('/', "~1");
    let mut tokens = vec![escaped(word)];
    let (mut next, mut letters) = (around, word.len());
    while let Some(place) = next.filter(|_| letters <= MOST_LETTERS).map(|place| &places[place]) {
        letters += place.token.len() + 1;
        tokens.push(escaped(&place.token));
        next = place.around;
    }
    tokens.reverse();
    let whole = format!("/{}", tokens.join("/"));
    let count = whole.chars().count();
    if count <= MOST_LETTERS {
        return whole;
    }
    format!("..{}", whole.chars().skip(count - MOST_LETTERS).collect::<String>())
}

/// The first keyword that is one letter away from a word that is none; upper case doesn't count.
fn meant_by(word: &str) -> Option<&'static str> {
    if word.len() > LONGEST + 1 || KEYWORDS.iter().any(|(known, _)| *known == word) {
        return None;
    }
    let letters: Vec<char> = word.to_lowercase().chars().collect();
    let near = KEYWORDS.iter().map(|(known, _)| *known).filter(|known| is_one_letter_away(&letters, known.as_bytes()));
    near.min()
}

/// Whether a letter is changed, missing or too many, or two neighbours are exchanged. A schema has many words, so nothing is
/// made for this.
fn is_one_letter_away(word: &[char], known: &[u8]) -> bool {
    if word.len().abs_diff(known.len()) > 1 {
        return false;
    }
    let is_same = |(letter, byte): (&char, &u8)| *letter == char::from(byte.to_ascii_lowercase());
    let first = word.iter().zip(known).position(|pair| !is_same(pair)).unwrap_or_else(|| word.len().min(known.len()));
    let same_rest = |in_word: usize, in_known: usize| word[in_word..].iter().zip(&known[in_known..]).all(is_same);
    if word.len() != known.len() {
        let longer = word.len() > known.len();
        return same_rest(first + usize::from(longer), first + usize::from(!longer));
    }
    let next = first + 1;
    if next >= word.len() {
        return true;
    }
    let is_exchanged = is_same((&word[first], &known[next])) && is_same((&word[next], &known[first]));
    same_rest(next, next) || (is_exchanged && same_rest(next + 1, next + 1))
}

#[cfg(test)]
mod tests {
    use super::{is_one_letter_away, notices_of};
    use serde_json::json;

    #[test]
    fn words_that_are_nearly_keywords_are_told() {
        let schema = json!({"properties": {"a/b": {"minimun": 1, "format": "date"}}, "allOf": [{"Type": "x"}], "additionalItems": true, "x-own": 1, "requierd": []});
        let mut told = notices_of(&schema);
        told.sort();
        assert_eq!(told, [
            "schema /additionalItems: `additionalItems` is a keyword of earlier drafts, and is ignored: use `prefixItems` and `items`",
            "schema /allOf/0/Type: `Type` is not a keyword, and is ignored: perhaps `type` is meant",
            "schema /properties/a~1b/format: `format` is not checked, as JSON Schema has it; other keywords, as `maxLength`, are",
            "schema /properties/a~1b/minimun: `minimun` is not a keyword, and is ignored: perhaps `minimum` is meant",
            "schema /requierd: `requierd` is not a keyword, and is ignored: perhaps `required` is meant",
        ]);
        assert!(notices_of(&json!({"minimum": 1, "properties": {"minimun": true}})).is_empty());
        let told = notices_of(&json!({"id": "x"}));
        assert_eq!(told, ["schema /id: `id` is a keyword of earlier drafts, and is ignored: use `$id`"]);
    }

    #[test]
    fn a_letter_is_changed_missing_too_many_or_exchanged() {
        let is_away =
            |word: &str, known: &str| is_one_letter_away(&word.chars().collect::<Vec<char>>(), known.as_bytes());
        for word in
            ["minimun", "minimm", "miinimum", "minmium", "inimum", "minimu", "aminimum", "minimums", "minim\u{fc}m"]
        {
            assert!(is_away(word, "minimum"), "{word}");
        }
        assert!(is_away("additionalproperties", "additionalProperties"));
        for (word, known) in
            [("minmum1", "minimum"), ("mnum", "enum1"), ("imnimmu", "minimum"), ("", "if"), ("fit", "if")]
        {
            assert!(!is_away(word, known), "{word}");
        }
    }
}
