//! The name of the document in the canonical text of a change.

/// How the text of a creation begins: in it the document comes before the name.
const CREATION: &[u8] = b"{\"cmd\":\"create\",\"doc\":";

const NAME: &[u8] = b"\"name\":\"";

/// Where the name begins and ends in the text; nothing is there if it has none. A name needs no escapes.
pub fn place_in(text: &[u8]) -> (usize, usize) {
    let passed = text.strip_prefix(CREATION).map_or(0, |rest| CREATION.len() + length_of_value(rest));
    let begin = memchr::memmem::find(&text[passed..], NAME).map(|place| passed + place + NAME.len());
    let end = begin.and_then(|begin| memchr::memchr(b'"', &text[begin..]).map(|length| begin + length));
    begin.zip(end).unwrap_or_default()
}

/// The name in a line that tells a change.
pub fn name_in(line: &[u8]) -> &[u8] {
    let text = line.strip_prefix(super::HEAD).unwrap_or_default();
    let (begin, end) = place_in(text);
    &text[begin..end]
}

/// How long the value is with which a text begins.
fn length_of_value(text: &[u8]) -> usize {
    let (mut at, mut levels) = (0, 0_usize);
    while let Some(byte) = text.get(at) {
        match byte {
            b'"' => at = end_of_text(text, at),
            b'{' | b'[' => levels += 1,
            b'}' | b']' if levels > 0 => levels -= 1,
            b',' | b'}' | b']' if levels == 0 => return at,
            _ => (),
        }
        at += 1;
    }
    text.len()
}

/// Where the quotes are that end the text whose quotes begin here.
fn end_of_text(text: &[u8], begin: usize) -> usize {
    let mut at = begin + 1;
    while let Some(found) = text.get(at..).and_then(|rest| memchr::memchr2(b'"', b'\\', rest)) {
        at += found;
        if text[at] == b'"' {
            return at;
        }
        at += 2;
    }
    text.len()
}

#[cfg(test)]
mod tests {
    use super::{name_in, place_in};

    #[test]
    fn the_name_is_that_of_the_change() {
        for (text, name) in [
            (r#"{"cmd":"create","doc":{"name":"x","a":["\\\"]}",{}]},"name":"d","schema":{"name":"y"}}"#, "d"),
            (r#"{"cmd":"create","doc":"\",\"name\":\"x\"","name":"e.1","schema":true}"#, "e.1"),
            (r#"{"cmd":"create","doc":-17,"name":"f","schema":true}"#, "f"),
            (r#"{"cmd":"patch","if_rev":3,"name":"g","ops":[{"op":"add","path":"","value":{"name":"x"}}]}"#, "g"),
            (r#"{"cmd":"delete","name":"h"}"#, "h"),
            ("null", ""),
            (r#"{"cmd":"create","doc":"#, ""),
            (r#"{"cmd":"create","doc":"\"#, ""),
        ] {
            let (begin, end) = place_in(text.as_bytes());
            assert_eq!(&text[begin..end], name, "{text}");
        }
        assert_eq!(name_in(b"{\"change\":{\"cmd\":\"delete\",\"name\":\"d\"},\"seq\":3}\n"), b"d");
        assert_eq!(name_in(b"{\"error\":\"gone\"}\n"), b"");
    }
}
