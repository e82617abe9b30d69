//! The compact JSON texts that the store writes, taken apart.

/// The elements of a list, or the members of an object.
pub fn parts(written: &str) -> Option<Vec<&str>> {
    let inner = written.get(1..written.len().checked_sub(1)?)?;
    let (mut parts, mut begin, mut depth) = (Vec::new(), 0, 0_usize);
    let (mut is_text, mut is_escaped) = (false, false);
    for (at, byte) in inner.bytes().enumerate() {
        match byte {
            _ if is_escaped => is_escaped = false,
            b'\\' => is_escaped = true,
            b'"' => is_text = !is_text,
            _ if is_text => {}
            b'[' | b'{' => depth += 1,
            b']' | b'}' => depth = depth.checked_sub(1)?,
            b',' if depth == 0 => {
                parts.push(&inner[begin..at]);
                begin = at + 1;
            }
            _ => {}
        }
    }
    if !inner.is_empty() {
        parts.push(&inner[begin..]);
    }
    Some(parts)
}

/// The value of a member of this name, which needs no escapes.
pub fn member<'a>(members: &[&'a str], name: &str) -> Option<&'a str> {
    members.iter().find_map(|member| {
        let rest = member.strip_prefix('"')?.strip_prefix(name)?;
        rest.strip_prefix("\":")
    })
}

/// The characters of a text.
pub fn text(written: &str) -> Option<String> {
    let mut letters = written.strip_prefix('"')?.strip_suffix('"')?.chars();
    let mut text = String::new();
    while let Some(letter) = letters.next() {
        text.push(match letter {
            '\\' => escaped(&mut letters)?,
            _ => letter,
        });
    }
    Some(text)
}

// The store escapes characters of ASCII alone.
fn escaped(letters: &mut std::str::Chars<'_>) -> Option<char> {
    Some(match letters.next()? {
        'b' => '\u{8}',
        'f' => '\u{c}',
        'n' => '\n',
        'r' => '\r',
        't' => '\t',
        'u' => {
            let digits: String = letters.by_ref().take(4).collect();
            char::from_u32(u32::from_str_radix(&digits, 16).ok()?)?
        }
        letter => letter,
    })
}

#[cfg(test)]
mod tests {
    use super::{member, parts, text};

    #[test]
    fn lists_and_objects() {
        let written = r#"[{"a":[1,"],\""]},"x,y",{},-1]"#;
        let wanted = [r#"{"a":[1,"],\""]}"#, r#""x,y""#, "{}", "-1"];
        assert_eq!(parts(written).unwrap(), wanted);
        assert_eq!(parts("[]"), Some(vec![]));
        assert_eq!(parts("[]]"), None);
        assert_eq!(parts("["), None);
        assert_eq!(parts(""), None);
        let members = parts(r#"{"first":12,"f":{"last":7},"t":"last"}"#).unwrap();
        assert_eq!(member(&members, "first"), Some("12"));
        assert_eq!(member(&members, "f"), Some(r#"{"last":7}"#));
        assert_eq!(member(&members, "last"), None);
    }

    #[test]
    fn texts() {
        let written = r#""\"\\/\b\f\n\r\t\u0000\u001fé""#;
        let wanted = "\"\\/\u{8}\u{c}\n\r\t\0\u{1f}é";
        assert_eq!(text(written).as_deref(), Some(wanted));
        assert_eq!(text("\"\\\""), None);
        assert_eq!(text("null"), None);
    }
}
