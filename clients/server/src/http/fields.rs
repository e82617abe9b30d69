//! The parts of a field's value: elements of a list, tokens, quoted texts and parameters (RFC 9110, section 5.6).

/// Whether a byte may be in a token.
pub fn is_token(byte: u8) -> bool {
    byte.is_ascii_alphanumeric() || b"!#$%&'*+-.^_`|~".contains(&byte)
}

/// Whether a byte may be in a value: it is visible, a blank, or of no ASCII character.
pub fn is_text(byte: u8) -> bool {
    byte == b'\t' || (byte >= b' ' && byte != 0x7f)
}

/// Whether a line has a name, a colon and a value.
pub fn is_field(line: &[u8]) -> bool {
    match memchr::memchr(b':', line) {
        Some(end) => end > 0 && line[..end].iter().copied().all(is_token) && line[end..].iter().copied().all(is_text),
        None => false,
    }
}

/// The elements of a list that are not empty. A comma in a quoted text ends none.
pub fn elements(text: &str) -> Vec<&str> {
    let (mut found, mut begin, mut is_quoted, mut is_escaped) = (Vec::new(), 0, false, false);
    for (place, letter) in text.char_indices() {
        match letter {
            _ if is_escaped => is_escaped = false,
            '\\' if is_quoted => is_escaped = true,
            '"' => is_quoted = !is_quoted,
            ',' if !is_quoted => {
                found.push(&text[begin..place]);
                begin = place + 1;
            }
            _ => (),
        }
    }
    found.push(&text[begin..]);
    found.into_iter().map(|element| element.trim_matches(is_blank)).filter(|element| !element.is_empty()).collect()
}

fn is_blank(letter: char) -> bool {
    matches!(letter, ' ' | '\t')
}

/// The name of a parameter in small letters, and its value, which is empty if it has none.
pub type Parameter = (String, String);

/// What is left of a value that is read from its begin to its end.
pub struct Rest<'t>(&'t str);

impl<'t> Rest<'t> {
    /// All of a value.
    pub fn of(text: &'t str) -> Rest<'t> {
        Rest(text)
    }

    /// Whether nothing is left.
    pub fn is_empty(&self) -> bool {
        self.0.is_empty()
    }

    /// Whether this character is next.
    pub fn begins_with(&self, letter: char) -> bool {
        self.0.starts_with(letter)
    }

    /// Passes over blanks.
    pub fn pass_blanks(&mut self) {
        self.0 = self.0.trim_start_matches(is_blank);
    }

    /// Passes over this character; whether it was next.
    pub fn pass(&mut self, letter: char) -> bool {
        let rest = self.0.strip_prefix(letter);
        self.0 = rest.unwrap_or(self.0);
        rest.is_some()
    }

    /// What is before this character, which is passed over too; none if it doesn't come.
    pub fn until(&mut self, letter: char) -> Option<&'t str> {
        let (before, rest) = self.0.split_once(letter)?;
        self.0 = rest;
        Some(before)
    }

    /// One or more such bytes, which are of ASCII.
    pub fn some(&mut self, is_wanted: fn(u8) -> bool) -> Option<&'t str> {
        let length = self.0.bytes().take_while(|byte| byte.is_ascii() && is_wanted(*byte)).count();
        let (found, rest) = self.0.split_at(length);
        self.0 = rest;
        (length > 0).then(|| found)
    }

    /// A quoted text without its quotes and escapes.
    pub fn quoted(&mut self) -> Option<String> {
        let (mut made, mut letters) = (String::new(), self.0.strip_prefix('"')?.chars());
        loop {
            match letters.next()? {
                '"' => break,
                '\\' => made.push(letters.next()?),
                letter => made.push(letter),
            }
        }
        self.0 = letters.as_str();
        Some(made)
    }

    /// The parameters that come next, each after a semicolon. Values without quotes are of such bytes.
    pub fn parameters(&mut self, is_value: fn(u8) -> bool) -> Option<Vec<Parameter>> {
        let mut found = Vec::new();
        loop {
            self.pass_blanks();
            if !self.pass(';') {
                return Some(found);
            }
            self.pass_blanks();
            if self.is_empty() || self.begins_with(';') || self.begins_with(',') {
                continue;
            }
            let name = self.some(is_token)?.to_ascii_lowercase();
            self.pass_blanks();
            let value = match self.pass('=') {
                true => self.value(is_value)?,
                false => String::new(),
            };
            found.push((name, value));
        }
    }

    fn value(&mut self, is_value: fn(u8) -> bool) -> Option<String> {
        self.pass_blanks();
        if self.begins_with('"') {
            return self.quoted();
        }
        self.some(is_value).map(str::to_owned)
    }
}

#[cfg(test)]
mod tests {
    use super::{elements, is_field, is_token, Rest};

    #[test]
    fn a_list_is_divided_at_its_commas() {
        assert_eq!(elements(" a, ,b;c=\"x, \\\", y\" ,, d"), ["a", "b;c=\"x, \\\", y\"", "d"]);
        assert!(elements(" , ").is_empty());
    }

    #[test]
    fn parameters_are_tokens_or_quoted_texts() {
        let read = |text: &'static str| {
            let mut rest = Rest::of(text);
            rest.parameters(is_token).filter(|_| rest.is_empty())
        };
        let pair = |name: &str, value: &str| (name.to_owned(), value.to_owned());
        assert_eq!(read("; A=b ;;c = \"d;\\\"e\" ; f;"), Some(vec![pair("a", "b"), pair("c", "d;\"e"), pair("f", "")]));
        for text in ["a=b", ";=b", ";a=", ";a=\"b", ";a=b/c", ";a b", ";a=\"b\\"] {
            assert_eq!(read(text), None, "{text}");
        }
    }

    #[test]
    fn a_field_has_a_name_and_a_colon() {
        assert!(is_field(b"X-Y: \tz \xe4") && is_field(b"X:"));
        for line in [&b"X"[..], b": z", b"X : z", b" X: z", b"X: \0", b"X\0: z", b"X: \r"] {
            assert!(!is_field(line), "{line:?}");
        }
    }
}
