//! A JSON text of a client, checked and made compact in one pass, without a tree of its values.
//!
//! What comes out is one JSON text without blanks and needless escapes, so it can't reach beyond the member of a line into
//! which it is put, and a line is as long as it has to be.

/// The most levels that are followed. The store itself refuses less.
const MOST_LEVELS: usize = 1000;

/// The most levels of a document.
pub const LEVELS_OF_A_DOCUMENT: usize = 64;

/// The most levels of a line.
pub const LEVELS_OF_A_LINE: usize = 127;

/// A text that was checked.
#[derive(Debug, PartialEq, Eq)]
pub struct Compact {
    /// The text in its shortest form; its members are in the order in which they came.
    pub text: Vec<u8>,
    /// How many levels it nests.
    pub levels: usize,
    /// The line and the column of the first level that no document has.
    pub too_deep: Option<(usize, usize)>,
    /// Those of the first level that no line has.
    pub too_deep_for_a_line: Option<(usize, usize)>,
}

/// Why a text can't be sent.
#[derive(Debug, PartialEq, Eq)]
pub enum Fault {
    /// It is no JSON text in UTF-8.
    NotJson(String),
    /// It has a number that isn't whole or has over 64 bits, or half of a surrogate pair.
    Unsendable(String),
}

/// The text in its shortest form.
pub fn compact(text: &[u8]) -> Result<Compact, Fault> {
    if text.starts_with(b"\xef\xbb\xbf") {
        let told = "not JSON: line 1, column 1: it begins with a byte order mark: save it without";
        return Err(Fault::NotJson(told.to_owned()));
    }
    if let Err(error) = std::str::from_utf8(text) {
        let (line, column) = line_and_column(text, error.valid_up_to());
        let byte = text[error.valid_up_to()];
        let told = format!("not UTF-8: line {line}, column {column}: byte 0x{byte:02x}");
        return Err(Fault::NotJson(told));
    }
    let mut scanner = Scanner::new(text);
    scanner.all().map_err(|wrong| Fault::NotJson(wrong.told("not JSON: ", text)))?;
    match scanner.unsendable {
        Some(wrong) => Err(Fault::Unsendable(wrong.told("", text))),
        None => {
            let [too_deep, too_deep_for_a_line] =
                scanner.too_deep.map(|found| found.map(|at| line_and_column(text, at)));
            Ok(Compact { text: scanner.made, levels: scanner.most, too_deep, too_deep_for_a_line })
        }
    }
}

/// What is wrong at a place.
struct Wrong {
    at: usize,
    what: &'static str,
}

impl Wrong {
    fn told(&self, before: &str, text: &[u8]) -> String {
        let (line, column) = line_and_column(text, self.at);
        format!("{before}line {line}, column {column}: {}", self.what)
    }
}

fn line_and_column(text: &[u8], at: usize) -> (usize, usize) {
    let before = &text[..at];
    let begin = memchr::memrchr(b'\n', before).map_or(0, |place| place + 1);
    let column = String::from_utf8_lossy(&before[begin..]).chars().count() + 1;
    (memchr::memchr_iter(b'\n', before).count() + 1, column)
}

/// What the text is within.
#[derive(Clone, Copy, PartialEq, Eq)]
enum Within {
    List,
    Object,
}

struct Scanner<'t> {
    text: &'t [u8],
    at: usize,
    made: Vec<u8>,
    within: Vec<Within>,
    most: usize,
    too_deep: [Option<usize>; 2],
    unsendable: Option<Wrong>,
}

impl<'t> Scanner<'t> {
    fn new(text: &'t [u8]) -> Scanner<'t> {
        let made = Vec::with_capacity(text.len());
        Scanner { text, at: 0, made, within: Vec::new(), most: 0, too_deep: [None; 2], unsendable: None }
    }

    fn wrong<T>(&self, what: &'static str) -> Result<T, Wrong> {
        Err(Wrong { at: self.at, what })
    }

    /// Notes what no line can carry; what is no JSON later on counts for more.
    fn cannot_be_sent(&mut self, at: usize, what: &'static str) {
        self.unsendable.get_or_insert(Wrong { at, what });
    }

    fn skip_blanks(&mut self) {
        while matches!(self.text.get(self.at), Some(b' ' | b'\t' | b'\n' | b'\r')) {
            self.at += 1;
        }
    }

    /// The next byte that is no blank.
    fn next(&mut self) -> Option<u8> {
        self.skip_blanks();
        self.text.get(self.at).copied()
    }

    /// Takes a byte that says the same in the compact text.
    fn take(&mut self, byte: u8) {
        self.at += 1;
        self.made.push(byte);
    }

    fn all(&mut self) -> Result<(), Wrong> {
        loop {
            if self.value()? && self.after_value()? {
                break;
            }
        }
        match self.next() {
            None => Ok(()),
            Some(_) => self.wrong("Extra data"),
        }
    }

    /// Takes a value, or the begin of one that has others in it: then it answers false.
    fn value(&mut self) -> Result<bool, Wrong> {
        match self.next() {
            Some(b'{') => self.open(b'{', b'}', Within::Object),
            Some(b'[') => self.open(b'[', b']', Within::List),
            Some(b'"') => self.string().map(|()| true),
            Some(b'-' | b'0'..=b'9') => self.number().map(|()| true),
            Some(b't') => self.word(b"true"),
            Some(b'f') => self.word(b"false"),
            Some(b'n') => self.word(b"null"),
            _ => self.wrong("Expecting value"),
        }
    }

    fn open(&mut self, begin: u8, end: u8, within: Within) -> Result<bool, Wrong> {
        if self.within.len() >= MOST_LEVELS {
            return self.wrong("it nests too deeply");
        }
        for (found, most) in self.too_deep.iter_mut().zip([LEVELS_OF_A_DOCUMENT, LEVELS_OF_A_LINE]) {
            if self.within.len() == most {
                found.get_or_insert(self.at);
            }
        }
        self.take(begin);
        self.most = self.most.max(self.within.len() + 1);
        if self.next() == Some(end) {
            self.take(end);
            return Ok(true);
        }
        self.within.push(within);
        if within == Within::Object {
            self.name()?;
        }
        Ok(false)
    }

    /// Takes what follows a value: ends of what it is in, and what comes before the next one. True at the end of all.
    fn after_value(&mut self) -> Result<bool, Wrong> {
        while let Some(within) = self.within.last().copied() {
            let end = if within == Within::Object { b'}' } else { b']' };
            match self.next() {
                Some(b',') => {
                    self.take(b',');
                    if within == Within::Object {
                        self.name()?;
                    }
                    return Ok(false);
                }
                Some(byte) if byte == end => {
                    self.take(end);
                    self.within.pop();
                }
                _ => return self.wrong("Expecting ',' delimiter"),
            }
        }
        Ok(true)
    }

    /// Takes the name of a member and its colon.
    fn name(&mut self) -> Result<(), Wrong> {
        if self.next() != Some(b'"') {
            return self.wrong("Expecting property name enclosed in double quotes");
        }
        self.string()?;
        if self.next() != Some(b':') {
            return self.wrong("Expecting ':' delimiter");
        }
        self.take(b':');
        Ok(())
    }

    fn word(&mut self, word: &'static [u8]) -> Result<bool, Wrong> {
        if !self.text[self.at..].starts_with(word) {
            return self.wrong("Expecting value");
        }
        self.at += word.len();
        self.made.extend_from_slice(word);
        Ok(true)
    }

    fn digits(&mut self) -> usize {
        let begin = self.at;
        while matches!(self.text.get(self.at), Some(b'0'..=b'9')) {
            self.at += 1;
        }
        self.at - begin
    }

    fn number(&mut self) -> Result<(), Wrong> {
        let begin = self.at;
        if self.text[self.at] == b'-' {
            self.at += 1;
        }
        let zero = self.text.get(self.at) == Some(&b'0');
        let count = if zero {
            self.at += 1;
            1
        } else {
            self.digits()
        };
        if count == 0 {
            self.at = begin;
            return self.wrong("Expecting value");
        }
        let end = self.at;
        let whole = !self.fraction() & !self.exponent();
        let text = std::str::from_utf8(&self.text[begin..end]).unwrap_or("");
        match text.parse::<i64>() {
            Ok(number) if whole => self.made.extend_from_slice(number.to_string().as_bytes()),
            Ok(_) => self.cannot_be_sent(
                begin,
                "a number is not whole: send a whole number, as 1999 cents or 25 percent, or a text",
            ),
            Err(_) => self.cannot_be_sent(begin, "a number is beyond 64 bits: send a text"),
        }
        Ok(())
    }

    /// Takes the fraction of a number; whether there is one.
    fn fraction(&mut self) -> bool {
        let begin = self.at;
        if self.text.get(self.at) == Some(&b'.') {
            self.at += 1;
            if self.digits() > 0 {
                return true;
            }
        }
        self.at = begin;
        false
    }

    /// Takes the exponent of a number; whether there is one.
    fn exponent(&mut self) -> bool {
        let begin = self.at;
        if matches!(self.text.get(self.at), Some(b'e' | b'E')) {
            self.at += 1;
            if matches!(self.text.get(self.at), Some(b'+' | b'-')) {
                self.at += 1;
            }
            if self.digits() > 0 {
                return true;
            }
        }
        self.at = begin;
        false
    }

    fn string(&mut self) -> Result<(), Wrong> {
        let opening = self.at;
        self.take(b'"');
        loop {
            let rest = &self.text[self.at..];
            let plain = rest.iter().position(|byte| matches!(byte, b'"' | b'\\' | 0..=0x1f)).unwrap_or(rest.len());
            self.made.extend_from_slice(&rest[..plain]);
            self.at += plain;
            match self.text.get(self.at) {
                Some(b'"') => {
                    self.take(b'"');
                    return Ok(());
                }
                Some(b'\\') => self.escape()?,
                Some(_) => return self.wrong("Invalid control character"),
                None => {
                    self.at = opening;
                    return self.wrong("Unterminated string starting");
                }
            }
        }
    }

    /// Takes an escape, and writes the character that it means.
    fn escape(&mut self) -> Result<(), Wrong> {
        let begin = self.at;
        self.at += 2;
        match self.text.get(begin + 1) {
            Some(byte @ (b'"' | b'\\' | b'b' | b'f' | b'n' | b'r' | b't')) => {
                self.made.extend_from_slice(&[b'\\', *byte])
            }
            Some(b'/') => self.made.push(b'/'),
            Some(b'u') => self.numbered(begin)?,
            _ => {
                self.at = begin;
                return self.wrong("Invalid \\escape");
            }
        }
        Ok(())
    }

    /// Takes the digits of an escape `\u`, and those of the second half of a pair.
    fn numbered(&mut self, begin: usize) -> Result<(), Wrong> {
        let first = self.four_digits(begin)?;
        if (0xd800..0xdc00).contains(&first) && self.text[self.at..].starts_with(b"\\u") {
            let after = self.at;
            self.at += 2;
            let second = self.four_digits(after)?;
            if (0xdc00..0xe000).contains(&second) {
                self.character(0x10000 + ((first - 0xd800) << 10) + (second - 0xdc00));
                return Ok(());
            }
            self.at = after;
        }
        if (0xd800..0xe000).contains(&first) {
            self.cannot_be_sent(begin, "a text has half of a surrogate pair");
        } else {
            self.character(first);
        }
        Ok(())
    }

    fn four_digits(&mut self, begin: usize) -> Result<u32, Wrong> {
        let digits = self.text.get(self.at..self.at + 4).filter(|digits| digits.iter().all(u8::is_ascii_hexdigit));
        let number = digits.and_then(|digits| u32::from_str_radix(std::str::from_utf8(digits).ok()?, 16).ok());
        match number {
            Some(number) => {
                self.at += 4;
                Ok(number)
            }
            None => Err(Wrong { at: begin, what: "Invalid \\uXXXX escape" }),
        }
    }

    /// Writes a character as the store does.
    fn character(&mut self, number: u32) {
        let short = match number {
            0x08 => Some(b'b'),
            0x09 => Some(b't'),
            0x0a => Some(b'n'),
            0x0c => Some(b'f'),
            0x0d => Some(b'r'),
            0x22 => Some(b'"'),
            0x5c => Some(b'\\'),
            _ => None,
        };
        if let Some(letter) = short {
            self.made.extend_from_slice(&[b'\\', letter]);
        } else if number < 0x20 {
            self.made.extend_from_slice(format!("\\u{number:04x}").as_bytes());
        } else if let Some(character) = char::from_u32(number) {
            self.made.extend_from_slice(character.encode_utf8(&mut [0; 4]).as_bytes());
        }
    }
}

#[cfg(test)]
mod tests;
