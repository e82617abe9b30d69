//! The kinds of lines, which decide in which part of a round a line is done.

use crate::json::{compact, members_in};
use crate::protocol::{CHANGES, OWN_COMMANDS, SNAPSHOTS};
use memchr::memmem;
use serde_json::value::RawValue;
use std::collections::BTreeMap;

/// What a line asks for.
#[derive(Clone, Copy, Debug, PartialEq, Eq)]
pub enum Kind {
    /// It changes documents.
    Change,
    /// It changes nothing. What is no command at all counts as a question: it is only refused.
    Question,
    /// It makes a snapshot or a step of one, or seals the store.
    Snapshot,
    /// The server answers it itself.
    Own,
}

/// A line that the server answers itself.
#[derive(Debug, PartialEq, Eq)]
pub enum Own {
    /// All documents of one moment.
    Export,
    /// A larger file, with so many sectors.
    Grow(u64),
    /// The changes after a number, and the history that it is of.
    Watch {
        /// The number; without it the next change is the first.
        from: Option<u64>,
        /// The name of the history.
        history: Option<String>,
    },
}

const CMD: &[u8] = b"\"cmd\"";
const END_OF_TRANSACTION: &[u8] = b"],\"cmd\":\"transaction\"}";

fn kind_of_word(word: &[u8]) -> Kind {
    match word {
        word if CHANGES.contains(&word) => Kind::Change,
        word if SNAPSHOTS.contains(&word) => Kind::Snapshot,
        word if OWN_COMMANDS.contains(&word) => Kind::Own,
        _ => Kind::Question,
    }
}

/// The kind of a line.
pub fn kind_of(line: &[u8]) -> Kind {
    if is_plain(line) {
        return plain_word(line).map_or(Kind::Question, kind_of_word);
    }
    if trimmed(line).ends_with(END_OF_TRANSACTION) {
        // So that a long line isn't read. The quotes at its end are none of a text, since no `\` is before them.
        return Kind::Change;
    }
    let word = compact(line).ok().and_then(|made| text_of(&members_in(&made.text)?, "cmd"));
    word.map_or(Kind::Question, |word| kind_of_word(word.as_bytes()))
}

fn text_of(members: &BTreeMap<String, &RawValue>, name: &str) -> Option<String> {
    serde_json::from_str(members.get(name)?.get()).ok()
}

fn number_of(members: &BTreeMap<String, &RawValue>, name: &str) -> Option<u64> {
    serde_json::from_str(members.get(name)?.get()).ok()
}

/// Whether there is only one reading: without an escape, and with one such member.
fn is_plain(line: &[u8]) -> bool {
    memchr::memchr(b'\\', line).is_none() && memmem::find_iter(line, CMD).take(2).count() == 1
}

fn trimmed(line: &[u8]) -> &[u8] {
    let end = line.iter().rposition(|byte| !byte.is_ascii_whitespace()).map_or(0, |place| place + 1);
    &line[..end]
}

fn skip_blanks(bytes: &[u8]) -> &[u8] {
    let begin = bytes.iter().position(|byte| !byte.is_ascii_whitespace()).unwrap_or(bytes.len());
    &bytes[begin..]
}

/// The word of the command in a plain line.
fn plain_word(line: &[u8]) -> Option<&[u8]> {
    let after = &line[memmem::find(line, CMD)? + CMD.len()..];
    let word = skip_blanks(skip_blanks(after).strip_prefix(b":")?).strip_prefix(b"\"")?;
    Some(&word[..memchr::memchr(b'"', word)?])
}

/// The command of the server's own that a line is. The program refuses what only looks like one.
pub fn own_command(line: &[u8]) -> Option<Own> {
    let made = compact(line).ok()?;
    let members = members_in(&made.text)?;
    match text_of(&members, "cmd")?.as_str() {
        "export" if members.len() == 1 => Some(Own::Export),
        "grow" if members.len() == 2 => number_of(&members, "sectors").map(Own::Grow),
        "watch" => {
            let from = members.get("from").map(|_| number_of(&members, "from"));
            let history = members.get("history").map(|_| text_of(&members, "history"));
            let known = 1 + usize::from(from.is_some()) + usize::from(history.is_some());
            // A history is that of a number.
            let whole = from != Some(None) && history != Some(None) && (history.is_none() || from.is_some());
            (known == members.len() && whole).then(|| Own::Watch { from: from.flatten(), history: history.flatten() })
        }
        _ => None,
    }
}

#[cfg(test)]
mod tests {
    use super::{kind_of, own_command, Kind, Own};
    use serde_json::{json, Value};

    #[test]
    fn the_word_decides() {
        let rows: [(&str, Kind); 19] = [
            (r#"{"cmd":"create","doc":1,"name":"d","schema":true}"#, Kind::Change),
            (r#"{ "cmd" : "patch" }"#, Kind::Change),
            (r#"{"c\u006dd":"delete","name":"d"}"#, Kind::Change),
            (r#"{"cmd":"get","cmd":"create"}"#, Kind::Change),
            (r#"{"cmd":"create","cmd":"snapshot"}"#, Kind::Snapshot),
            (r#"{"changes":[{"cmd":"delete","name":"\\"}],"cmd":"transaction"} "#, Kind::Change),
            (r#"{"cmd":"tr\u0061nsaction","changes":[]}"#, Kind::Change),
            (r#"{"cmd":"create","doc":{"cmd":"snapshot"}}"#, Kind::Change),
            (r#"{"doc":"cmd","cmd":"get"}"#, Kind::Question),
            (r#"{"cmd":"pump","max":1}"#, Kind::Snapshot),
            (r#"{"cmd":"seal"}"#, Kind::Snapshot),
            (r#"{"cmd":"watch"}"#, Kind::Own),
            (r#"[{"cmd":"transaction"}]"#, Kind::Change),
            (r#"{"cmd":"mark","key":"create"}"#, Kind::Question),
            (
                r#"{"cmd":"delete","if_mark":null,"mark":{"key":"k","value":"\"cmd\":\"get\""},"name":"d"}"#,
                Kind::Change,
            ),
            (r#"{"changes":[{"cmd":"get"}],"cmd":"transaction","mark":{"key":"cmd","value":"get"}}"#, Kind::Change),
            (r#"{"mark":{"cmd":"get"},"changes":[{"cmd":"get"}],"cmd":"transaction"}"#, Kind::Change),
            ("", Kind::Question),
            ("{", Kind::Question),
        ];
        for (line, kind) in rows {
            assert_eq!(kind_of(line.as_bytes()), kind, "{line}");
        }
    }

    /// Numbers that look random, the same each time (xorshift, Marsaglia 2003).
    struct Chance(u64);

    impl Chance {
        fn below(&mut self, most: u64) -> u64 {
            self.0 ^= self.0 << 13;
            self.0 ^= self.0 >> 7;
            self.0 ^= self.0 << 17;
            self.0 % most
        }

        fn text(&mut self) -> &'static str {
            const TEXTS: [&str; 9] =
                ["cmd", "transaction", ",\"cmd\":\"transaction\"}", "\\", "\"", "changes", "create", "{", "\u{e4}"];
            TEXTS[self.below(TEXTS.len() as u64) as usize]
        }

        fn value(&mut self, levels: usize) -> Value {
            let count = self.below(4);
            match self.below(5) {
                0 | 1 if levels > 0 => (0..count)
                    .map(|_| (self.text().to_owned(), self.value(levels - 1)))
                    .collect::<serde_json::Map<_, _>>()
                    .into(),
                2 if levels > 0 => (0..count).map(|_| self.value(levels - 1)).collect::<Vec<_>>().into(),
                _ => self.text().into(),
            }
        }
    }

    #[test]
    fn the_kind_is_that_of_the_whole_line() {
        let mut chance = Chance(5);
        let mut seen = [0, 0];
        for _ in 0..20_000 {
            let mut command = chance.value(3);
            if let (Some(members), 0) = (command.as_object_mut(), chance.below(2)) {
                let word = ["transaction", "create", "get"][chance.below(3) as usize];
                members.insert("cmd".to_owned(), json!(word));
            }
            // What has no command is refused, whatever it is taken for.
            if let Some(word) = command.get("cmd").and_then(Value::as_str) {
                let changes = ["create", "patch", "schema", "delete", "transaction"].contains(&word);
                for text in [command.to_string(), serde_json::to_string_pretty(&command).unwrap()] {
                    assert_eq!(kind_of(text.as_bytes()) == Kind::Change, changes, "{text}");
                }
                seen[usize::from(changes)] += 1;
            }
        }
        assert!(seen.iter().all(|count| *count > 100), "{seen:?}");
    }

    #[test]
    fn own_commands_have_their_members_alone() {
        assert_eq!(own_command(br#"{"cmd":"export"}"#), Some(Own::Export));
        assert_eq!(own_command(br#"{"cmd":"grow","sectors":16}"#), Some(Own::Grow(16)));
        assert_eq!(own_command(br#"{"cmd":"watch"}"#), Some(Own::Watch { from: None, history: None }));
        let whole = br#"{"cmd":"watch","from":3,"history":"x"}"#;
        assert_eq!(own_command(whole), Some(Own::Watch { from: Some(3), history: Some("x".to_owned()) }));
        for line in [
            r#"{"cmd":"export","x":1}"#,
            r#"{"cmd":"grow"}"#,
            r#"{"cmd":"grow","sectors":-1}"#,
            r#"{"cmd":"grow","sectors":16,"x":1}"#,
            r#"{"cmd":"watch","from":-1}"#,
            r#"{"cmd":"watch","from":true}"#,
            r#"{"cmd":"watch","history":"x"}"#,
            r#"{"cmd":"watch","from":1,"history":2}"#,
            r#"{"cmd":"list"}"#,
        ] {
            assert_eq!(own_command(line.as_bytes()), None, "{line}");
        }
    }
}
