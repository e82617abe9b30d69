//! JSON texts of answers, which people read too: with a blank after each comma and colon, and members in a given order.

use serde_json::Value;

/// A text in its quotes.
pub fn quoted(text: &str) -> String {
    Value::from(text).to_string()
}

/// A list of texts.
pub fn list<T: AsRef<str>>(items: impl IntoIterator<Item = T>) -> String {
    let items: Vec<String> = items.into_iter().map(|item| quoted(item.as_ref())).collect();
    format!("[{}]", items.join(", "))
}

/// An object that is written member by member.
#[derive(Default)]
pub struct Object {
    text: String,
}

impl Object {
    /// An object without members.
    pub fn new() -> Object {
        Object::default()
    }

    /// Adds a member whose value is this JSON text.
    pub fn json(mut self, name: &str, value: &str) -> Object {
        self.text += if self.text.is_empty() { "{" } else { ", " };
        self.text += &quoted(name);
        self.text += ": ";
        self.text += value;
        self
    }

    /// Adds a text.
    pub fn text(self, name: &str, value: &str) -> Object {
        self.json(name, &quoted(value))
    }

    /// Adds a number.
    pub fn number(self, name: &str, value: u64) -> Object {
        self.json(name, &value.to_string())
    }

    /// Adds a number, if there is one.
    pub fn number_if(self, name: &str, value: Option<u64>) -> Object {
        match value {
            Some(value) => self.number(name, value),
            None => self,
        }
    }

    /// The JSON text.
    pub fn end(self) -> String {
        if self.text.is_empty() {
            return "{}".to_owned();
        }
        self.text + "}"
    }
}
