//! The canonical text of a value: that of the store, without blanks and with members in byte order of their names.

use super::compact;
use serde_json::Value;

/// The value of a JSON text that was checked; its last member of a name counts.
pub fn value_of(text: &[u8]) -> Option<Value> {
    serde_json::from_slice(text).ok()
}

/// The value of a JSON text of a client, such as an accepted line.
pub fn value_in(text: &[u8]) -> Option<Value> {
    value_of(&compact(text).ok()?.text)
}

/// The canonical text of a value whose numbers are whole.
pub fn canonical(value: &Value) -> Vec<u8> {
    value.to_string().into_bytes()
}

#[cfg(test)]
mod tests {
    use super::{canonical, value_in};

    #[test]
    fn members_are_in_byte_order() {
        let value =
            value_in("{\"b\":1,\"a\":[ -0 ],\"\u{ffff}\":2,\"\u{1f600}\":\"\\u007f\\u2028\",\"b\":3}".as_bytes());
        let text = "{\"a\":[0],\"b\":3,\"\u{ffff}\":2,\"\u{1f600}\":\"\u{7f}\u{2028}\"}";
        assert_eq!(String::from_utf8(canonical(&value.unwrap())).unwrap(), text);
    }
}
