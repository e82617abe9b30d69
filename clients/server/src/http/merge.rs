//! A JSON Merge Patch (RFC 7396) as the operations of a JSON Patch (RFC 6902) on what a document holds.

use crate::lines::MOST_LINE;
use serde_json::{json, Map, Value};

/// The most operations of a patch, and the most bytes of their places: each has the whole place of what it changes.
const MOST_OPERATIONS: usize = 4096;
const MOST_PLACES: usize = MOST_LINE;

/// Operations that make of the document what the merge patch asks for; above their limits it is replaced whole.
pub fn operations_of(doc: &Value, patch: &Value) -> Value {
    if let (Value::Object(members), Value::Object(changes)) = (doc, patch) {
        let mut differences = Differences::default();
        differences.add("", members, changes);
        if !differences.are_too_many() {
            return Value::Array(differences.operations);
        }
    }
    replacement_of(doc, patch)
}

/// The operation that replaces the document by what the merge patch makes of it.
pub fn replacement_of(doc: &Value, patch: &Value) -> Value {
    json!([{"op": "replace", "path": "", "value": merged(Some(doc), patch)}])
}

/// What the merge patch makes of a value: `MergePatch` of RFC 7396, section 2.
fn merged(target: Option<&Value>, patch: &Value) -> Value {
    let changes = match patch {
        Value::Object(changes) => changes,
        _ => return patch.clone(),
    };
    let mut result = target.and_then(Value::as_object).cloned().unwrap_or_default();
    for (name, value) in changes {
        if value.is_null() {
            result.remove(name);
        } else {
            let made = merged(result.get(name), value);
            result.insert(name.clone(), made);
        }
    }
    Value::Object(result)
}

/// The operations, and how many bytes their places have.
#[derive(Default)]
struct Differences {
    operations: Vec<Value>,
    places: usize,
}

impl Differences {
    fn are_too_many(&self) -> bool {
        self.operations.len() > MOST_OPERATIONS || self.places > MOST_PLACES
    }

    /// Adds what makes the members at a place as the patch wants them.
    fn add(&mut self, place: &str, doc: &Map<String, Value>, patch: &Map<String, Value>) {
        for (name, value) in patch {
            if self.are_too_many() {
                return;
            }
            let path = format!("{place}/{}", name.replace('~', "~0").replace('/', "~1"));
            self.places += path.len();
            match (value, doc.get(name)) {
                (Value::Null, None) => (),
                (Value::Null, Some(_)) => self.operations.push(json!({"op": "remove", "path": path})),
                (Value::Object(changes), Some(Value::Object(members))) => self.add(&path, members, changes),
                // In an object `add` also replaces.
                _ => self.operations.push(json!({"op": "add", "path": path, "value": merged(None, value)})),
            }
        }
    }
}

#[cfg(test)]
mod tests {
    use super::{merged, operations_of, MOST_PLACES};
    use serde_json::{json, Map, Value};

    #[test]
    fn the_examples_of_the_standard() {
        // RFC 7396, appendix A.
        let rows: Value = serde_json::from_str(
            r#"[[{"a":"b"},{"a":"c"},{"a":"c"}],[{"a":"b"},{"b":"c"},{"a":"b","b":"c"}],[{"a":"b"},{"a":null},{}],
                [{"a":"b","b":"c"},{"a":null},{"b":"c"}],[{"a":["b"]},{"a":"c"},{"a":"c"}],[{"a":"c"},{"a":["b"]},{"a":["b"]}],
                [{"a":{"b":"c"}},{"a":{"b":"d","c":null}},{"a":{"b":"d"}}],[{"a":[{"b":"c"}]},{"a":[1]},{"a":[1]}],
                [["a","b"],["c","d"],["c","d"]],[{"a":"b"},["c"],["c"]],[{"a":"foo"},null,null],[{"a":"foo"},"bar","bar"],
                [{"e":null},{"a":1},{"e":null,"a":1}],[[1,2],{"a":"b","c":null},{"a":"b"}],[{},{"a":{"bb":{"ccc":null}}},{"a":{"bb":{}}}]]"#,
        ).unwrap();
        for row in rows.as_array().unwrap() {
            assert_eq!(merged(Some(&row[0]), &row[1]), row[2]);
        }
    }

    #[test]
    fn operations_name_what_differs() {
        let made = operations_of(
            &json!({"a": {"b": 1, "c": 2}, "x~/": 1}),
            &json!({"a": {"b": null, "d": {"e": null}}, "x~/": 2, "y": null}),
        );
        let wanted = json!([
            {"op": "remove", "path": "/a/b"}, {"op": "add", "path": "/a/d", "value": {}}, {"op": "add", "path": "/x~0~1", "value": 2},
        ]);
        assert_eq!(made, wanted);
        assert_eq!(
            operations_of(&json!([1]), &json!({"a": 1})),
            json!([{"op": "replace", "path": "", "value": {"a": 1}}])
        );
        let many: Value = (0..5000).map(|number| (number.to_string(), json!(1))).collect::<Map<_, _>>().into();
        assert_eq!(operations_of(&json!({}), &many).as_array().unwrap().len(), 1);
        let long = "n".repeat(MOST_PLACES / 2);
        let (doc, patch) = (json!({ long.as_str(): {} }), json!({ long.as_str(): {"a": 1, "b": 2, "c": 3} }));
        assert_eq!(operations_of(&doc, &patch), json!([{"op": "replace", "path": "", "value": patch}]));
    }
}
