//! Values of types of one's own and of serde_json, with what the store must answer worked out by hand.

use jpstore::Store;
use jpstore_serde_json::{Error, Node, Values};
use serde::{Deserialize, Serialize};
use serde_json::{json, Value};
use std::collections::BTreeMap;
use std::error::Error as _;

#[derive(Debug, Deserialize, PartialEq, Serialize)]
struct Shelf {
    bolts: i64,
    labels: Vec<String>,
}

fn shelf(bolts: i64) -> Shelf {
    let labels = vec!["a\nb".to_owned(), "é\"\\".to_owned()];
    Shelf { bolts, labels }
}

#[test]
fn values() {
    let mut store = Store::in_memory(64).unwrap();
    let doc = json!({"b": [1, 2], "t": "a\nb"});
    assert_eq!(store.create_value("d", &doc, &json!(true)).unwrap(), 1);
    let ops = json!([{"op": "add", "path": "/b/-", "value": 3}]);
    assert_eq!(store.patch_value("d", &ops).unwrap(), 2);
    let wanted = json!({"b": [1, 2, 3], "t": "a\nb"});
    assert_eq!(store.get_value::<Value>("d", "").unwrap(), wanted);
    let nodes = vec![Node {
        path: "$['b'][2]".to_owned(),
        value: 3,
    }];
    assert_eq!(store.query_values::<i64>("d", "$.b[?@>2]").unwrap(), nodes);
    let none = store.get_value::<Value>("none", "").unwrap_err();
    assert_eq!(none.number(), Some(21));
    let fraction = store.create_value("f", &1.5, &true).unwrap_err();
    assert_eq!(fraction.number(), Some(12));
}

#[test]
fn types_of_ones_own() {
    let mut store = Store::in_memory(64).unwrap();
    store.create_value("s", &shelf(40), &true).unwrap();
    assert_eq!(store.replace_value("s", &shelf(39)).unwrap(), 2);
    assert_eq!(store.get_value::<Shelf>("s", "").unwrap(), shelf(39));
    assert_eq!(
        store.get_value::<String>("s", "/labels/1").unwrap(),
        "é\"\\"
    );
    let other = store
        .get_value::<BTreeMap<String, i64>>("s", "")
        .unwrap_err();
    assert!(matches!(other, Error::Json(_)) && other.source().is_some());
    let keys = BTreeMap::from([(vec![1], 2)]);
    let unwritten = store.replace_value("s", &keys).unwrap_err();
    assert!(matches!(unwritten, Error::Json(_)) && unwritten.number().is_none());
    assert_eq!(store.rev("s"), Ok(2));
}
