//! Changes that are made exactly once, by the rule of Python's `store.once`.

use jpstore::{Change, FormatOptions, Reason, Store};
use jpstore_serde_json::{Error, Once};
use std::{env, fs, process};

fn opened(name: &str, format: u64) -> Store {
    let file = env::temp_dir().join(format!("jpstore-once-{}-{name}", process::id()));
    let _ = fs::remove_file(&file);
    let options = FormatOptions::new().format(format);
    options.make(&file, 512).unwrap();
    let store = Store::open(&file).unwrap();
    // It lives as long as the store has it.
    fs::remove_file(&file).unwrap();
    store
}

fn number(made: Result<u64, Error>) -> Option<u16> {
    made.unwrap_err().number()
}

#[test]
fn a_key_makes_its_changes_once() {
    let mut store = opened("made", 3);
    let create = Change::create("d", r#"{"b": "é\u0001\/", "a": [-1]}"#, "true");
    let changes = [
        create,
        Change::patch_if("d", "[]", 1),
        Change::set_schema("d", "{}"),
        Change::patch("d", "[ ]"),
        Change::delete("d"),
    ];
    assert_eq!(store.once("order-1234", &changes).unwrap(), 5);
    assert_eq!(store.once("order-1234", &changes).unwrap(), 5);
    assert_eq!(store.status().unwrap().seq, 5);
    // printf '%s' order-1234 | sha256sum | cut -c -40
    let mark = store
        .mark("once-71983129e5088fcbbb2be5a2e186253aa3ee915c")
        .unwrap()
        .unwrap();
    // printf '%s' '[{"cmd":"create","doc":{"a":[-1],"b":"é\u0001/"},"name":"d","schema":true},' \
    //     '{"cmd":"patch","if_rev":1,"name":"d","ops":[]},{"cmd":"schema","name":"d","schema":{}},' \
    //     '{"cmd":"patch","name":"d","ops":[]},{"cmd":"delete","name":"d"}]' | sha256sum | cut -c -40
    assert_eq!(mark.value, "de1db2989d29241b71b55d06a3bcfe32452b676a");
    assert_eq!(mark.seq, 5);
}

#[test]
fn other_changes_under_a_key_are_refused() {
    let mut store = opened("other", 3);
    let first = [Change::create("d", "1", "true")];
    assert_eq!(store.once("k", &first).unwrap(), 1);
    match store.once("k", &[Change::delete("d")]) {
        Err(Error::Store(error)) => {
            assert_eq!(
                error.refusal().map(|refusal| refusal.reason),
                Some(Reason::Mark)
            );
            assert_eq!(error.mark().map(|mark| mark.seq), Some(1));
        }
        other => panic!("{other:?}"),
    }
    // Neither leaves a mark.
    assert_eq!(number(store.once("l", &[Change::delete("none")])), Some(21));
    assert_eq!(store.once("l", &[Change::delete("d")]).unwrap(), 2);
}

#[test]
fn what_is_refused() {
    let mut store = opened("refused", 3);
    let create = Change::create("d", "1", "true");
    assert_eq!(number(store.once("k", &[])), Some(14));
    let inner = [Change::transaction(&[create.clone()])];
    assert_eq!(number(store.once("k", &inner)), Some(14));
    assert_eq!(number(store.once("", &[create.clone()])), Some(15));
    let broken = store.once("k", &[Change::create("d", "1,\"name\":\"e\"", "true")]);
    assert!(matches!(broken, Err(Error::Json(_))));
    let mut old = opened("old", 2);
    assert_eq!(number(old.once("k", &[create])), Some(14));
    assert_eq!(old.status().unwrap().documents, 0);
}
