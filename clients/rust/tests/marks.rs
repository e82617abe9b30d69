//! Marks and the transactions after a change, with what they must answer worked out by hand.

use jpstore::{Change, Changes, Error, Fault, FormatOptions, Options, Reason, Store};
use std::path::PathBuf;
use std::{env, fs, process};

struct File(PathBuf);

impl File {
    fn new(name: &str, format: u64) -> File {
        let path = env::temp_dir().join(format!("jpstore-{}-{name}", process::id()));
        let _ = fs::remove_file(&path);
        let options = FormatOptions::new().format(format);
        options.make(&path, 512).unwrap();
        File(path)
    }
}

impl Drop for File {
    fn drop(&mut self) {
        let _ = fs::remove_file(&self.0);
    }
}

const ODD: &str = "job \"41\"\\\n\u{1}\u{1f}\u{7f}é";

fn mark(store: &mut Store, key: &str) -> Option<(String, u64)> {
    let mark = store.mark(key).unwrap();
    mark.map(|mark| (mark.value, mark.seq))
}

fn of(value: &str, seq: u64) -> Option<(String, u64)> {
    Some((value.to_owned(), seq))
}

// The mark that a refusal of a change tells.
fn present(refused: Result<u64, Error>) -> Option<(String, u64)> {
    let error = refused.unwrap_err();
    let refusal = error.refusal().expect("a refusal");
    assert_eq!((refusal.reason, refusal.change), (Reason::Mark, None));
    assert_eq!(error.mark(), refusal.mark.as_ref());
    refusal.mark.map(|mark| (mark.value, mark.seq))
}

#[test]
fn what_sets_a_mark_is_made_once() {
    for batch in [0, 16] {
        let file = File::new("marks", 3);
        let mut store = Options::new().batch(batch).open(&file.0).unwrap();
        assert_eq!(mark(&mut store, "till-1"), None);
        let create = Change::create("d", "1", "true").with_mark_if("till-1", ODD, None);
        assert_eq!(store.apply(&create), Ok(1));
        assert_eq!(mark(&mut store, "till-1"), of(ODD, 1));
        assert_eq!(present(store.apply(&create)), of(ODD, 1));
        let both = Change::transaction(&[Change::patch("d", "[]"), Change::delete("d")]);
        let asked = |before| both.clone().with_mark_if("till-1", "42", before);
        assert_eq!(present(store.apply(&asked(Some("41")))), of(ODD, 1));
        assert_eq!(store.apply(&asked(Some(ODD))), Ok(3));
        let error = store.apply(&asked(Some(ODD))).unwrap_err();
        assert_eq!(error.to_string(), "25 mark, mark \"42\" of change 3");
        let other = both.clone().with_mark_if("till-2", "42", Some("41"));
        assert_eq!(present(store.apply(&other)), None);
        // The document isn't there, and so neither is the mark.
        let error = store.apply(&both.with_mark("till-1", "43")).unwrap_err();
        assert_eq!((error.number(), error.mark()), (Some(21), None));
        assert_eq!(mark(&mut store, "till-1"), of("42", 3));
        store.close().unwrap();
        assert_eq!(
            mark(&mut Store::open(&file.0).unwrap(), "till-1"),
            of("42", 3)
        );
    }
}

#[test]
fn marks_that_are_refused() {
    let file = File::new("refused-marks", 3);
    let mut store = Store::open(&file.0).unwrap();
    let mut number = |change: &Change| store.apply(change).map_err(|error| error.number());
    let create = || Change::create("d", "1", "true");
    assert_eq!(number(&create().with_mark("é", "1")), Err(Some(15)));
    assert_eq!(
        number(&create().with_mark("k", &"x".repeat(129))),
        Err(Some(14))
    );
    let inner = Change::transaction(&[create().with_mark("k", "1")]);
    assert_eq!(number(&inner), Err(Some(14)));
    assert_eq!(number(&create().with_mark("k", &"x".repeat(128))), Ok(1));
    let old = File::new("old-marks", 2);
    let mut store = Store::open(&old.0).unwrap();
    let refused = store.apply(&create().with_mark("k", "1")).unwrap_err();
    assert_eq!(refused.number(), Some(14));
    assert_eq!(mark(&mut store, "k"), None);
    assert_eq!(store.mark("").unwrap_err().number(), Some(15));
}

// No text of C has such a value, which a line may set.
#[test]
fn a_character_0_in_a_mark() {
    let file = File::new("zero-marks", 3);
    let mut store = Store::open(&file.0).unwrap();
    let create = || Change::create("d", "1", "true");
    let arguments = Err(Error::Fault(Fault::Arguments));
    assert_eq!(store.apply(&create().with_mark("k", "a\0b")), arguments);
    let before = create().with_mark_if("k", "1", Some("\0"));
    assert_eq!(store.apply(&before), arguments);
    let line = r#"{"cmd":"create","doc":1,"mark":{"key":"k","value":"a\u0000b"},"name":"d","schema":true}"#;
    store.feed(format!("{line}\n")).unwrap();
    assert_eq!(mark(&mut store, "k"), of("a\0b", 1));
    let refused = store.apply(&Change::delete("d").with_mark_if("k", "1", None));
    assert_eq!(present(refused), of("a\0b", 1));
}

#[test]
fn each_change_of_a_group_is_told_the_mark_that_is_there() {
    for batch in [0, 16] {
        let file = File::new("grouped-marks", 3);
        let mut store = Options::new().batch(batch).open(&file.0).unwrap();
        let create = Change::create("d", "1", "true").with_mark_if("k", "1", None);
        let patch = Change::patch("d", "[]").with_mark_if("k", "2", Some("1"));
        let told = store.group(&[create, patch.clone(), patch.clone()]);
        assert_eq!((&told[0], &told[1]), (&Ok(1), &Ok(2)));
        assert_eq!(present(told[2].clone()), of("2", 2));
        for told in store.group(&[patch.clone(), patch]) {
            assert_eq!(present(told), of("2", 2));
        }
    }
}

// The text is as docs/use/PROTOCOL.md has it.
#[test]
fn the_transactions_after_a_change() {
    let file = File::new("changes", 3);
    let mut store = Store::open(&file.0).unwrap();
    let create = Change::create("d", r#"{"t": "],\"", "a":[{}]}"#, "true");
    let letters: String = (1..128_u8).map(char::from).collect();
    store.apply(&create.with_mark("k", &letters)).unwrap();
    assert_eq!(mark(&mut store, "k"), of(&letters, 1));
    store
        .transaction(&[Change::patch_if("d", "[]", 1), Change::delete("d")])
        .unwrap();
    let known = |told: Changes| match told {
        Changes::Known(transactions) => transactions,
        other => panic!("{other:?}"),
    };
    let all = known(store.changes(0, 4_194_304).unwrap());
    assert_eq!(all.len(), 2);
    assert_eq!((all[0].first, all[0].last), (1, 1));
    assert_eq!(
        all[0].changes,
        [r#"{"cmd":"create","doc":{"a":[{}],"t":"],\""},"name":"d","schema":true}"#]
    );
    assert_eq!(all[0].mark, Some(("k".to_owned(), letters)));
    assert_eq!((all[1].first, all[1].last, &all[1].mark), (2, 3, &None));
    assert_eq!(
        all[1].changes,
        [
            r#"{"cmd":"patch","if_rev":1,"name":"d","ops":[]}"#,
            r#"{"cmd":"delete","name":"d"}"#
        ]
    );
    assert_eq!(known(store.changes(0, 1).unwrap()), all[..1]);
    assert_eq!(known(store.changes(1, 1).unwrap()), all[1..]);
    assert_eq!(known(store.changes(3, 1).unwrap()), []);
    assert!(matches!(store.changes(2, 1), Ok(Changes::Gone(_))));
    assert_eq!(store.changes(0, 0).unwrap_err().number(), Some(14));
    store.snapshot().unwrap();
    store.close().unwrap();
    let mut store = Store::open(&file.0).unwrap();
    assert_eq!(store.changes(1, 1), Ok(Changes::Gone(3)));
    assert_eq!(store.changes(3, 1), Ok(Changes::Known(vec![])));
}
