//! The store through this crate, with what it must answer worked out by hand.

use jpstore::{
    check, copy, copy_in, format, upgrade, Change, Error, Fault, FormatOptions, Options, Reason,
    Status, Step, Store,
};
use std::error::Error as _;
use std::io;
use std::os::unix::fs::PermissionsExt;
use std::path::PathBuf;
use std::sync::{Arc, Mutex};
use std::{env, fs, process, thread};

struct File(PathBuf);

impl File {
    fn new(name: &str, sectors: u64) -> File {
        let file = File::none(name);
        let capacity = format(&file.0, sectors).unwrap();
        assert!(capacity > 0 && capacity <= sectors * 512 / 2);
        file
    }

    // A name that no file has.
    fn none(name: &str) -> File {
        let path = env::temp_dir().join(format!("jpstore-{}-{name}", process::id()));
        let _ = fs::remove_file(&path);
        File(path)
    }
}

impl Drop for File {
    fn drop(&mut self) {
        let _ = fs::remove_file(&self.0);
    }
}

fn refusal(error: Error) -> u16 {
    error.number().expect("a refusal")
}

#[test]
fn documents() {
    let mut store = Store::in_memory(64).unwrap();
    assert_eq!(store.create("d", r#"{"b":[1,2],"a":null}"#, "true"), Ok(1));
    assert_eq!(store.get("d", ""), Ok(r#"{"a":null,"b":[1,2]}"#));
    assert_eq!(
        store.patch("d", r#"[{"op":"add","path":"/b/-","value":3}]"#),
        Ok(2)
    );
    assert_eq!(store.get("d", "/b/2"), Ok("3"));
    assert_eq!(store.rev("d"), Ok(2));
    assert_eq!(
        store.query("d", "$.b[?@>1]"),
        Ok(r#"[{"path":"$['b'][1]","value":2},{"path":"$['b'][2]","value":3}]"#)
    );
    assert_eq!(store.set_schema("d", r#"{"type":"object"}"#), Ok(3));
    assert_eq!(store.schema("d"), Ok(r#"{"type":"object"}"#));
    assert_eq!(store.list(), Ok(vec!["d".to_owned()]));
    assert_eq!(store.delete("d"), Ok(4));
    assert_eq!(store.list(), Ok(vec![]));
    assert_eq!(store.close(), Ok(()));
}

#[test]
fn refusals() {
    let mut store = Store::in_memory(64).unwrap();
    store
        .create("d", r#"{"n":1}"#, r#"{"properties":{"n":{"minimum":0}}}"#)
        .unwrap();
    assert_eq!(refusal(store.get("none", "").unwrap_err()), 21);
    assert_eq!(
        refusal(
            store
                .patch("d", r#"[{"op":"replace","path":"/n","value":-1}]"#)
                .unwrap_err()
        ),
        45
    );
    let test = store.patch(
        "d",
        r#"[{"op":"add","path":"/x","value":0},{"op":"test","path":"/n","value":0}]"#,
    );
    assert!(
        matches!(test, Err(Error::Refused(refusal)) if refusal.reason == Reason::PatchTest && refusal.op == Some(1))
    );
    let old = store.patch_if("d", "[]", 7);
    assert!(
        matches!(old, Err(Error::Refused(refusal)) if refusal.reason == Reason::Revision && refusal.rev == Some(1))
    );
    assert_eq!(store.patch_if("d", "[]", 1), Ok(2));
    for text in [
        "[",
        "tru",
        "",
        "0,\"name\":\"f\"",
        "0}",
        "\"\0\"",
        "\"\n\"",
        "1 2",
    ] {
        assert_eq!(refusal(store.create("e", text, "true").unwrap_err()), 11);
    }
    assert_eq!(store.create("e", "{\n\t\"a\": [\n1]\n}", "true"), Ok(3));
    assert_eq!(store.get("e", ""), Ok(r#"{"a":[1]}"#));
    for name in ["", "e\0", "e\"", "é"] {
        assert_eq!(refusal(store.delete(name).unwrap_err()), 15);
    }
    assert_eq!(refusal(store.query("e", "$['\0']").unwrap_err()), 50);
    assert_eq!(store.get("e", "/\0"), Err(Fault::Arguments.into()));
    assert_eq!(store.rev("e"), Ok(3));
}

#[test]
fn files() {
    let file = File::new("files", 64);
    let mut store = Store::open(&file.0).unwrap();
    assert_eq!(store.create("d", "1", "true"), Ok(1));
    assert_eq!(
        Store::open(&file.0).unwrap_err(),
        Error::Fault(Fault::InUse)
    );
    drop(store);
    let status = check(&file.0).unwrap();
    assert_eq!(
        (
            status.documents,
            status.seq,
            status.opens,
            status.sectors,
            status.broken
        ),
        (1, 1, 2, 64, false)
    );
    let other = Store::open("/etc/passwd").unwrap_err();
    assert_eq!(
        other.refusal().map(|refusal| refusal.reason),
        Some(Reason::NotAStore)
    );
    assert_eq!(other.to_string(), "72 not-a-store");
    assert_eq!(
        Store::in_memory(1).unwrap_err(),
        Error::Fault(Fault::Arguments)
    );
}

fn kind(error: &Error) -> Option<io::ErrorKind> {
    match error {
        Error::Fault(fault) => fault.system_error().map(|error| error.kind()),
        _ => None,
    }
}

#[test]
fn reasons() {
    const EISDIR: i32 = 21;
    let file = File::new("reasons", 64);
    let missing = check("/none/at/all").unwrap_err();
    assert_eq!(kind(&missing), Some(io::ErrorKind::NotFound));
    let source = missing.source().unwrap();
    assert!(source.to_string().contains("No such file or directory"));
    assert!(format!("{missing:?}").contains("NotFound"));
    let exists = format(&file.0, 64).unwrap_err();
    assert_eq!(kind(&exists), Some(io::ErrorKind::AlreadyExists));
    let exists = copy(&file.0, &file.0, 64).unwrap_err();
    assert_eq!(kind(&exists), Some(io::ErrorKind::AlreadyExists));
    let folder = upgrade(env::temp_dir(), 3).unwrap_err();
    assert!(matches!(folder, Error::Fault(Fault::File(error)) if error.raw_os_error() == EISDIR));
    let path = Store::open("a\0b").unwrap_err();
    assert_eq!(path, Error::Fault(Fault::Arguments));
    assert!(path.source().is_none());
}

#[test]
fn copies_and_formats() {
    for format in [2, 3] {
        let (file, new) = (File::none("formats"), File::none("formats-copy"));
        let options = FormatOptions::new().format(format).sparse(true);
        options.make(&file.0, 4096).unwrap();
        let mut store = Store::open(&file.0).unwrap();
        assert_eq!(store.create("d", "1", "true"), Ok(1));
        assert_eq!(store.patch("d", "[]"), Ok(2));
        store.close().unwrap();
        assert_eq!(upgrade(&file.0, 3), Ok(format));
        assert_eq!(upgrade(&file.0, 2), Ok(3));
        let status = copy(&file.0, &new.0, 64).unwrap();
        assert_eq!((status.documents, status.seq, status.sectors), (1, 2, 64));
        let mut store = Store::open(&new.0).unwrap();
        assert_eq!(store.rev("d"), Ok(2));
    }
    let file = File::none("format-4");
    let refused = FormatOptions::new().format(4).make(&file.0, 64);
    assert_eq!(refused, Err(Fault::Arguments.into()));
}

#[test]
fn schemas_of_format_3() {
    let long = format!("{{\"pattern\":\"{}\"}}", "a".repeat(4097));
    let rows = [
        (2, r#"{"pattern":"^a"}"#, Reason::SchemaKeyword),
        (3, r#"{"pattern":"("}"#, Reason::SchemaForm),
        (3, &long, Reason::SchemaSize),
        (3, r#"{"pattern":"b"}"#, Reason::Invalid),
        (2, r#"{"patternProperties":{}}"#, Reason::SchemaKeyword),
        (3, r#"{"patternProperties":{"(":{}}}"#, Reason::SchemaForm),
        (3, r#"{"unevaluatedItems":true}"#, Reason::SchemaKeyword),
    ];
    for (format, schema, reason) in rows {
        let file = File::none("profiles");
        FormatOptions::new()
            .format(format)
            .make(&file.0, 512)
            .unwrap();
        let mut store = Store::open(&file.0).unwrap();
        let refused = store.create("d", "\"a\"", schema).unwrap_err();
        assert_eq!(refusal(refused), reason.number(), "{schema}");
    }
    let (file, new) = (File::none("newer"), File::none("newer-copy"));
    FormatOptions::new().format(3).make(&file.0, 512).unwrap();
    let mut store = Store::open(&file.0).unwrap();
    let schema = r#"{"pattern":"^a","patternProperties":{"b":false}}"#;
    assert_eq!(store.create("d", "\"a\"", schema), Ok(1));
    store.close().unwrap();
    assert_eq!(
        refusal(upgrade(&file.0, 2).unwrap_err()),
        Reason::NewerSchema.number()
    );
    assert_eq!(
        refusal(copy_in(&file.0, &new.0, 64, 2).unwrap_err()),
        Reason::NewerSchema.number()
    );
    assert!(!new.0.exists());
    assert_eq!(copy(&file.0, &new.0, 512).unwrap().documents, 1);
    assert_eq!(upgrade(&new.0, 3), Ok(3));
}

#[test]
fn permission_bits() {
    // The umask may take bits of the others away, and no host takes those of the owner.
    for (mode, wanted) in [(0, 0o600), (0o640, 0o600), (0o400, 0o400)] {
        let file = File::none("bits");
        FormatOptions::new().mode(mode).make(&file.0, 64).unwrap();
        let made = fs::metadata(&file.0).unwrap().permissions().mode();
        assert_eq!(made & 0o700, wanted);
        assert_eq!(u64::from(made) & 0o77 & !mode, 0);
    }
    let file = File::none("bits-1000");
    let refused = FormatOptions::new().mode(0o1000).make(&file.0, 64);
    assert_eq!(refused, Err(Fault::Arguments.into()));
}

const BATCHES: [u64; 4] = [0, 1, 2, 16];

fn opened(file: &File, batch: u64) -> Store {
    let mut store = Options::new().batch(batch).pump(8).open(&file.0).unwrap();
    store.create("d", r#"{"n":0}"#, "true").unwrap();
    store
}

const SEVEN: &str = r#"[{"op":"replace","path":"/n","value":7}]"#;

// A typed call takes its own reply, whatever the batch.
#[test]
fn typed_calls() {
    for batch in BATCHES {
        let file = File::new("typed", 64);
        let mut store = opened(&file, batch);
        assert_eq!(refusal(store.patch("none", "[]").unwrap_err()), 21);
        assert_eq!(store.patch("d", SEVEN), Ok(2));
        assert_eq!(store.create("e", "0", "true"), Ok(3));
        assert_eq!(store.get("d", "/n"), Ok("7"));
        assert_eq!(store.list(), Ok(vec!["d".to_owned(), "e".to_owned()]));
        assert_eq!(store.close(), Ok(()));
    }
}

#[test]
fn groups() {
    for batch in BATCHES {
        let file = File::new("groups", 64);
        let mut store = opened(&file, batch);
        let create = |name: &str| Change::create(name, "0", "true");
        let changes = [create("a"), create("a"), create("b")];
        let replies = store.group(&changes);
        assert_eq!((&replies[0], &replies[2]), (&Ok(2), &Ok(3)));
        assert_eq!(refusal(replies[1].clone().unwrap_err()), 20);
        assert_eq!(replies.len(), 3);
        assert_eq!(store.group(&[]), vec![]);
        let broken = [Change::patch("d", "["), create("c")];
        let replies = store.group(&broken);
        assert_eq!(refusal(replies[0].clone().unwrap_err()), 11);
        assert_eq!(replies[1], Ok(4));
        assert_eq!(store.list().unwrap(), ["d", "a", "b", "c"]);
    }
}

// Transactions are answered once, alone and in a group.
#[test]
fn transactions() {
    for batch in BATCHES {
        let file = File::new("transactions", 64);
        let mut store = opened(&file, batch);
        let done = [Change::patch("d", SEVEN), Change::create("e", "1", "true")];
        assert_eq!(store.transaction(&done), Ok(3));
        let refused = [Change::delete("e"), Change::patch("none", "[]")];
        let told = store.transaction(&refused).unwrap_err();
        assert!(
            matches!(&told, Error::Refused(refusal) if refusal.reason == Reason::NoDocument && refusal.change == Some(1))
        );
        assert_eq!(told.to_string(), "21 no-document, change 1");
        let old = [Change::delete("e"), Change::patch_if("d", "[]", 7)];
        let group = [
            Change::transaction(&refused),
            Change::transaction(&old),
            Change::set_schema("d", r#"{"type":"object"}"#),
            Change::transaction(&[]),
        ];
        let replies = store.group(&group);
        let refusal = |at: usize| replies[at].clone().unwrap_err().refusal().unwrap();
        let place = |at: usize| (refusal(at).reason.number(), refusal(at).change);
        assert_eq!(place(0), (21, Some(1)));
        assert_eq!((place(1), refusal(1).rev), ((24, Some(1)), Some(2)));
        assert_eq!((&replies[2], place(3)), (&Ok(4), (14, None)));
        assert_eq!(store.get("e", ""), Ok("1"));
    }
}

// A transaction over its limit is refused alone. The document has 1,000,000 bytes, of which 33 are within 32 MiB.
#[test]
fn large_transactions() {
    for format in [2, 3] {
        for batch in BATCHES {
            let file = File::none("large");
            let options = FormatOptions::new().format(format);
            options.make(&file.0, 5000).unwrap();
            let mut store = Options::new().batch(batch).open(&file.0).unwrap();
            let doc = format!("\"{}\"", "x".repeat(999_998));
            assert_eq!(store.create("d", &doc, "true"), Ok(1));
            let touches = |count: usize| vec![Change::set_schema("d", "true"); count];
            let beyond = store.transaction(&touches(34)).unwrap_err();
            assert_eq!(beyond.to_string(), "65 transaction-large");
            let group = [
                Change::patch("d", "[]"),
                Change::transaction(&touches(34)),
                Change::transaction(&touches(33)),
                Change::create("e", "1", "true"),
            ];
            let replies = store.group(&group);
            let refusal = replies[1].as_ref().unwrap_err().refusal().unwrap();
            assert_eq!((refusal.reason.number(), refusal.change), (65, None));
            assert_eq!(
                (&replies[0], &replies[2], &replies[3]),
                (&Ok(2), &Ok(35), &Ok(36))
            );
            assert_eq!(store.rev("d"), Ok(35));
        }
    }
}

// Lines of the caller's own have their replies at once, so that no later call takes them.
#[test]
fn lines() {
    for batch in BATCHES {
        let file = File::new("lines", 64);
        let mut store = opened(&file, batch);
        let patch = "{\"cmd\":\"patch\",\"name\":\"d\",\"ops\":[]}\n";
        assert_eq!(store.feed(patch), Ok("{\"ok\":true,\"seq\":2}\n"));
        let lines = [patch, "\n \t\r\n", "x\n", patch, "\n"].concat();
        let wanted = "{\"ok\":true,\"seq\":3}\n{\"error\":\"not-json\",\"number\":11,\"ok\":false}\n{\"ok\":true,\"seq\":4}\n";
        assert_eq!(store.feed(&lines), Ok(wanted));
        assert_eq!(store.feed(""), Ok(""));
        assert_eq!(store.feed("{\"cmd\":\"del"), Err(Error::Unsendable));
        assert_eq!(store.feed("\n{\"cmd\":\"list\"}"), Err(Error::Unsendable));
        assert_eq!(store.patch("d", "[]"), Ok(5));
        assert_eq!(store.get("d", "/n"), Ok("0"));
    }
}

#[test]
fn a_store_in_format_3_has_an_identity() {
    let file = File::none("identity");
    FormatOptions::new()
        .format(3)
        .identity(7 << 64)
        .make(&file.0, 512)
        .unwrap();
    assert_eq!(check(&file.0).unwrap().identity, Some(7 << 64));
    let copied = File::none("identity-copied");
    let status = copy(&file.0, &copied.0, 512).unwrap();
    assert!(status.identity.is_some() && status.identity != Some(7 << 64));
    upgrade(&copied.0, 2).unwrap();
    assert_eq!(check(&copied.0).unwrap().identity, None);
}

#[test]
fn status_snapshots_and_pumps() {
    let file = File::new("status", 64);
    let mut store = opened(&file, 0);
    store.patch("d", SEVEN).unwrap();
    let Status { used, capacity, .. } = store.status().unwrap();
    assert!(used > 0 && used < capacity);
    let after = store.snapshot().unwrap();
    assert!(after < used);
    let status = store.status().unwrap();
    assert_eq!((status.used, status.seq, status.documents), (after, 2, 1));
    assert!(matches!(store.pump(1000), Ok((Step::Switched, written)) if written > 0));
    assert_eq!(refusal(store.pump(0).unwrap_err()), 14);
    assert_eq!(store.system_error(), None);
}

#[test]
fn threads_share_a_store_by_a_mutex() {
    let store = Arc::new(Mutex::new(Store::in_memory(4096).unwrap()));
    let threads: Vec<_> = (0..4)
        .map(|number| {
            let store = Arc::clone(&store);
            thread::spawn(move || {
                let name = format!("d{number}");
                store.lock().unwrap().create(&name, "0", "true").unwrap();
                for round in 0..500 {
                    let ops = format!(r#"[{{"op":"replace","path":"","value":{round}}}]"#);
                    store.lock().unwrap().patch(&name, &ops).unwrap();
                    assert_eq!(
                        store.lock().unwrap().get(&name, ""),
                        Ok(round.to_string().as_str())
                    );
                }
            })
        })
        .collect();
    for thread in threads {
        thread.join().unwrap();
    }
    assert_eq!(store.lock().unwrap().list().unwrap().len(), 4);
}

#[test]
fn a_store_may_be_sent_to_a_thread() {
    fn sent<T: Send>() {}
    sent::<Store>();
    let mut store = Store::in_memory(64).unwrap();
    store.create("d", "1", "true").unwrap();
    let moved = thread::spawn(move || store.get("d", "").map(str::to_owned));
    assert_eq!(moved.join().unwrap(), Ok("1".to_owned()));
}

#[test]
fn the_version_names_the_program() {
    assert!(jpstore::version().contains(" program-sha256:"));
    assert!(jpstore::version().starts_with(env!("CARGO_PKG_VERSION")));
    assert_eq!(jpstore::version_number(), 1_000_000);
}
