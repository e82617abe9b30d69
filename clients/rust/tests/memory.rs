//! A process that has no more memory for replies. It is limited as a whole, so this is its one test.

use jpstore::{Change, Error, Fault, Options, Store};
use std::os::raw::c_int;
use std::{env, fs, process};

// The kernel's own numbers, for Linux on x86-64.
const RLIMIT_AS: c_int = 9;

extern "C" {
    fn setrlimit(resource: c_int, limit: *const [u64; 2]) -> c_int;
}

// So many more bytes of addresses for the process; without a number as many as it wants.
fn limit(more: Option<u64>) {
    let pages = fs::read_to_string("/proc/self/statm").unwrap();
    let used: u64 = pages.split(' ').next().unwrap().parse().unwrap();
    let least = more.map_or(u64::MAX, |more| used * 4096 + more);
    assert_eq!(unsafe { setrlimit(RLIMIT_AS, &[least, u64::MAX]) }, 0);
}

// How many replies come before the fault, each true: first a change, then the document again and again.
fn tried(batch: u64) {
    let path = env::temp_dir().join(format!("jpstore-{}-memory", process::id()));
    let _ = fs::remove_file(&path);
    jpstore::format(&path, 8192).unwrap();
    let mut store = Options::new().batch(batch).open(&path).unwrap();
    let doc = format!("\"{}\"", "x".repeat(1_000_000));
    store.create("d", &doc, "true").unwrap();
    let get = "{\"cmd\":\"get\",\"name\":\"d\",\"path\":\"\"}\n";
    let lines = [Change::patch("d", "[]"), Change::create("e", "1", "true")];
    assert_eq!(store.group(&lines), [Ok(2), Ok(3)]);
    let lines = "{\"cmd\":\"patch\",\"name\":\"d\",\"ops\":[]}\n".to_owned() + &get.repeat(200);
    limit(Some(64 << 20));
    let told = store.feed(&lines).map(drop);
    limit(None);
    assert_eq!(told, Err(Error::Fault(Fault::Reply)));
    let replies = store.replies_before_fault();
    assert!(replies.ends_with("}\n"));
    let mut replies = replies.lines();
    assert_eq!(replies.next(), Some("{\"ok\":true,\"seq\":4}"));
    let wanted = format!("{{\"ok\":true,\"value\":{doc}}}");
    let mut count = 0;
    for reply in replies {
        assert!(reply == wanted);
        count += 1;
    }
    assert!(count > 5 && count < 200, "{count} replies");
    // The session is over, and its file is free.
    assert_eq!(store.feed(get), Err(Error::Fault(Fault::Ended)));
    assert_eq!(store.replies_before_fault(), "");
    let mut store = Store::open(&path).unwrap();
    assert_eq!(store.rev("d"), Ok(4));
    fs::remove_file(&path).unwrap();
}

#[test]
fn replies_before_a_fault_are_told() {
    for batch in [1, 16] {
        tried(batch);
    }
}
