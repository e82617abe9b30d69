//! Makes an order in a store of format 3 exactly once, however often it is called for it, and prints the number of its last change.
//!
//! The words are the file of the store, the key of the order, and its JSON text.

use jpstore::{Change, Store};
use jpstore_serde_json::{Error, Once};
use std::env;

fn main() -> Result<(), Error> {
    let words: Vec<String> = env::args().skip(1).collect();
    let (file, key, order) = (&words[0], &words[1], &words[2]);
    let mut store = Store::open(file)?;
    let changes = [
        Change::create(key, order, r#"{"type":"object"}"#),
        Change::patch("total", r#"[{"op":"test","path":"","value":0}]"#),
    ];
    println!("{}", store.once(key, &changes)?);
    Ok(store.close()?)
}
