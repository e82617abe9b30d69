//! Makes a store in the file that is named, and counts bolts in it.

use jpstore::{format, Error, Store};
use std::env;

fn main() -> Result<(), Error> {
    let file = env::args().nth(1).expect("the name of a new file");
    format(&file, 4096)?;
    let mut store = Store::open(&file)?;
    store.create(
        "shelf-1",
        r#"{"bolts":40,"nuts":12}"#,
        r#"{"additionalProperties":{"minimum":0}}"#,
    )?;
    store.patch("shelf-1", r#"[{"op":"replace","path":"/nuts","value":11}]"#)?;
    println!("{}", store.query("shelf-1", "$[?@<20]")?);
    match store.patch("shelf-1", r#"[{"op":"replace","path":"/nuts","value":-1}]"#) {
        Err(Error::Refused(refusal)) => println!("refused: {refusal}"),
        other => println!("{other:?}"),
    }
    store.close()
}
