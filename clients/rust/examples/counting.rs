//! Counts orders in a store of format 3 that other processes use too, each exactly once, also if it is killed at any moment.
//!
//! The words are the file, a name, and a number of orders. The store has the documents `total` and the one of this name, which are 0
//! at first. This process adds 1 to both for each order. It opens the store for a few of them, and then leaves it to the others.

use jpstore::{Change, Error, Fault, Store};
use std::{env, thread, time::Duration};

const PAUSE: Duration = Duration::from_millis(2);
const AT_ONCE: u64 = 4;

fn main() -> Result<(), Error> {
    let words: Vec<String> = env::args().skip(1).collect();
    let (file, name) = (&words[0], &words[1]);
    let all = words[2].parse().expect("a number of orders");
    while turn(file, name, all)? < all {
        thread::sleep(PAUSE);
    }
    Ok(())
}

/// Makes a few orders, and answers how many are made. The mark of this process has their number.
fn turn(file: &str, name: &str, all: u64) -> Result<u64, Error> {
    let mut store = opened(file)?;
    let made = store.mark(name)?.map_or(0, |mark| number(&mark.value));
    if made > 0 {
        // As if its answer was lost: it isn't made again.
        order(&mut store, name, made)?;
    }
    let last = all.min(made + AT_ONCE);
    for order_number in made + 1..=last {
        order(&mut store, name, order_number)?;
    }
    store.close()?;
    Ok(last)
}

/// The store, as soon as no other process has it.
fn opened(file: &str) -> Result<Store, Error> {
    loop {
        match Store::open(file) {
            Err(Error::Fault(Fault::InUse)) => thread::sleep(PAUSE),
            done => return done,
        }
    }
}

/// Makes one order, unless it is made, and answers its number in the store.
fn order(store: &mut Store, name: &str, order_number: u64) -> Result<u64, Error> {
    let (own, before) = (order_number.to_string(), (order_number - 1).to_string());
    let changes = [one_more(store, "total")?, one_more(store, name)?];
    let before = Some(before.as_str()).filter(|_| order_number > 1);
    let made = store.apply(&Change::transaction(&changes).with_mark_if(name, &own, before));
    match made.as_ref().err().and_then(Error::mark) {
        Some(mark) if mark.value == own => Ok(mark.seq),
        _ => made,
    }
}

fn one_more(store: &mut Store, counter: &str) -> Result<Change, Error> {
    let count = number(store.get(counter, "")?) + 1;
    let ops = format!(r#"[{{"op":"replace","path":"","value":{count}}}]"#);
    Ok(Change::patch(counter, &ops))
}

fn number(text: &str) -> u64 {
    text.parse().expect("a number")
}
