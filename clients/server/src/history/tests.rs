//! Tests of the kept changes as followers get them.

use super::{Beginning, Gone, History, Status, MOST_BYTES, MOST_CHANGES};
use crate::lines::transactions::Told;
use std::collections::HashSet;
use std::sync::Arc;

/// A history of a store with an identity that was opened so often, after number `base`.
fn history(opens: u64, base: u64) -> History {
    let history = History::new(&Status { identity: Some(7), opens, ..Status::default() }).unwrap();
    history.begin_after(base);
    history
}

/// Adds a transaction with these changes, and this mark if it isn't empty, as the program tells it.
fn add(history: &History, changes: &[&str], mark: &str) {
    let (before, mark) = (history.last(), if mark.is_empty() { String::new() } else { format!(",\"mark\":{mark}") });
    let (first, last) = (before + 1, before + changes.len() as u64);
    let told = format!("{{\"changes\":[{}],\"first\":{first},\"last\":{last}{mark}}}", changes.join(","));
    let reply = format!("{{\"changes\":[{told}],\"identity\":\"7\",\"ok\":true,\"seq\":{last}}}\n");
    match Told::of(reply.as_bytes(), before) {
        Some(Told::Some { transactions, .. }) => history.add(history.events_of(&transactions)),
        other => panic!("{other:?}"),
    }
}

#[test]
fn an_event_has_its_line() {
    let history = history(1, 4);
    add(&history, &["{\"a\":1}"], "");
    let (event, name) = (history.after(4, 1).unwrap().remove(0), history.name_at(5).unwrap());
    let line = format!("{{\"change\":{{\"a\":1}},\"history\":\"{name}\",\"seq\":5}}\n");
    assert_eq!(event.line(), line.as_bytes());
    assert_eq!(event.bytes(), format!("id: 5-{name}\ndata: {line}\n").as_bytes());
    assert_eq!(history.after(3, 1).unwrap_err(), Gone(4));
    assert_eq!(history.after(6, 1).unwrap_err(), Gone(4));
    assert!(history.after(5, 1).unwrap().is_empty());
}

#[test]
fn a_transaction_tells_its_numbers_and_has_one_text() {
    let history = history(1, 0);
    add(&history, &["{\"a\":1}", "{\"b\":2}"], "{\"key\":\"k\",\"value\":\"v\"}");
    let name = history.name_at(2).unwrap();
    assert_eq!(history.name_at(1).as_ref(), Some(&name));
    for (seq, change) in [(1, "{\"a\":1}"), (2, "{\"b\":2}")] {
        let event = history.after(seq - 1, 1).unwrap().remove(0);
        let line = format!("{{\"change\":{change},\"first\":1,\"history\":\"{name}\",\"last\":2,\"seq\":{seq}}}\n");
        assert_eq!(event.line(), line.as_bytes());
        assert_eq!(event.bytes(), format!("id: {seq}-{name}\ndata: {line}\n").as_bytes());
    }
}

#[test]
fn transactions_are_made_again_as_they_were() {
    let history = history(1, 3);
    add(&history, &["{\"a\":1}"], "");
    add(&history, &["{\"a\":2}"], "{\"key\":\"k\",\"value\":\"v\"}");
    add(&history, &["{\"a\":3}", "{\"b\":3}"], "");
    add(&history, &["{\"a\":4}", "{\"b\":4}"], "{\"key\":\"l\",\"value\":\"w\"}");
    let all = [
        (4, "{\"a\":1}\n"),
        (5, "{\"mark\":{\"key\":\"k\",\"value\":\"v\"},\"a\":2}\n"),
        (7, "{\"changes\":[{\"a\":3},{\"b\":3}],\"cmd\":\"transaction\"}\n"),
        (9, "{\"mark\":{\"key\":\"l\",\"value\":\"w\"},\"changes\":[{\"a\":4},{\"b\":4}],\"cmd\":\"transaction\"}\n"),
    ]
    .map(|(seq, line)| (seq, line.as_bytes().to_vec()));
    assert_eq!(history.lines_after(3, 1000).unwrap(), all);
    assert_eq!(history.lines_after(3, 1).unwrap(), all[..1]);
    assert_eq!(history.lines_after(5, 10).unwrap(), all[2..3]);
    assert_eq!(history.lines_after(9, 10).unwrap(), []);
    assert_eq!(history.lines_after(2, 10).unwrap_err(), Gone(3));
}

#[test]
fn the_changes_of_some_documents_are_found() {
    let history = history(1, 0);
    for name in ["a", "b", "ab", "b"] {
        add(&history, &[&format!("{{\"cmd\":\"delete\",\"name\":\"{name}\"}}")], "");
    }
    let found = |seq: u64, most: usize, looks: usize, name: &str| {
        let next = history.wanted_after(seq, most, looks, |event| event.name() == name).unwrap();
        (next.events.len(), next.last, next.until)
    };
    assert_eq!(found(0, 1000, 1000, "b"), (2, 4, 4));
    assert_eq!(found(0, 1, 1000, "b"), (1, 2, 3));
    assert_eq!(found(0, 1000, 3, "b"), (1, 2, 3));
    assert_eq!(found(2, 1000, 1000, "a"), (0, 0, 4));
}

#[test]
fn it_is_cut_between_transactions_alone() {
    let history = history(1, 0);
    let mut ends = HashSet::from([0]);
    for size in [7, 1000, 1024, 3] {
        for _ in 0..70_000 / size {
            add(&history, &vec!["1"; size], "");
            ends.insert(history.last());
            let kept = history.last() - history.kept().base;
            assert!(ends.contains(&history.kept().base) && kept <= MOST_CHANGES as u64);
        }
        let (base, last) = (history.kept().base, history.last());
        assert!(last - base >= 49152);
        assert!(history.begin(Some(base), history.name_at(base).as_deref()).is_ok());
        assert_eq!(history.begin(Some(base - 1), None).unwrap_err(), Gone(base));
    }
}

#[test]
fn it_has_no_more_bytes_than_it_may() {
    let (history, change) = (history(1, 0), format!("\"{}\"", "x".repeat(1 << 20)));
    for count in 1..40 {
        add(&history, &[&change], "");
        let kept = history.kept();
        assert!(kept.bytes == kept.events.iter().map(super::Event::size).sum::<usize>() && kept.bytes <= MOST_BYTES);
        assert!(kept.events.len() >= count.min(11), "{count}");
    }
}

#[test]
fn a_follower_goes_on_after_a_start_if_it_has_the_same_transactions() {
    let (first, second) = (history(3, 0), history(4, 0));
    [&first, &second].iter().for_each(|one| add(one, &["{\"a\":1}", "{\"b\":1}"], ""));
    add(&first, &["{\"a\":2}"], "");
    add(&second, &["{\"a\":3}"], "");
    let named = |seq: u64| first.name_at(seq).unwrap();
    for seq in [0, 1, 2] {
        let begun = second.begin(Some(seq), Some(&named(seq))).unwrap();
        assert_eq!(begun, Beginning { since: seq, history: second.name_at(seq).unwrap(), last: 3 });
    }
    // It follows other changes now, and one knows its own.
    assert_eq!(second.begin(Some(3), Some(&named(3))).unwrap_err(), Gone(0));
    assert_eq!(second.begin(Some(2), Some(&named(3))).unwrap_err(), Gone(0));
    assert_eq!(first.begin(Some(2), Some(&second.name_at(2).unwrap())).unwrap_err(), Gone(0));
    assert!(first.begin(Some(3), Some(&named(2))).is_ok());
    assert_eq!(first.begin(Some(4), Some(&named(2))).unwrap_err(), Gone(0));
    assert_eq!(first.begin(None, None).unwrap().since, 3);
}

#[tokio::test]
async fn who_follows_what_is_forgotten_learns_it() {
    let history = Arc::new(history(1, 0));
    add(&history, &["{\"a\":1}"], "");
    let (name, mut news) = (history.name_at(1).unwrap(), history.news());
    let handing_on = tokio::spawn(history.clone().hand_news_on());
    news.borrow_and_update();
    history.begin_after(9);
    assert!(news.changed().await.is_ok());
    handing_on.abort();
    assert_eq!(history.after(1, 1).unwrap_err(), Gone(9));
    assert_eq!(history.begin(Some(1), Some(&name)).unwrap_err(), Gone(9));
    assert_eq!((history.last(), history.begin(Some(9), None).unwrap().last), (9, 9));
}

#[test]
fn after_a_growth_the_text_has_the_openings_of_the_larger_file() {
    let history = history(1, 0);
    add(&history, &["{\"a\":1}"], "");
    let name = history.name_at(1).unwrap();
    history.go_on(&Status { identity: Some(7), opens: 2, ..Status::default() });
    add(&history, &["{\"a\":1}"], "");
    assert!(history.name_at(2).unwrap().contains(".2.") && history.begin(Some(1), Some(&name)).is_ok());
}
