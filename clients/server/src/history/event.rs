//! A change as all followers are sent it.

use super::name;
use crate::lines::transactions::Transaction;
use bytes::Bytes;

const AFTER_ID: &[u8] = b"\ndata: ";

/// What is before the text of a change in its line.
pub const HEAD: &[u8] = b"{\"change\":";

/// A change as a server-sent event, in which its line and its text are too.
#[derive(Clone, Debug)]
pub struct Event {
    bytes: Bytes,
    /// The beginning and the end of the text that names the history, of that of the change, and in it of the document's name.
    history: (usize, usize),
    text: (usize, usize),
    name: (usize, usize),
    /// The end of the event. After it comes the mark that was set with its transaction, if it is the last of that.
    end: usize,
    /// The first and the last number of its transaction.
    span: (u64, u64),
}

impl Event {
    /// The events of a transaction, which this text names the history after.
    pub fn of(transaction: &Transaction, history: &str) -> Vec<Event> {
        let numbered = transaction.changes.iter().zip(transaction.first..);
        numbered.map(|(change, seq)| Event::new(transaction, change.get(), seq, history)).collect()
    }

    fn new(transaction: &Transaction, change: &str, seq: u64, history: &str) -> Event {
        let (first, last) = (transaction.first, transaction.last);
        let [before, after] = match first < last {
            true => [format!(",\"first\":{first}"), format!(",\"last\":{last}")],
            false => Default::default(),
        };
        let mark = transaction.mark.filter(|_| seq == last).map_or("", |mark| mark.get());
        let id = format!("id: {seq}-");
        let begin = id.len() + history.len() + AFTER_ID.len() + HEAD.len();
        let tail = format!("{before},\"history\":\"{history}\"{after},\"seq\":{seq}}}\n\n");
        let end = begin + change.len() + tail.len();
        let mut made = Vec::with_capacity(end + mark.len());
        for part in
            [id.as_bytes(), history.as_bytes(), AFTER_ID, HEAD, change.as_bytes(), tail.as_bytes(), mark.as_bytes()]
        {
            made.extend_from_slice(part);
        }
        let (named, text) = ((id.len(), id.len() + history.len()), (begin, begin + change.len()));
        Event {
            bytes: made.into(),
            history: named,
            text,
            name: name::place_in(change.as_bytes()),
            end,
            span: (first, last),
        }
    }

    /// The event, with the empty line after it.
    pub fn bytes(&self) -> Bytes {
        self.bytes.slice(..self.end)
    }

    /// The line `{"change":..,"history":..,"seq":..}` with its LF; in a transaction of several it has `first` and `last` too.
    pub fn line(&self) -> Bytes {
        self.bytes.slice(self.text.0 - HEAD.len()..self.end - 1)
    }

    /// The text that names the history up to the end of its transaction.
    pub fn history(&self) -> &str {
        std::str::from_utf8(&self.bytes[self.history.0..self.history.1]).unwrap_or_default()
    }

    /// The name of the document that is changed.
    pub fn name(&self) -> &str {
        let begin = self.text.0;
        std::str::from_utf8(&self.bytes[begin + self.name.0..begin + self.name.1]).unwrap_or_default()
    }

    /// The number of the first change of its transaction, and of the last.
    pub fn span(&self) -> (u64, u64) {
        self.span
    }

    /// How many bytes it has.
    pub fn size(&self) -> usize {
        self.bytes.len()
    }

    fn text(&self) -> &[u8] {
        &self.bytes[self.text.0..self.text.1]
    }
}

/// The line that makes the transaction of these events again, with its mark.
pub fn line_of(events: &[&Event]) -> Vec<u8> {
    let mark = events.last().map_or(&[][..], |last| &last.bytes[last.end..]);
    let made = match events {
        [one] => one.text().to_vec(),
        all => {
            let changes: Vec<&[u8]> = all.iter().map(|event| event.text()).collect();
            [b"{\"changes\":[", &changes.join(&b","[..])[..], b"],\"cmd\":\"transaction\"}"].concat()
        }
    };
    match mark {
        b"" => [&made[..], b"\n"].concat(),
        mark => [b"{\"mark\":", mark, b",", &made[1..], b"\n"].concat(),
    }
}
