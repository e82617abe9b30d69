//! All documents of one moment as lines of JSON.

use super::app::App;
use super::problem::Problem;
use crate::other::LineStream;
use crate::program::room::Taken;
use crate::program::Spool;
use crate::store::Which;
use bytes::{Bytes, BytesMut};
use serde_json::value::RawValue;
use serde_json::Value;
use std::collections::BTreeMap;
use std::io;
use tokio::io::AsyncWriteExt;

/// How many bytes are gathered before they are written.
const PIECE: usize = 1 << 16;

const EXPORT: &[u8] = b"{\"cmd\":\"export\"}\n";

enum Source {
    /// The lines of the documents that are wanted.
    Spool(Spool, BytesMut),
    /// The lines of another server, and how the names begin that are wanted.
    Stream(LineStream, String),
}

/// The lines, which are taken as fast as the client reads them.
pub struct DocumentLines {
    source: Source,
    is_done: bool,
    /// Its place among those who read all documents, until it is sent.
    pub place: Option<Taken>,
}

impl DocumentLines {
    /// The lines of the documents whose names begin with the prefix, and the number of the last change in them.
    pub async fn begin(app: &App, prefix: &str) -> Result<(u64, DocumentLines), Problem> {
        let place = app.exports.take_soon(1).await;
        let place =
            place.ok_or_else(|| Problem::busy("too many clients read all documents: send the request again"))?;
        let store = &app.store;
        let source = match &store.which {
            Which::Own(handle) => {
                let spool = handle.export(prefix, &store.answers).await.map_err(|_| Problem::unavailable())?;
                let spool = spool
                    .map_err(|error| Problem::new(500, "failed", format!("the documents can't be kept: {error}")))?;
                Source::Spool(spool, BytesMut::new())
            }
            Which::Other(other) => {
                let mut stream = LineStream::to(&other.path).await.map_err(|_| Problem::unavailable())?;
                stream.stream.write_all(EXPORT).await.map_err(|_| Problem::unavailable())?;
                Source::Stream(stream, prefix.to_owned())
            }
        };
        let mut lines = DocumentLines { source, is_done: false, place: Some(place) };
        let first = lines.line().await.ok().flatten().ok_or_else(Problem::unavailable)?;
        let told: Value = serde_json::from_slice(&first).unwrap_or_default();
        match told.get("seq").and_then(Value::as_u64) {
            Some(seq) => Ok((seq, lines)),
            None => Err(Problem::of_reply(&first)),
        }
    }

    async fn line(&mut self) -> io::Result<Option<Bytes>> {
        match &mut self.source {
            Source::Spool(spool, buffer) => spooled(spool, buffer),
            Source::Stream(stream, _) => stream.line().await,
        }
    }

    /// The next lines; none at the end, and an error if they break off before.
    pub async fn next(&mut self) -> io::Result<Option<Bytes>> {
        let mut gathered = Vec::new();
        while !self.is_done && gathered.len() < PIECE {
            let line = self.line().await?.ok_or(io::ErrorKind::UnexpectedEof)?;
            if line.starts_with(b"{\"end\":") {
                self.is_done = true;
            } else if self.is_wanted(&line) {
                gathered.extend_from_slice(&line);
            }
        }
        Ok((!gathered.is_empty()).then(|| gathered.into()))
    }

    fn is_wanted(&self, line: &[u8]) -> bool {
        match &self.source {
            Source::Stream(_, prefix) if !prefix.is_empty() => {
                name_in(line).map_or(false, |name| name.starts_with(prefix.as_str()))
            }
            _ => true,
        }
    }
}

fn spooled(spool: &mut Spool, buffer: &mut BytesMut) -> io::Result<Option<Bytes>> {
    loop {
        if let Some(place) = memchr::memchr(b'\n', buffer) {
            return Ok(Some(buffer.split_to(place + 1).freeze()));
        }
        match spool.next()? {
            piece if piece.is_empty() => return Ok(None),
            piece => buffer.extend_from_slice(&piece),
        }
    }
}

/// The name in the line of a document.
fn name_in(line: &[u8]) -> Option<String> {
    let members: BTreeMap<String, &RawValue> = serde_json::from_slice(line).ok()?;
    serde_json::from_str(members.get("name")?.get()).ok()
}

#[cfg(test)]
mod tests {
    use super::name_in;

    #[test]
    fn the_name_is_that_of_the_line() {
        let line = b"{\"doc\":{\"name\":\"x\"},\"name\":\"a-b\",\"rev\":1,\"schema\":true}\n";
        assert_eq!(name_in(line).as_deref(), Some("a-b"));
    }
}
