//! The answer to `export`: all documents of one moment.

use super::engine::Engine;
use super::room::Room;
use super::spool::Spool;
use crate::limits::SMALL;
use crate::lines::replies::{self, names_in, rev_in, text_in, OK};
use crate::lines::LIST;
use crate::say;
use bytes::Bytes;
use std::io;
use tokio::sync::oneshot;

/// The most documents that are asked for at once. It begins with one, and there are more while they are small.
const TOGETHER: usize = 64;

/// An export that somebody waits for.
pub struct Wanted {
    /// Only documents are wanted whose names begin so.
    pub prefix: String,
    /// The room that the answer takes, as far as it is in memory.
    pub room: Room,
    /// To whom it goes; an error if it can't be kept until then.
    pub reply: oneshot::Sender<io::Result<Spool>>,
}

/// Reads the documents, while no change is made. Between pieces the questions of others are answered.
pub async fn export(engine: &mut Engine, wanted: Wanted) -> io::Result<()> {
    let mut spool = Spool::new(&wanted.room);
    let kept = read(engine, &wanted, &mut spool).await?;
    let done = kept.and_then(|()| spool.rewind());
    if let Err(error) = &done {
        say::complain(&format!("an export is broken off: {error}"));
    }
    // One who has gone away wants it no more.
    let _ = wanted.reply.send(done.map(|()| spool));
    Ok(())
}

/// Writes the answer: the outer error is that of the program, the inner one that of the file.
async fn read(engine: &mut Engine, wanted: &Wanted, spool: &mut Spool) -> io::Result<io::Result<()>> {
    let told = engine.exchange(LIST, 1).await?;
    let (names, seq) = match names_in(&told[0]) {
        Some(names) => (names, engine.history.last()),
        None => return Ok(spool.write(&told[0])),
    };
    let names: Vec<String> = names.into_iter().filter(|name| name.starts_with(&wanted.prefix)).collect();
    let mut written = spool.write(format!("{{\"documents\":{},\"ok\":true,\"seq\":{seq}}}\n", names.len()).as_bytes());
    let (mut rest, mut together) = (&names[..], 1);
    while !rest.is_empty() {
        let (some, others) = rest.split_at(together.min(rest.len()));
        let lines: String =
            some.iter().map(|name| replies::get(name, "") + &replies::get_schema(name) + &replies::rev(name)).collect();
        let told = engine.exchange(lines.as_bytes(), 3 * some.len()).await?;
        if let Some(refused) = told.iter().find(|reply| !reply.starts_with(OK)) {
            // Such as out of memory. It is the only answer.
            *spool = Spool::new(&wanted.room);
            return Ok(spool.write(refused));
        }
        for (name, replies) in some.iter().zip(told.chunks(3)) {
            written = written.and_then(|()| spool.write(&line_of(name, replies)));
        }
        if written.is_err() {
            return Ok(written);
        }
        let is_small = told.iter().map(Bytes::len).sum::<usize>() < SMALL;
        (rest, together) = (others, if is_small { TOGETHER.min(2 * together) } else { 1.max(together / 2) });
        engine.answer_questions().await?;
    }
    Ok(written.and_then(|()| spool.write(format!("{{\"end\":true,\"ok\":true,\"seq\":{seq}}}\n").as_bytes())))
}

fn line_of(name: &str, replies: &[Bytes]) -> Vec<u8> {
    let (doc, schema) = (text_in(&replies[0]).unwrap_or(b"null"), text_in(&replies[1]).unwrap_or(b"true"));
    let rev = rev_in(&replies[2]).unwrap_or(0).to_string();
    let parts: [&[u8]; 9] = [
        b"{\"doc\":",
        doc,
        b",\"name\":\"",
        name.as_bytes(),
        b"\",\"rev\":",
        rev.as_bytes(),
        b",\"schema\":",
        schema,
        b"}\n",
    ];
    parts.concat()
}
