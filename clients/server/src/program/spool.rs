//! The answer to `export`: in memory as long as it is small and there is room, and else in a file without a name.

use super::room::{Room, Taken};
use bytes::Bytes;
use std::fs::{File, OpenOptions};
use std::io::{self, Read, Seek, SeekFrom, Write};
use std::os::unix::fs::OpenOptionsExt;

/// The most bytes in memory, and how many are handed on at once.
const MOST: usize = 1 << 22;
const PIECE: usize = 1 << 16;

/// Bytes that are written, and then read once.
pub struct Spool {
    memory: Vec<u8>,
    taken: Taken,
    file: Option<File>,
    read: usize,
}

impl Spool {
    /// Without any bytes; those in memory take this room.
    pub fn new(room: &Room) -> Spool {
        Spool { memory: Vec::new(), taken: room.begin(), file: None, read: 0 }
    }

    /// Adds bytes.
    pub fn write(&mut self, bytes: &[u8]) -> io::Result<()> {
        if self.file.is_none() && (self.memory.len() + bytes.len() > MOST || !self.taken.more(bytes.len())) {
            let mut file = nameless()?;
            file.write_all(&self.memory)?;
            self.memory = Vec::new();
            self.taken.give_back();
            self.file = Some(file);
        }
        match &mut self.file {
            Some(file) => file.write_all(bytes),
            None => {
                self.memory.extend_from_slice(bytes);
                Ok(())
            }
        }
    }

    /// Begins to be read.
    pub fn rewind(&mut self) -> io::Result<()> {
        self.read = 0;
        self.file.as_mut().map_or(Ok(0), |file| file.seek(SeekFrom::Start(0))).map(drop)
    }

    /// The next piece; an empty one at the end.
    pub fn next(&mut self) -> io::Result<Bytes> {
        if let Some(file) = &mut self.file {
            let mut piece = vec![0; PIECE];
            let count = file.read(&mut piece)?;
            piece.truncate(count);
            return Ok(piece.into());
        }
        let end = (self.read + PIECE).min(self.memory.len());
        let piece = Bytes::copy_from_slice(&self.memory[self.read..end]);
        self.read = end;
        Ok(piece)
    }
}

/// A file in the folder for such files, which no path leads to.
fn nameless() -> io::Result<File> {
    let folder = std::env::temp_dir();
    let mut how = OpenOptions::new();
    how.read(true).write(true).mode(0o600);
    match how.clone().custom_flags(libc::O_TMPFILE).open(&folder) {
        Ok(file) => Ok(file),
        Err(_) => {
            // Some file systems have no such files.
            let path = folder.join(format!("jpstored-{}-export", std::process::id()));
            let file = how.create_new(true).open(&path)?;
            std::fs::remove_file(&path)?;
            Ok(file)
        }
    }
}

#[cfg(test)]
mod tests {
    use super::{Room, Spool, MOST};
    use crate::limits::SMALL;

    #[test]
    fn what_was_written_is_read() {
        // The size, the room beside what is small, and whether it is all in memory, and takes room.
        let rows =
            [(0, 0, false), (SMALL, 0, false), (SMALL + 10, 10, true), (SMALL + 10, 9, false), (MOST + 1, MOST, false)];
        for (size, most, takes_room) in rows {
            let room = Room::of_bytes(most);
            let mut spool = Spool::new(&room);
            let text: Vec<u8> = (0..size).map(|number| number as u8).collect();
            text.chunks(100_000).for_each(|piece| spool.write(piece).unwrap());
            spool.rewind().unwrap();
            let mut found = Vec::new();
            loop {
                match spool.next().unwrap() {
                    piece if piece.is_empty() => break,
                    piece => found.extend_from_slice(&piece),
                }
            }
            assert!(found == text, "{size}");
            assert_eq!(room.take(SMALL + most).is_none(), takes_room, "{size}");
        }
    }
}
