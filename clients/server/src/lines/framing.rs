//! Pieces of bytes cut into the lines that have a reply, by the rules of the program.

use super::{Line, MOST_LINE};
use bytes::{Bytes, BytesMut};

/// Takes the bytes of a client; holds at most one line, and of one that is too long nothing.
#[derive(Default)]
pub struct Framing {
    /// What isn't cut yet. Bytes are read into it.
    pub buffer: BytesMut,
    /// How many bytes of it are known to have no LF.
    looked: usize,
    long: bool,
    /// Whether a line that is too long had anything but blanks.
    full: bool,
}

fn is_blank(bytes: &[u8]) -> bool {
    bytes.iter().all(|byte| matches!(byte, b' ' | b'\t' | b'\r'))
}

impl Framing {
    /// The next whole line that isn't blank, if one has come.
    pub fn next(&mut self) -> Option<Line> {
        while let Some(place) = memchr::memchr(b'\n', &self.buffer[self.looked..]) {
            let line = self.buffer.split_to(self.looked + place + 1);
            self.looked = 0;
            if let Some(line) = self.taken(line) {
                return Some(line);
            }
        }
        self.looked = self.buffer.len();
        if self.looked > MOST_LINE || self.long {
            self.forget();
        }
        None
    }

    /// The line that was begun, which is answered without its LF too, at the end of the input.
    pub fn last(&mut self) -> Option<Line> {
        if self.buffer.is_empty() && !self.long {
            return None;
        }
        self.buffer.extend_from_slice(b"\n");
        self.next()
    }

    /// Leaves out what there is of a line that is too long.
    fn forget(&mut self) {
        self.full |= !is_blank(&self.buffer);
        self.long = true;
        self.buffer.clear();
        self.looked = 0;
    }

    fn taken(&mut self, line: BytesMut) -> Option<Line> {
        let (long, full) = (std::mem::take(&mut self.long), std::mem::take(&mut self.full));
        let blank = is_blank(&line[..line.len() - 1]);
        if long || line.len() > MOST_LINE + 1 {
            return (full || !blank).then(Bytes::new);
        }
        (!blank).then(|| line.freeze())
    }
}

#[cfg(test)]
mod tests {
    use super::{Framing, MOST_LINE};

    /// The lines of some bytes that come in pieces of a size.
    fn lines_of(sent: &[u8], size: usize) -> Vec<Vec<u8>> {
        let mut framing = Framing::default();
        let mut found = Vec::new();
        for piece in sent.chunks(size) {
            framing.buffer.extend_from_slice(piece);
            found.extend(std::iter::from_fn(|| framing.next()));
            assert!(framing.buffer.len() <= MOST_LINE);
        }
        found.extend(framing.last());
        found.iter().map(|line| line.to_vec()).collect()
    }

    #[test]
    fn blank_lines_have_no_reply_and_the_last_line_needs_no_end() {
        for size in [1, 2, 3, 100] {
            let found = lines_of(b"{}\n\n \t\r\n x\r\n\nlast", size);
            assert_eq!(found, [&b"{}\n"[..], b" x\r\n", b"last\n"], "{size}");
        }
        assert!(lines_of(b"", 1).is_empty() && lines_of(b" \t", 1).is_empty());
    }

    #[test]
    fn a_line_that_is_too_long_is_left_out_unless_it_is_blank() {
        let sent = [
            [&b"x".repeat(MOST_LINE)[..], b"\n"].concat(),
            [&b"x".repeat(MOST_LINE + 1)[..], b"\n"].concat(),
            [&b" ".repeat(MOST_LINE + 5)[..], b"\n"].concat(),
            [&b" ".repeat(3 * MOST_LINE)[..], b"x\n"].concat(),
            b"{}\n".to_vec(),
        ]
        .concat();
        for size in [1 << 16, 100_000, 1 << 19] {
            let found: Vec<usize> = lines_of(&sent, size).iter().map(Vec::len).collect();
            assert_eq!(found, [MOST_LINE + 1, 0, 0, 3], "{size}");
        }
    }
}
