//! The head of a request. Only well-formed HTTP is taken (RFC 9112): each line ends with CR and LF, no field goes on in the
//! next line, and one thing alone says how long the body is.

use super::fields::{elements, is_token};
use bytes::BytesMut;

/// The longest request line, the longest field, and the longest head.
const MOST_LINE: usize = 1 << 16;
const MOST_FIELD: usize = 1 << 14;
const MOST_HEAD: usize = 1 << 17;

/// The most fields.
const MOST_FIELDS: usize = 100;

const END: &[u8] = b"\r\n\r\n";

/// How the body of a request is framed.
#[derive(Clone, Copy, Debug, PartialEq, Eq)]
pub enum Framing {
    /// It has this many bytes.
    Length(u64),
    /// It comes in chunks.
    Chunks,
}

/// The head of a request.
#[derive(Debug)]
pub struct Head {
    /// The method.
    pub method: String,
    /// The target as it was sent.
    pub target: String,
    /// Whether it is HTTP/1.1, and not 1.0.
    pub is_1_1: bool,
    /// The names, in small letters, and the values of the fields.
    fields: Vec<(String, Vec<u8>)>,
    /// How the body is framed.
    pub framing: Framing,
}

/// Why what was sent is no request: the status of the answer, and what is said.
#[derive(Debug, PartialEq, Eq)]
pub struct Malformed {
    /// The status.
    pub status: u16,
    /// What is said.
    pub told: &'static str,
}

/// A head that is refused, and what is known of it: its method, and the origin of the page that asks.
#[derive(Debug)]
pub struct Refused {
    /// Why.
    pub why: Malformed,
    /// What is known.
    pub known: Head,
}

/// What is said of a long head, if too many bytes of requests are in memory.
pub const NO_ROOM: Malformed =
    Malformed { status: 503, told: "too many bytes of requests are on their way: send the request again" };

const LONG_LINE: Malformed = Malformed { status: 414, told: "the request line is too long" };
const LONG_FIELD: Malformed = Malformed { status: 431, told: "a field is too long" };
const LONG_HEAD: Malformed = Malformed { status: 431, told: "the head of the request is too long" };
const TOO_MANY: Malformed = Malformed { status: 431, told: "the request has too many fields" };
const OTHER_VERSION: Malformed = Malformed { status: 505, told: "the request must be one of HTTP/1.1" };

const fn malformed<T>(told: &'static str) -> Result<T, Malformed> {
    Err(Malformed { status: 400, told })
}

impl Head {
    /// The first value of a field, without blanks around it, if it has one that is a text.
    pub fn field(&self, name: &str) -> Option<&str> {
        std::str::from_utf8(self.bytes(name)?).ok()
    }

    /// The bytes of the first value of a field.
    pub fn bytes(&self, name: &str) -> Option<&[u8]> {
        self.fields.iter().find(|field| field.0 == name).map(|field| &field.1[..])
    }

    /// All values of a field.
    pub fn all<'h, 'n: 'h>(&'h self, name: &'n str) -> impl Iterator<Item = &'h [u8]> + 'h {
        self.fields.iter().filter(move |field| field.0 == name).map(|field| &field.1[..])
    }

    /// The values of a field as one list; none if the field isn't there.
    pub fn list(&self, name: &str) -> Option<String> {
        let values: Vec<String> = self.all(name).map(|value| String::from_utf8_lossy(value).into_owned()).collect();
        (!values.is_empty()).then(|| values.join(", "))
    }

    /// Whether the connection is to be kept when the request is answered.
    pub fn keeps(&self) -> bool {
        let said = self.list("connection").unwrap_or_default().to_ascii_lowercase();
        let mut words = said.split(',').map(str::trim);
        if self.is_1_1 {
            words.all(|word| word != "close")
        } else {
            words.any(|word| word == "keep-alive")
        }
    }

    /// Whether the client waits for a word before it sends the body.
    pub fn expects(&self) -> bool {
        self.is_1_1 && self.list("expect").map_or(false, |words| !elements(&words).is_empty() && only_continue(&words))
    }

    /// Whether the client expects what isn't known here.
    pub fn expects_else(&self) -> bool {
        self.list("expect").map_or(false, |words| !only_continue(&words))
    }
}

fn only_continue(words: &str) -> bool {
    elements(words).iter().all(|word| word.eq_ignore_ascii_case("100-continue"))
}

impl Refused {
    /// The refusal of a head, of which so much was read.
    pub fn of(why: Malformed, read: &[u8]) -> Refused {
        let method: Vec<u8> = read.iter().copied().take_while(|byte| is_token(*byte)).collect();
        let mut lines = read.split(|byte| *byte == b'\n').skip(1);
        // The last one may not be whole.
        let origin = lines.by_ref().filter(|line| line.ends_with(b"\r")).find_map(origin_in);
        let known = Head {
            method: String::from_utf8_lossy(&method).into_owned(),
            target: String::new(),
            is_1_1: true,
            fields: origin.map(|origin| ("origin".to_owned(), origin)).into_iter().collect(),
            framing: Framing::Length(0),
        };
        Refused { why, known }
    }
}

fn origin_in(line: &[u8]) -> Option<Vec<u8>> {
    let (name, value) = line.split_at(memchr::memchr(b':', line)?);
    name.eq_ignore_ascii_case(b"origin").then(|| trimmed(&value[1..value.len() - 1]).to_vec())
}

/// Takes the head at the begin of what was read, if it is there whole. `looked` is how far it was looked for its end.
pub fn take(buffer: &mut BytesMut, looked: &mut usize) -> Result<Option<Head>, Refused> {
    // A client may send empty lines before a request (section 2.2).
    while buffer.starts_with(b"\r\n") {
        let _ = buffer.split_to(2);
        *looked = 0;
    }
    let from = looked.saturating_sub(END.len() - 1);
    let end = match memchr::memmem::find(&buffer[from..], END) {
        Some(place) => from + place + END.len(),
        None => {
            *looked = buffer.len();
            return check_begun(buffer).map(|()| None).map_err(|why| Refused::of(why, buffer));
        }
    };
    *looked = 0;
    let mut head = buffer.split_to(end);
    parsed(&mut head).map(Some).map_err(|why| Refused::of(why, &head))
}

/// Refuses a head that can't become one. A line that is too long is so when all has come, since what comes later tells the
/// origin of the page that has to read why.
fn check_begun(begun: &[u8]) -> Result<(), Malformed> {
    if begun.len() > MOST_HEAD {
        check_length(memchr::memchr(b'\n', begun).unwrap_or(begun.len()), true)?;
        return Err(LONG_HEAD);
    }
    check_lines(begun, false)
}

/// Each line ends with CR and LF, and isn't too long. There aren't too many: else who sends byte after byte has all of them
/// looked at each time.
fn check_lines(head: &[u8], is_whole: bool) -> Result<(), Malformed> {
    let (mut begin, mut lines) = (0, 0);
    for place in memchr::memchr2_iter(b'\r', b'\n', head) {
        let is_end = head[place] == b'\r' && head.get(place + 1).map_or(!is_whole, |next| *next == b'\n');
        let is_second = head[place] == b'\n' && place > 0 && head[place - 1] == b'\r';
        if !is_end && !is_second {
            return malformed("a line of the head doesn't end with CR and LF");
        }
        if is_second {
            if is_whole {
                check_length(place - 1 - begin, begin == 0)?;
            }
            (begin, lines) = (place + 1, lines + 1);
            // Those of the fields, the first, and the empty one at the end.
            if lines > MOST_FIELDS + 2 {
                return Err(TOO_MANY);
            }
        }
    }
    Ok(())
}

fn check_length(length: usize, is_first: bool) -> Result<(), Malformed> {
    match length > if is_first { MOST_LINE } else { MOST_FIELD } {
        true if is_first => Err(LONG_LINE),
        true => Err(LONG_FIELD),
        false => Ok(()),
    }
}

/// The version in a request line: its two digits.
fn version_in(head: &mut [u8]) -> Option<&mut [u8]> {
    let end = memchr::memchr(b'\r', head)?;
    let line = &mut head[..end];
    let (begin, version) = line.split_at_mut(end.checked_sub(3)?);
    let is_version = begin.ends_with(b" HTTP/") && matches!(version, [b'0'..=b'9', b'.', b'0'..=b'9']);
    is_version.then(|| version)
}

fn parsed(head: &mut [u8]) -> Result<Head, Malformed> {
    check_lines(head, true)?;
    if head.len() > MOST_HEAD {
        return Err(LONG_HEAD);
    }
    match version_in(head) {
        // What is newer is read as the newest version that is known (RFC 9110, section 2.5).
        Some([b'1', _, minor]) if *minor > b'1' => *minor = b'1',
        Some([b'1', ..]) | None => (),
        Some(_) => return Err(OTHER_VERSION),
    }
    let head = &*head;
    let mut fields = [httparse::EMPTY_HEADER; MOST_FIELDS];
    let mut request = httparse::Request::new(&mut fields);
    match request.parse(head) {
        Ok(httparse::Status::Complete(length)) if length == head.len() => (),
        Err(httparse::Error::TooManyHeaders) => return Err(TOO_MANY),
        _ => return malformed("this is no request of HTTP/1.1"),
    }
    // httparse lets more pass as a method.
    if !request.method.map_or(false, |method| !method.is_empty() && method.bytes().all(is_token)) {
        return malformed("the method of the request is no token");
    }
    let text = |part: Option<&str>| part.unwrap_or_default().to_owned();
    let named = |field: &httparse::Header| (field.name.to_ascii_lowercase(), trimmed(field.value).to_vec());
    let mut made = Head {
        method: text(request.method),
        target: text(request.path),
        is_1_1: request.version == Some(1),
        fields: request.headers.iter().map(named).collect(),
        framing: Framing::Length(0),
    };
    made.framing = framing_of(&made)?;
    Ok(made)
}

fn trimmed(value: &[u8]) -> &[u8] {
    let is_blank = |byte: &u8| matches!(byte, b' ' | b'\t');
    let begin = value.iter().position(|byte| !is_blank(byte)).unwrap_or(value.len());
    let end = value.iter().rposition(|byte| !is_blank(byte)).map_or(begin, |place| place + 1);
    &value[begin..end]
}

/// How the body is framed (RFC 9112, section 6.3).
fn framing_of(head: &Head) -> Result<Framing, Malformed> {
    let lengths: Vec<&[u8]> = head.all("content-length").collect();
    if let Some(codings) = head.list("transfer-encoding") {
        if !head.is_1_1 || !lengths.is_empty() {
            return malformed("the request says in two ways how long its body is");
        }
        let is_chunked = |coding: &&str| coding.eq_ignore_ascii_case("chunked");
        return match elements(&codings).split_last() {
            Some((last, [])) if is_chunked(last) => Ok(Framing::Chunks),
            Some((last, others)) if is_chunked(last) && !others.iter().any(|other| is_chunked(other)) => {
                Err(Malformed { status: 501, told: "this transfer coding is not known" })
            }
            _ => malformed("`chunked` isn't the last transfer coding alone"),
        };
    }
    match lengths[..] {
        [] => Ok(Framing::Length(0)),
        [length] => match number(length) {
            Some(length) => Ok(Framing::Length(length)),
            None => malformed("the field `Content-Length` is no number"),
        },
        _ => malformed("the field `Content-Length` is there more than once"),
    }
}

/// A number of digits alone; one that is very long is as good as any that is too large.
fn number(digits: &[u8]) -> Option<u64> {
    let is_number = !digits.is_empty() && digits.iter().all(u8::is_ascii_digit);
    let text = std::str::from_utf8(digits).ok().filter(|_| is_number)?;
    Some(text.parse().unwrap_or(u64::MAX))
}

#[cfg(test)]
mod tests {
    use super::{take, Framing, Head, Malformed};
    use bytes::BytesMut;

    fn head_of(text: &str) -> Result<Option<Head>, Malformed> {
        take(&mut BytesMut::from(text.as_bytes()), &mut 0).map_err(|refused| refused.why)
    }

    fn status_of(text: &str) -> u16 {
        head_of(text).map(|_| ()).unwrap_err().status
    }

    #[test]
    fn a_head_is_taken_when_it_is_whole() {
        let text = "PUT /a?b HTTP/1.1\r\nHost: x \r\nIF-match:\t\"1\"\r\nContent-Length: 12\r\n\r\nrest";
        let (mut buffer, mut looked) = (BytesMut::new(), 0);
        for (place, byte) in text.bytes().enumerate() {
            buffer.extend_from_slice(&[byte]);
            if let Some(head) = take(&mut buffer, &mut looked).unwrap() {
                assert_eq!(&text[place + 1..], "rest");
                assert_eq!((head.method.as_str(), head.target.as_str(), head.is_1_1), ("PUT", "/a?b", true));
                assert_eq!((head.field("host"), head.field("if-match")), (Some("x"), Some("\"1\"")));
                assert_eq!((head.framing, head.keeps()), (Framing::Length(12), true));
                return;
            }
        }
        panic!("it isn't taken");
    }

    #[test]
    fn what_is_not_well_formed_is_refused() {
        for fields in [
            "X: 1\nY: 2",
            "X: 1\r\n 2",
            "X : 1",
            ": 1",
            "X: \u{0}",
            "X: 1\rY: 2",
            "Content-Length: +1",
            "Content-Length: 1, 1",
            "Content-Length: 1\r\nContent-Length: 1",
            "Content-Length: ",
            "Transfer-Encoding: gzip",
            "Transfer-Encoding: ",
            "Transfer-Encoding: chunked\r\nContent-Length: 1",
            "Transfer-Encoding: xchunked",
            "Transfer-Encoding: ,",
            "Transfer-Encoding: chunked, chunked",
            "Transfer-Encoding: chunked;x=y",
        ] {
            let text = format!("GET / HTTP/1.1\r\nHost: x\r\n{fields}\r\n\r\n");
            assert_eq!(status_of(&text), 400, "{fields:?}");
        }
        for line in [
            "GET /",
            "GET  / HTTP/1.1",
            "GET / HTTP/11",
            "GET / HTTP/1.10",
            "GET / HTTP/x.0",
            "GET / XTTP/2.0",
            "G(T / HTTP/1.1",
            " GET / HTTP/1.1",
            "GET / HTTP/1.1 ",
        ] {
            assert_eq!(status_of(&format!("{line}\r\n\r\n")), 400, "{line:?}");
        }
        assert_eq!(status_of("PUT / HTTP/1.1\r\nTransfer-Encoding: gzip, chunked\r\n\r\n"), 501);
        assert_eq!(status_of("PUT / HTTP/1.0\r\nTransfer-Encoding: chunked\r\n\r\n"), 400);
    }

    #[test]
    fn empty_elements_and_empty_lines_are_passed_over() {
        for codings in [", chunked", "chunked,", " ,, CHUNKED , "] {
            let text = format!("PUT / HTTP/1.1\r\nTransfer-Encoding:{codings}\r\n\r\n");
            assert_eq!(head_of(&text).unwrap().unwrap().framing, Framing::Chunks, "{codings}");
        }
        let long = "x".repeat(60_000);
        for begin in ["\r\n", "\r\n\r\n"] {
            let text = format!("{begin}GET /{long} HTTP/1.1\r\n\r\n");
            let (mut buffer, mut looked) = (BytesMut::new(), 0);
            let taken = text.as_bytes().chunks(997).find_map(|piece| {
                buffer.extend_from_slice(piece);
                take(&mut buffer, &mut looked).unwrap()
            });
            assert_eq!(taken.unwrap().target.len(), 60_001);
        }
    }

    #[test]
    fn a_later_version_is_read_as_the_newest_that_is_known() {
        for minor in ["1", "2", "9"] {
            assert!(head_of(&format!("GET / HTTP/1.{minor}\r\n\r\n")).unwrap().unwrap().is_1_1);
        }
        assert!(!head_of("GET / HTTP/1.0\r\n\r\n").unwrap().unwrap().is_1_1);
        for version in ["0.9", "2.0", "3.1"] {
            assert_eq!(status_of(&format!("GET / HTTP/{version}\r\n\r\n")), 505, "{version}");
        }
    }

    #[test]
    fn of_a_refused_head_the_method_and_the_origin_are_known() {
        let refused = |text: &str| take(&mut BytesMut::from(text.as_bytes()), &mut 0).map(|_| ()).unwrap_err().known;
        let known = refused("HEAD / HTTP/2.0\r\nHost: x\r\nORIGIN: \thttp://y \r\n\r\n");
        assert_eq!((&known.method[..], known.field("origin")), ("HEAD", Some("http://y")));
        let long = "x".repeat(131_000);
        assert_eq!(
            refused(&format!("GET /{long} HTTP/1.1\r\nOrigin: http://y\r\n\r\n")).field("origin"),
            Some("http://y")
        );
        assert_eq!(refused("GET / HTTP/1.1\nOrigin: y\r\n\r\n").field("origin"), Some("y"));
        assert_eq!(refused("GET / HTTP/1.1\r\nX\nOrigin: y").field("origin"), None);
    }

    #[test]
    fn what_is_too_long_is_refused() {
        let (line, field) = ("x".repeat(70_000), "x".repeat(17_000));
        for (text, status) in [
            (format!("GET /{line} HTTP/1.1\r\n\r\n"), 414),
            (format!("GET /{line}{line}"), 414),
            (format!("GET / HTTP/1.1\r\nX: {field}\r\n\r\n"), 431),
            (format!("GET / HTTP/1.1\r\nX: {line}{line}"), 431),
            (format!("GET / HTTP/1.1\r\n{}", "X: 1\r\n".repeat(102)), 431),
            (format!("GET / HTTP/1.1\r\n{}\r\n", "X: 1\r\n".repeat(101)), 431),
            (format!("GET / HTTP/1.1\r\n{}\r\n", format!("X: {}\r\n", &field[..16_000]).repeat(9)), 431),
            ("GET / HTTP/1.1\nHost".to_owned(), 400),
        ] {
            assert_eq!(status_of(&text), status, "{}", &text[..20]);
        }
        for begun in [format!("GET /{line}"), format!("GET / HTTP/1.1\r\nX: {field}")] {
            assert!(head_of(&begun).unwrap().is_none());
        }
    }

    #[test]
    fn connections_are_kept_as_the_client_wishes() {
        let keeps = |line: &str| head_of(&format!("GET / {line}\r\n\r\n")).unwrap().unwrap().keeps();
        assert!(keeps("HTTP/1.1") && !keeps("HTTP/1.0") && !keeps("HTTP/1.1\r\nConnection: x, Close"));
        assert!(keeps("HTTP/1.0\r\nConnection: Keep-Alive"));
    }
}
