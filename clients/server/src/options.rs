//! The command line.

use crate::error::Error;
use crate::http::guard::origin_of;
use crate::protocol::MOST_STEP_SECTORS;
use std::ffi::{OsStr, OsString};
use std::os::unix::ffi::OsStrExt;
use std::path::PathBuf;
use std::time::Duration;

/// What `--help` shows.
pub const HELP: &str = "\
Usage: jpstored STORE [OPTION..]

Serves the store in the file STORE to many clients, over HTTP and by a Unix socket, until it is ended by SIGTERM or
SIGINT. STORE may also be the socket of a running server, which is then served over HTTP.

  --listen HOST:PORT   serves over HTTP at this address (127.0.0.1:8080 if neither this nor --socket is given)
  --socket PATH        serves lines at this Unix socket
  --token-file FILE    who asks over HTTP needs the token in this file
  --origin ORIGIN      lets in the pages of this origin, such as https://example.org; may be given several times
  --new                makes the store first if there is no such file: in format 3, for its owner alone
  --size SIZE          with --new: its size, such as 512K, 16M or 2G (16M)
  --program PATH       the program jpstore (the one on PATH)
  --wait SECONDS       how long to wait for a file, a port or a socket that is in use, or for a hub (5)
  --pump SECTORS       copies this many sectors of a snapshot after each group of changes, while a half fills
  --cache BYTES        keeps at most so many bytes of documents for readers (67108864)
  --no-cache           asks the program for each document
  --patience SECONDS   how long a client may take for a request, and half as long for a piece of an answer (60)
  --python PATH        the Python, with the package jpstore, that tells why a document is not valid (python3)
  --version, --help    shows the version, or this
";

/// The most bytes of the path of a Unix socket (unix(7)).
const MOST_SOCKET: usize = 107;

/// In less time nobody is answered.
const LEAST_PATIENCE: Duration = Duration::from_millis(100);

/// The options.
#[derive(Debug)]
pub struct Options {
    /// The file, or the socket of a server.
    pub store: PathBuf,
    /// The address for HTTP.
    pub listen: Option<String>,
    /// The path of the Unix socket.
    pub socket: Option<PathBuf>,
    /// The file with the token.
    pub token_file: Option<PathBuf>,
    /// The origins that are let in.
    pub origins: Vec<String>,
    /// Whether a store that isn't there is made.
    pub new: bool,
    /// The size of one that is made.
    pub size: Option<String>,
    /// The program.
    pub program: Option<PathBuf>,
    /// How long to wait for a file, a port or a socket that is in use, or for a hub.
    pub wait: Duration,
    /// The sectors of a step of a snapshot.
    pub pump: u64,
    /// The bytes of kept documents.
    pub cache: usize,
    /// How long a client may take for a request.
    pub patience: Duration,
    /// The Python that tells reasons.
    pub python: PathBuf,
}

/// What the command line asks for.
#[derive(Debug)]
pub enum Asked {
    /// To serve.
    Serve(Box<Options>),
    /// To show a text and end.
    Show(String),
}

impl Options {
    fn new() -> Options {
        Options {
            store: PathBuf::new(),
            listen: None,
            socket: None,
            token_file: None,
            origins: Vec::new(),
            new: false,
            size: None,
            program: None,
            wait: Duration::from_secs(5),
            pump: 0,
            cache: 1 << 26,
            patience: Duration::from_secs(60),
            python: "python3".into(),
        }
    }

    fn set(&mut self, option: &str, value: OsString) -> Result<(), Error> {
        if value.is_empty() {
            return Err(wrong(option, ""));
        }
        match option {
            "--socket" if value.len() > MOST_SOCKET => {
                let told =
                    format!("the path of a socket has at most {MOST_SOCKET} bytes, and this has {}", value.len());
                return Err(Error::new(told + ": choose a shorter one"));
            }
            "--socket" => self.socket = Some(value.into()),
            "--token-file" => self.token_file = Some(value.into()),
            "--program" => self.program = Some(value.into()),
            "--python" => self.python = value.into(),
            _ => match value.to_str() {
                Some(text) => self.set_text(option, text)?,
                None => return Err(wrong(option, &value.to_string_lossy())),
            },
        }
        Ok(())
    }

    fn set_text(&mut self, option: &str, value: &str) -> Result<(), Error> {
        let wrong = || wrong(option, value);
        match option {
            "--listen" => self.listen = Some(value.to_owned()),
            "--size" => self.size = Some(value.to_owned()),
            "--origin" => self.origins.push(origin_of(value).ok_or_else(|| no_origin(value))?),
            "--wait" => self.wait = seconds(value).ok_or_else(wrong)?,
            "--patience" => self.patience = seconds(value).filter(|most| *most >= LEAST_PATIENCE).ok_or_else(wrong)?,
            "--pump" => {
                self.pump = value.parse().ok().filter(|count| *count <= MOST_STEP_SECTORS as u64).ok_or_else(wrong)?;
            }
            "--cache" => self.cache = value.parse().map_err(|_| wrong())?,
            _ => return Err(Error::new(unknown(option))),
        }
        Ok(())
    }
}

/// The name of an option, and its value if it is in the same word.
fn parts_of(option: &[u8]) -> (String, Option<OsString>) {
    let (name, value) = match memchr::memchr(b'=', option) {
        Some(place) => (&option[..place], Some(OsStr::from_bytes(&option[place + 1..]).to_owned())),
        None => (option, None),
    };
    (String::from_utf8_lossy(name).into_owned(), value)
}

fn seconds(text: &str) -> Option<Duration> {
    let number: f64 = text.parse().ok()?;
    (0.0..=1e9).contains(&number).then(|| Duration::from_secs_f64(number))
}

fn no_origin(value: &str) -> Error {
    let form =
        "give it as a browser sends it, such as https://example.org: a scheme and a host, with a port if that is not \
                the scheme's own, and no path";
    Error::new(format!("`{value}` is no origin: {form}"))
}

fn wrong(option: &str, value: &str) -> Error {
    Error::new(format!("`{value}` is no value of {option}: see `jpstored --help`"))
}

/// The error of an option without a value: each that `--help` shows with one needs it.
fn without_value(name: &str) -> Error {
    let is_known = HELP.lines().filter_map(|line| line.split_whitespace().next()).any(|word| word == name);
    Error::new(if is_known { format!("{name} needs a value: see `jpstored --help`") } else { unknown(name) })
}

fn unknown(option: &str) -> String {
    format!("{option} is no option of jpstored: see `jpstored --help`")
}

/// Reads the words after the name of the program.
pub fn read(words: impl IntoIterator<Item = OsString>) -> Result<Asked, Error> {
    let (mut options, mut store) = (Options::new(), None);
    let mut words = words.into_iter();
    let mut plain = false;
    while let Some(word) = words.next() {
        match word.as_bytes() {
            b"--help" | b"-h" if !plain => return Ok(Asked::Show(HELP.to_owned())),
            b"--version" if !plain => return Ok(Asked::Show(format!("jpstored {}\n", env!("CARGO_PKG_VERSION")))),
            b"--no-cache" if !plain => options.cache = 0,
            b"--new" if !plain => options.new = true,
            b"--" if !plain => plain = true,
            option if !plain && option.starts_with(b"--") => {
                let (name, value) = parts_of(option);
                let value = value.or_else(|| words.next());
                options.set(&name, value.ok_or_else(|| without_value(&name))?)?;
            }
            _ if store.is_none() => store = Some(PathBuf::from(word)),
            word => {
                let word = String::from_utf8_lossy(word);
                return Err(Error::new(format!("`{word}` is one word too many: see `jpstored --help`")));
            }
        }
    }
    let store = store.filter(|store| !store.as_os_str().is_empty());
    options.store = store.ok_or_else(|| Error::new("which store? See `jpstored --help`"))?;
    if options.size.is_some() && !options.new {
        return Err(Error::new("--size is the size of a new store, which --new makes: see `jpstored --help`"));
    }
    if options.listen.is_none() && options.socket.is_none() {
        options.listen = Some("127.0.0.1:8080".to_owned());
    }
    Ok(Asked::Serve(Box::new(options)))
}

#[cfg(test)]
mod tests {
    use super::{read, Asked, Options};
    use std::path::PathBuf;
    use std::time::Duration;

    fn options(words: &[&str]) -> Result<Options, String> {
        match read(words.iter().map(|word| word.into())) {
            Ok(Asked::Serve(options)) => Ok(*options),
            Ok(Asked::Show(text)) => Err(text),
            Err(error) => Err(error.to_string()),
        }
    }

    #[test]
    fn options_are_read_in_any_place() {
        let found = options(&[
            "--socket=s",
            "store",
            "--origin",
            "http://a",
            "--origin",
            "http://b:1",
            "--wait",
            "0.5",
            "--no-cache",
        ])
        .unwrap();
        assert_eq!((found.store, found.socket, found.listen), ("store".into(), Some("s".into()), None));
        assert_eq!(
            (found.origins, found.wait, found.cache),
            (vec!["http://a".to_owned(), "http://b:1".to_owned()], Duration::from_millis(500), 0)
        );
        assert_eq!(options(&["store"]).unwrap().listen.as_deref(), Some("127.0.0.1:8080"));
        assert_eq!(options(&["--", "--store"]).unwrap().store, PathBuf::from("--store"));
        let made = options(&["--size", "1G", "store", "--new"]).unwrap();
        assert_eq!((made.new, made.size.as_deref()), (true, Some("1G")));
        assert!(!options(&["store"]).unwrap().new);
    }

    #[test]
    fn what_is_wrong_is_told() {
        let long = "s".repeat(108);
        for words in [
            &[][..],
            &[""],
            &["a", "b"],
            &["a", "--wait", "x"],
            &["a", "--pump"],
            &["a", "--pump", "1000001"],
            &["a", "--none", "1"],
            &["a", "--wait=-1"],
            &["a", "--wait=nan"],
            &["a", "--patience=0"],
            &["a", "--cache=-1"],
            &["a", "--cache=18446744073709551616"],
            &["a", "--socket="],
            &["a", "--program="],
            &["a", "--socket", &long],
            &["a", "--origin", "evil"],
            &["a", "--size", "16M"],
            &["a", "--new", "--size="],
        ] {
            assert!(options(words).is_err(), "{words:?}");
        }
        assert!(options(&["a", "--none"]).unwrap_err().contains("no option"));
        assert!(options(&["a", "--pump"]).unwrap_err().contains("needs a value"));
        assert!(options(&["a", "--socket", &long[1..]]).is_ok());
        assert!(options(&["--version"]).unwrap_err().starts_with("jpstored "));
    }
}
