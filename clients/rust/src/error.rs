use crate::sys::Cause;
use crate::{Mark, Refusal, SystemError};
use std::fmt;
use std::os::raw::c_int;

/// Why a call wasn't done.
///
/// [`std::error::Error::source`] has the system's reason, if there is one:
///
/// ```
/// use std::error::Error as _;
///
/// let error = jpstore::check("/none/at/all").unwrap_err();
/// assert_eq!(error.to_string(), "the file can't be made or opened");
/// let reason = error.source().unwrap();
/// assert_eq!(reason.to_string(), "No such file or directory (os error 2)");
/// ```
#[derive(Clone, Debug, PartialEq, Eq)]
#[non_exhaustive]
pub enum Error {
    /// The store refuses it, and goes on. Nothing has changed, but see [`Reason::Device`](crate::Reason::Device).
    Refused(Refusal),
    /// The store wasn't opened or made, or its session is over.
    Fault(Fault),
    /// The lines for [`Store::feed`](crate::Store::feed) don't end with a line feed. Nothing was sent.
    Unsendable,
}

/// What isn't the store's refusal: of a file, of the machine, or of a session that is over.
#[derive(Clone, Copy, Debug, PartialEq, Eq, Hash)]
#[non_exhaustive]
pub enum Fault {
    /// Another opening has the file, in this process or in another.
    InUse,
    /// The file can't be made or opened, for this reason.
    File(SystemError),
    /// The disk, a quota or a limit has no room for the whole new file, for this reason. No file is left.
    NoSpace(SystemError),
    /// The disk failed, for this reason.
    Device(SystemError),
    /// Out of memory.
    Memory,
    /// A number is out of its range, or a path is no UTF-8, or a path, a place or a mark has a character 0.
    Arguments,
    /// The processor lacks what the program was built for (x86-64-v2).
    Processor,
    /// The store belongs to the parent process.
    Forked,
    /// The session is over, by an earlier fault.
    Ended,
    /// Out of memory for the replies: the session is over.
    Reply,
    /// The system gave no random bytes for the identity of a store in format 3.
    Identity,
    /// The program ended for a reason that the library doesn't know, or answered what this crate can't read.
    Unknown,
}

impl Error {
    /// The refusal, if it is one.
    pub fn refusal(&self) -> Option<Refusal> {
        match self {
            Error::Refused(refusal) => Some(refusal.clone()),
            _ => None,
        }
    }

    /// The number of the refusal, if it is one: 21 if no document has the name.
    pub fn number(&self) -> Option<u16> {
        self.refusal().map(|refusal| refusal.reason.number())
    }

    /// The present mark, if the store refused a change that asked for another one ([`Reason::Mark`](crate::Reason::Mark)).
    pub fn mark(&self) -> Option<&Mark> {
        match self {
            Error::Refused(refusal) => refusal.mark.as_ref(),
            _ => None,
        }
    }

    /// `Err` with what an `enum jpstore_fault` and its cause say, unless it is JPSTORE_OK.
    pub(crate) fn check(fault: c_int, cause: &Cause) -> Result<(), Error> {
        let system_error = SystemError(cause.system_error);
        Err(Error::Fault(match fault {
            0 => return Ok(()),
            1 => Fault::InUse,
            2 => Fault::File(system_error),
            3 => return Err(Refusal::of(cause).map_or(Fault::Unknown.into(), Error::Refused)),
            4 => Fault::Device(system_error),
            5 => Fault::Memory,
            6 => Fault::Arguments,
            7 => Fault::Processor,
            8 => Fault::Forked,
            10 => Fault::Ended,
            11 => Fault::Reply,
            13 => Fault::NoSpace(system_error),
            15 => Fault::Identity,
            _ => Fault::Unknown,
        }))
    }
}

impl Fault {
    /// The system's reason, if it told one.
    pub fn system_error(&self) -> Option<SystemError> {
        match *self {
            Fault::File(error) | Fault::NoSpace(error) | Fault::Device(error) => {
                Some(error).filter(|error| error.raw_os_error() != 0)
            }
            _ => None,
        }
    }

    // The same by a reference, as a source is.
    fn source(&self) -> Option<&(dyn std::error::Error + 'static)> {
        match self {
            Fault::File(error) | Fault::NoSpace(error) | Fault::Device(error) => {
                (error.raw_os_error() != 0).then_some(error as _)
            }
            _ => None,
        }
    }
}

impl fmt::Display for Error {
    fn fmt(&self, f: &mut fmt::Formatter<'_>) -> fmt::Result {
        match self {
            Error::Refused(refusal) => refusal.fmt(f),
            Error::Fault(fault) => fault.fmt(f),
            Error::Unsendable => f.write_str("the lines don't end with a line feed"),
        }
    }
}

impl fmt::Display for Fault {
    fn fmt(&self, f: &mut fmt::Formatter<'_>) -> fmt::Result {
        f.write_str(match self {
            Fault::InUse => "another opening has the file",
            Fault::File(_) => "the file can't be made or opened",
            Fault::NoSpace(_) => "the disk, a quota or a limit has no room for the whole file",
            Fault::Device(_) => "the disk failed",
            Fault::Memory => "out of memory",
            Fault::Arguments => {
                "a number is out of its range, or a path is no UTF-8, or a text has a character 0"
            }
            Fault::Processor => "the processor is older than the program needs",
            Fault::Forked => "the store belongs to the parent process",
            Fault::Ended => "the session is over",
            Fault::Reply => "out of memory for the replies",
            Fault::Identity => "the system gave no random bytes for an identity",
            Fault::Unknown => "the program ended for an unknown reason",
        })
    }
}

impl std::error::Error for Error {
    fn source(&self) -> Option<&(dyn std::error::Error + 'static)> {
        match self {
            Error::Fault(fault) => fault.source(),
            _ => None,
        }
    }
}

impl std::error::Error for Fault {
    fn source(&self) -> Option<&(dyn std::error::Error + 'static)> {
        self.source()
    }
}

impl From<Fault> for Error {
    fn from(fault: Fault) -> Error {
        Error::Fault(fault)
    }
}
