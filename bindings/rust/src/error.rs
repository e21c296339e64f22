//! Why a call failed.
use crate::ffi;
use crate::refused::{Refusal, Refused};
use std::{error, fmt, io};

/// The first fault of bytes that are no blob, or of a text.
///
/// ```
/// use changecap::{check, Error, Fault};
/// assert!(matches!(check(b"T\x80"), Err(Error::Malformed(Fault { kind: 3, at: 1 }))));
/// ```
#[derive(Clone, Copy, Debug, PartialEq, Eq)]
pub struct Fault {
    /// Its number, as in `D1`.
    pub kind: u32,
    /// Its offset in bytes, from 0.
    pub at: usize,
}

/// Why a call did nothing.
///
/// ```
/// use changecap::{Error, Refusal, Server};
/// use std::error::Error as _;
/// let client = Server::open_in_memory()?.client()?;
/// client.create_table("t", &[true])?;
/// let error = client.create_table("t", &[true]).unwrap_err();
/// assert_eq!(error.to_string(), "refused: E9 TableExists");
/// assert!(error.source().is_some());
/// assert!(matches!(error, Error::Refused(why) if why.code == Refusal::TableExists));
/// # Ok::<(), changecap::Error>(())
/// ```
#[derive(Debug)]
#[non_exhaustive]
pub enum Error {
    /// The bytes are no changeset and no patchset.
    Malformed(Fault),
    /// A patchset, where only a changeset serves.
    Patchset,
    /// A changeset, where only a patchset serves.
    Changeset,
    /// A changeset where the blob before it is a patchset, or the other way round.
    OtherKind,
    /// A table that had other columns, or another key, before.
    OtherColumns,
    /// There is no memory for the call, which may be made again. A [`Batch`](crate::Batch) to which it would
    /// have added fails.
    OutOfMemory,
    /// An argument that the call has no meaning for: there is no such name, value or number of columns.
    Misuse,
    /// The rules refuse the command.
    Refused(Refused),
    /// A batch was committed, and only the capture that belongs to it failed. The session keeps its records.
    NotCaptured {
        /// The version that the commit made.
        version: u64,
        /// Why the capture failed.
        cause: Box<Error>,
    },
    /// An operation could not be put in the batch before. It is not committed.
    FailedBatch,
    /// The text is not one command: the number of the fault, as in `G1`, or 0, and its offset.
    Command(Fault),
    /// The text is no filter: the number of the refusal, 12 or 13, and where the first token does not fit.
    Filter(Fault),
    /// The row has no column of this number.
    ColumnIndex(usize),
    /// The value of this column is not of the type that was asked for, or too great for it.
    ColumnType(usize),
    /// The server has answered as many commands as it can, 2^63 - 1.
    HistoryFull,
    /// Another call had the client at the same time, which this crate never lets happen.
    Overtaken,
    /// A stream could not be read or written.
    Io(io::Error),
}

/// What a call answers, or why it did nothing.
pub type Result<T> = std::result::Result<T, Error>;

impl Error {
    /// Why a call that answered this status failed. Some refusals have the number of an operation or of a
    /// change.
    pub(crate) fn of(status: u32, fault: ffi::Fault, has_part: impl Fn(Refusal) -> bool) -> Error {
        let place = Fault { kind: fault.kind, at: fault.at };
        match status {
            ffi::MALFORMED => Error::Malformed(place),
            ffi::NOMEM => Error::OutOfMemory,
            ffi::PATCHSET => Error::Patchset,
            ffi::KIND => Error::OtherKind,
            ffi::COLUMNS => Error::OtherColumns,
            ffi::REFUSED => match Refusal::of(fault.kind) {
                Some(code) => Refused::error(code, has_part(code).then_some(fault.at)),
                None => Error::Misuse,
            },
            ffi::COMMAND => Error::Command(place),
            ffi::FILTER => Error::Filter(place),
            ffi::FULL => Error::HistoryFull,
            ffi::OVERTAKEN => Error::Overtaken,
            _ => Error::Misuse,
        }
    }
}

impl fmt::Display for Error {
    fn fmt(&self, f: &mut fmt::Formatter<'_>) -> fmt::Result {
        match self {
            Error::Malformed(fault) => write!(f, "fault D{} at {}", fault.kind, fault.at),
            Error::Patchset => f.write_str("a patchset, where only a changeset serves"),
            Error::Changeset => f.write_str("a changeset, where only a patchset serves"),
            Error::OtherKind => f.write_str("a changeset and a patchset"),
            Error::OtherColumns => f.write_str("a table that had other columns before"),
            Error::OutOfMemory => f.write_str("out of memory"),
            Error::Misuse => f.write_str("no such name, value or number of columns"),
            Error::Refused(refused) => refused.fmt(f),
            Error::NotCaptured { version, cause } => {
                write!(f, "committed as version {version} and not captured: {cause}")
            }
            Error::FailedBatch => f.write_str("an operation could not be put in the batch"),
            Error::Command(fault) => write!(f, "not one command: G{} at {}", fault.kind, fault.at),
            Error::Filter(fault) => write!(f, "no filter: E{} at {}", fault.kind, fault.at),
            Error::ColumnIndex(column) => write!(f, "no column {column}"),
            Error::ColumnType(column) => write!(f, "column {column} has a value of another type"),
            Error::HistoryFull => f.write_str("history full"),
            Error::Overtaken => f.write_str("another call had the client"),
            Error::Io(error) => error.fmt(f),
        }
    }
}

impl error::Error for Error {
    fn source(&self) -> Option<&(dyn error::Error + 'static)> {
        match self {
            Error::Refused(refused) => Some(refused),
            Error::NotCaptured { cause, .. } => Some(&**cause),
            Error::Io(error) => Some(error),
            _ => None,
        }
    }
}

impl From<io::Error> for Error {
    fn from(error: io::Error) -> Error {
        Error::Io(error)
    }
}
