//! Why a call has no result.

use std::fmt;
use std::io;

use crate::{Offence, Refusal};

/// Why a call that needs memory, or reads a file, has no result.
#[derive(Debug)]
#[non_exhaustive]
pub enum Error {
    /// The film, the table or the streams are refused.
    Refused(Refusal),
    /// The film is read, and is not plain enough for what is asked of it.
    NotPlain(Offence),
    /// There is no memory for so many bytes.
    NoMemory(usize),
    /// The reader's own error.
    Io(io::Error),
}

impl Error {
    /// The refusal, where it is one.
    pub fn refusal(&self) -> Option<Refusal> {
        match self {
            Error::Refused(refusal) => Some(*refusal),
            _ => None,
        }
    }
}

impl fmt::Display for Error {
    fn fmt(&self, f: &mut fmt::Formatter) -> fmt::Result {
        match self {
            Error::Refused(refusal) => refusal.fmt(f),
            Error::NotPlain(Offence { rule, place, .. }) => write!(f, "the chunk at {place}: {rule}"),
            Error::NoMemory(bytes) => write!(f, "no memory for {bytes} bytes"),
            Error::Io(error) => error.fmt(f),
        }
    }
}

impl std::error::Error for Error {
    fn source(&self) -> Option<&(dyn std::error::Error + 'static)> {
        match self {
            Error::Refused(refusal) => Some(refusal),
            Error::NotPlain(_) | Error::NoMemory(_) => None,
            Error::Io(error) => Some(error),
        }
    }
}

impl From<Refusal> for Error {
    fn from(refusal: Refusal) -> Error {
        Error::Refused(refusal)
    }
}

impl From<io::Error> for Error {
    fn from(error: io::Error) -> Error {
        Error::Io(error)
    }
}

impl From<Refusal> for io::Error {
    fn from(refusal: Refusal) -> io::Error {
        Error::from(refusal).into()
    }
}

impl From<Error> for io::Error {
    fn from(error: Error) -> io::Error {
        match error {
            Error::Io(error) => error,
            Error::NoMemory(_) => io::Error::new(io::ErrorKind::OutOfMemory, error),
            Error::Refused(_) | Error::NotPlain(_) => io::Error::new(io::ErrorKind::InvalidData, error),
        }
    }
}

/// Room in a vector for so many elements in all, without an abort where there is none. What is in it stays.
pub(crate) fn make_room<T>(vector: &mut Vec<T>, count: usize) -> Result<(), Error> {
    let missing = count.saturating_sub(vector.len());
    vector.try_reserve_exact(missing).map_err(|_| Error::NoMemory(count.saturating_mul(size_of::<T>())))
}
