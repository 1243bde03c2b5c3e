//! What can go wrong, and the status that follows.

use std::fmt::{self, Display};
use std::io;
use std::path::Path;

use usm::Refusal;

use crate::output::text::Shown;

/// The status of a run; the worst one counts.
#[derive(Clone, Copy, PartialEq, Eq, PartialOrd, Ord)]
pub enum Status {
    /// All is well.
    Success = 0,
    /// Some film is refused.
    Refused = 1,
    /// The arguments, a file or the system.
    Failed = 2,
}

/// Why a film fails.
#[derive(Debug)]
pub enum Error {
    /// By the rules.
    Refused(Refusal),
    /// By what the command asks of films beyond the rules, in words.
    Declined(String),
    /// By a file or the system, in words.
    System(String),
    /// Standard output can't be written, so that the run ends.
    Output(io::Error),
}

impl Error {
    /// What happened to a file.
    pub fn with(path: &Path, error: impl Message) -> Error {
        Error::System(format!("{}: {}", Shown::path(path), error.message()))
    }

    /// What the system says.
    pub fn io(error: io::Error) -> Error {
        Error::System(error.message())
    }

    /// The same, of a file that is not named yet.
    pub fn of(self, path: &Path) -> Error {
        match self {
            Error::System(what) => Error::with(path, what),
            error => error,
        }
    }

    /// The same, and what went wrong besides.
    pub fn and(self, more: &Error) -> Error {
        match (self, more) {
            (Error::System(what), Error::System(more)) => Error::System(format!("{what}; and {more}")),
            (error, _) => error,
        }
    }

    pub fn status(&self) -> Status {
        match self {
            Error::Refused(_) | Error::Declined(_) => Status::Refused,
            Error::System(_) | Error::Output(_) => Status::Failed,
        }
    }
}

impl Display for Error {
    fn fmt(&self, f: &mut fmt::Formatter) -> fmt::Result {
        match self {
            Error::Refused(refusal) => refusal.fmt(f),
            Error::Declined(what) | Error::System(what) => f.write_str(what),
            Error::Output(error) => f.write_str(&error.message()),
        }
    }
}

impl From<Refusal> for Error {
    fn from(refusal: Refusal) -> Error {
        Error::Refused(refusal)
    }
}

impl From<usm::Error> for Error {
    fn from(error: usm::Error) -> Error {
        match error {
            usm::Error::Refused(refusal) => Error::Refused(refusal),
            usm::Error::NotPlain(_) => Error::Declined(error.to_string()),
            usm::Error::Io(error) => Error::io(error),
            error => Error::System(error.to_string()),
        }
    }
}

/// What is said of an error to a person.
pub trait Message {
    fn message(&self) -> String;
}

impl Message for &str {
    fn message(&self) -> String {
        self.to_string()
    }
}

impl Message for String {
    fn message(&self) -> String {
        self.clone()
    }
}

/// In the words of the system, without the number that Rust puts after them.
impl Message for io::Error {
    fn message(&self) -> String {
        let text = self.to_string();
        let number = self.raw_os_error().map(|number| format!(" (os error {number})"));
        match number.and_then(|number| text.strip_suffix(&number)) {
            Some(words) => words.to_string(),
            None => text,
        }
    }
}

#[cfg(test)]
mod tests {
    use std::io;

    use super::Message;

    #[test]
    fn the_systems_words_have_no_number() {
        assert_eq!(io::Error::from_raw_os_error(2).message(), "No such file or directory");
        let own = io::Error::other("it says so (os error 2)");
        assert_eq!(own.message(), "it says so (os error 2)");
    }
}
