//! What a run prints: standard output, every write of which is checked, and messages on standard error.

pub mod csv;
pub mod digits;
pub mod error;
pub mod json;
pub mod media;
pub mod numbers;
pub mod text;

pub use error::{Error, Message, Status};

use std::fs::File;
use std::io::{self, BufWriter, ErrorKind, IsTerminal, Write};
use std::os::fd::AsFd;
use std::path::Path;

use indicatif::ProgressBar;
use serde::Serialize;

use crate::output::text::Shown;

/// Standard output.
pub struct Output {
    file: BufWriter<Aside>,
    is_begun: bool,
}

impl Output {
    /// Beside a progress bar, which is out of the way while something is written.
    pub fn new(bar: ProgressBar) -> io::Result<Output> {
        let file = File::from(io::stdout().as_fd().try_clone_to_owned()?);
        Ok(Output { file: BufWriter::with_capacity(1 << 16, Aside { file, bar }), is_begun: false })
    }

    /// An empty line, but at the very beginning.
    pub fn gap(&mut self) -> Result<(), Error> {
        if self.is_begun { self.write_all(b"\n").map_err(Error::Output) } else { Ok(()) }
    }

    /// Writes an object as one line.
    pub fn object(&mut self, object: &impl Serialize) -> Result<(), Error> {
        json::write(object, &mut *self).map_err(|error| match error.classify() {
            serde_json::error::Category::Io => Error::Output(error.into()),
            // What the object is made of could not be had.
            _ => Error::System(error.to_string()),
        })?;
        self.write_all(b"\n").map_err(Error::Output)
    }

    /// Whether a person may be looking at it.
    pub fn is_terminal(&self) -> bool {
        self.file.get_ref().file.is_terminal()
    }
}

impl Write for Output {
    fn write(&mut self, bytes: &[u8]) -> io::Result<usize> {
        self.is_begun = true;
        self.file.write(bytes)
    }

    fn flush(&mut self) -> io::Result<()> {
        self.file.flush()
    }
}

struct Aside {
    file: File,
    bar: ProgressBar,
}

impl Write for Aside {
    fn write(&mut self, bytes: &[u8]) -> io::Result<usize> {
        self.bar.suspend(|| self.file.write(bytes))
    }

    fn flush(&mut self) -> io::Result<()> {
        self.file.flush()
    }
}

/// Writes a line or a part of one to an [`Output`], inside a function that gives a `Error`.
macro_rules! print_to {
    ($output:expr, $($word:tt)*) => {
        std::io::Write::write_fmt($output, format_args!($($word)*)).map_err(crate::output::error::Error::Output)?
    };
}
pub(crate) use print_to;

/// Runs a command that works on no film: it writes, and all of it must be written.
pub fn write_all(write: impl FnOnce(&mut Output) -> Result<(), Error>) -> Status {
    let written = Output::new(ProgressBar::hidden()).map_err(Error::Output).and_then(|mut output| {
        write(&mut output)?;
        output.flush().map_err(Error::Output)
    });
    match written {
        Ok(()) => Status::Success,
        Err(error) => report_error(error),
    }
}

/// Prints why a command fails that works on no film, or that has not begun with one.
pub fn report_error(error: Error) -> Status {
    match error {
        Error::Output(error) => failed(error),
        Error::System(what) => report(Status::Failed, &what),
        Error::Declined(what) => report(Status::Refused, &what),
        Error::Refused(refusal) => report(Status::Refused, &refusal.to_string()),
    }
}

/// Prints a message on standard error. That this can't be written is no reason to stop.
pub fn report(status: Status, what: &str) -> Status {
    writeln!(io::stderr(), "usm: {what}").ok();
    status
}

/// Prints a note about a file on standard error.
pub fn note(path: &Path, what: &str) {
    report(Status::Success, &format!("note: {}: {what}", Shown::path(path)));
}

/// Standard output can't be written. A reader that has gone needs no message.
pub fn failed(error: io::Error) -> Status {
    if error.kind() == ErrorKind::BrokenPipe {
        return Status::Failed;
    }
    report(Status::Failed, &format!("standard output: {}", error.message()))
}
