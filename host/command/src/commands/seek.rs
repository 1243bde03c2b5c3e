//! `usm seek`: where bytes of a film's video stand.

use std::borrow::Cow;
use std::path::PathBuf;

use clap::{Args, ValueHint};
use serde::Serialize;
use usm::Index;

use crate::commands::index::stored::StoredIndex;
use crate::commands::index::{self, video_bytes};
use crate::options::limit::place;
use crate::output::json::About;
use crate::output::numbers::grouped;
use crate::output::{Error, Status, print_to, report_error};
use crate::run::input::Input;
use crate::run::progress::Meter;
use crate::run::sources::{RunOptions, Source};
use crate::run::workers::{self, Film, Task, Turn};

/// Say where bytes of a film's video stand
///
/// Of each byte of the video stream, counted from 0: the start of its chunk in the film, and its place in the chunk's
/// payload. It is the byte that `usm extract` writes there without a key. A byte at or above the stream's size is past the
/// end.
///
/// Without an index the film is gone through, chunk by chunk. With one that `usm index` has made it is not read, as long as
/// its file is the same and was not changed since; else its SHA-256 decides whether the index is still that of the film.
#[derive(Args)]
pub struct Seek {
    /// The film, or - for standard input
    #[arg(value_name = "FILE", value_hint = ValueHint::FilePath)]
    film: PathBuf,
    /// Bytes of the video, in hex with 0x in front
    #[arg(value_name = "BYTE", required = true, value_parser = place)]
    bytes: Vec<usize>,
    /// Take the film's index from this file
    #[arg(long, value_name = "INDEX", value_hint = ValueHint::FilePath)]
    index: Option<PathBuf>,
    /// Compare the film's SHA-256 with that of the index in any case
    #[arg(long, requires = "index")]
    check: bool,
    /// Write a JSON object for each byte, on a line of its own
    #[arg(long)]
    json: bool,
}

impl Seek {
    pub fn run(self) -> Status {
        let options = RunOptions { json: self.json, ..RunOptions::default() };
        // What is wrong with the index is said before the film is read.
        let stored = match self.index.as_deref().map(StoredIndex::read).transpose() {
            Ok(stored) => stored,
            Err(error) => return report_error(error),
        };
        let run = Run { options: &self, stored };
        workers::run(&run, &[Source::named(&self.film)], &options)
    }
}

struct Run<'o> {
    options: &'o Seek,
    stored: Option<StoredIndex>,
}

impl Run<'_> {
    /// The stored index, or one that is made now.
    fn index(&self, input: &mut Input, meter: &Meter) -> Result<Cow<'_, Index>, Error> {
        match (&self.stored, &self.options.index) {
            (Some(stored), Some(path)) => stored.of_film(path, input, self.options.check, meter).map(Cow::Borrowed),
            _ => index::of(input, meter).map(Cow::Owned),
        }
    }
}

impl Task for Run<'_> {
    fn film<'a>(&'a self, film: Film<'a, '_>, turn: &Turn<'a, '_>) -> Result<(), Error> {
        let Film { label, input, meter, .. } = film;
        let index = self.index(input, meter)?;
        input.check_end()?;
        let mut printer = turn.take();
        for &byte in &self.options.bytes {
            let found = index.seek(byte);
            if self.options.json {
                let about = About::new("place", label);
                let (chunk, offset) = (found.map(|place| place.chunk), found.map(|place| place.offset));
                printer.object(&Object { about, byte, chunk, offset })?;
                continue;
            }
            match found {
                Some(place) => print_to!(
                    &mut *printer,
                    "{}: byte {} of the payload of the chunk at {}\n",
                    grouped(byte as u64),
                    grouped(place.offset as u64),
                    grouped(place.chunk as u64)
                ),
                None => print_to!(
                    &mut *printer,
                    "{}: past the end: the video has {} bytes\n",
                    grouped(byte as u64),
                    grouped(video_bytes(&index))
                ),
            }
        }
        Ok(())
    }
}

#[derive(Serialize)]
struct Object<'a> {
    #[serde(flatten)]
    about: About<'a>,
    byte: usize,
    chunk: Option<usize>,
    offset: Option<usize>,
}
