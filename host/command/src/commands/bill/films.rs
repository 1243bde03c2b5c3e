//! What is learnt of a film: which bits of a key it shows, and its streams under each class of keys.

use std::fs;
use std::path::Path;

use usm::{Reader, Reading};

use super::streams;
use crate::files::identity::Identity;
use crate::output::{Error, Message};
use crate::run::digests::{self, Streams};
use crate::run::input::Input;
use crate::run::progress::Meter;
use crate::run::sources::Source;
use crate::sharing::apart::Apart;
use crate::sharing::classes::Class;
use crate::sharing::shown;

/// The identity of a film. Anything but a regular file is not even opened: opening a pipe would wait.
pub fn identity(path: &Path) -> Result<Identity, String> {
    let file = fs::metadata(path).map_err(|error| error.message())?;
    if !file.is_file() {
        return Err("it is no regular file".to_string());
    }
    Ok(Identity::of(&file))
}

/// What a class of keys gives.
#[derive(Clone, Copy, PartialEq, Eq, Debug)]
pub struct Found {
    pub class: Class,
    pub streams: Streams,
    /// Where these streams first differ from those of the first class.
    pub apart: Option<Apart>,
}

/// A film that is open. What is learnt of it counts only where its file is the same afterwards.
pub struct Film<'a> {
    path: &'a Path,
    seen: &'a Identity,
    input: Input,
}

impl<'a> Film<'a> {
    /// Opens a film, whose file was seen in a folder: what is no file any more is not waited for.
    pub fn open(path: &'a Path, seen: &'a Identity) -> Result<Film<'a>, Error> {
        let input = Source::seen(path).open()?;
        Ok(Film { path, seen, input })
    }

    /// The bits of a key that the film shows: the largest number of its payloads (proved).
    pub fn bits(&mut self, meter: &Meter) -> Result<u64, Error> {
        self.read(meter, |reader| Ok(shown::of(reader)?.bits))
    }

    /// The SHA-256 of the film as it is.
    pub fn digest(&mut self, meter: &Meter) -> Result<[u8; 32], Error> {
        let digest = digests::of_film(&mut self.input, meter)?;
        self.check_unchanged()?;
        Ok(digest)
    }

    /// The streams under each class, and where they first differ from those of the first.
    pub fn learn(&mut self, classes: &[Class], meter: &Meter) -> Result<Vec<Found>, Error> {
        self.read(meter, |reader| streams::learn(reader, classes, meter))
    }

    /// Reads the film from its start on.
    fn read<T>(
        &mut self,
        meter: &Meter,
        read: impl FnOnce(&mut Reader<&mut Input>) -> Result<T, Error>,
    ) -> Result<T, Error> {
        self.input.restart();
        let done = self.input.reader(Reading::default(), meter).and_then(|mut reader| read(&mut reader));
        self.check_unchanged()?;
        done
    }

    fn check_unchanged(&self) -> Result<(), Error> {
        match identity(self.path) {
            Ok(now) if now == *self.seen => Ok(()),
            _ => Err(Error::System("it changed while it was read".to_string())),
        }
    }
}
