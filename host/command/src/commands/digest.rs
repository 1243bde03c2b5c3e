//! `usm digest`: the SHA-256 of both clear streams.

use clap::Args;
use serde::Serialize;
use usm::Reading;

use crate::options::key::KeyOptions;
use crate::output::json::{About, StreamObject};
use crate::output::text::{Hex, Shown};
use crate::output::{Error, Status, print_to, report_error};
use crate::run::digests;
use crate::run::sources::Films;
use crate::run::workers::{self, Film, Task, Turn};

/// Say the SHA-256 and the size of both clear streams
///
/// A line for each stream, as sha256sum prints it: the digest, then the film, the stream and its size. It is the digest
/// of the file that `usm extract` writes under the same key, and without one of the streams as they are stored. Audio
/// that is absent is an empty stream.
#[derive(Args)]
pub struct Digest {
    #[command(flatten)]
    films: Films,
    #[command(flatten)]
    key: KeyOptions,
}

impl Digest {
    pub fn run(self) -> Status {
        let begin = || Ok((self.key.key()?, self.films.sources()?));
        match begin() {
            Ok((key, sources)) => {
                let json = self.films.options.json;
                workers::run(&Run { key, json }, &sources, &self.films.options)
            }
            Err(error) => report_error(error),
        }
    }
}

struct Run {
    key: Option<u64>,
    json: bool,
}

impl Task for Run {
    fn film<'a>(&'a self, film: Film<'a, '_>, turn: &Turn<'a, '_>) -> Result<(), Error> {
        let Film { label, input, meter, .. } = film;
        let mut reader = input.reader(Reading::default(), meter)?;
        let streams = digests::of(&mut reader, self.key, meter)?;
        reader.get_ref().check_end()?;
        let mut printer = turn.take();
        if self.json {
            let (video, audio) = (StreamObject::of(&streams.video), StreamObject::of(&streams.audio));
            return printer.object(&Object { about: About::new("digest", label), video, audio });
        }
        let file = Shown::path(label);
        for (name, stream) in [("video", &streams.video), ("audio", &streams.audio)] {
            print_to!(&mut *printer, "{}  {file} {name}, {} bytes\n", Hex(&stream.sha256), stream.bytes);
        }
        Ok(())
    }
}

#[derive(Serialize)]
struct Object<'a> {
    #[serde(flatten)]
    about: About<'a>,
    video: StreamObject<'a>,
    audio: StreamObject<'a>,
}
