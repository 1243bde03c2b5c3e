//! `usm index`: where the video payloads of a film stand, kept beside it for `usm seek`.

pub mod stored;

use std::path::{Path, PathBuf};

use clap::{Args, ValueHint};
use serde::Serialize;
use usm::{Audio, Index, Reading};

use self::stored::{FilmMark, StoredIndex};
use crate::files::identity::FileId;
use crate::files::names::stem;
use crate::files::staged::{Replacing, StagedFiles};
use crate::output::json::{About, AsHex, AsText};
use crate::output::numbers::{counted, grouped};
use crate::output::text::Shown;
use crate::output::{Error, Status, print_to};
use crate::run::input::Input;
use crate::run::progress::Meter;
use crate::run::sources::{RunOptions, Source};
use crate::run::workers::{self, Film, Task, Turn};

/// Make an index of a film's video, for jumps
///
/// The index says of each video payload where it begins in the video stream and in which chunk it stands, so that `usm
/// seek` finds a byte of the video without going through the film. It keeps the film's size and SHA-256, and which file it
/// is, so that it is used for no other film and not for this one once it is changed.
///
/// The film is read as the original reads it, without audio.
#[derive(Args)]
pub struct IndexFilm {
    /// The film, or - for standard input
    #[arg(value_name = "FILE", value_hint = ValueHint::FilePath)]
    film: PathBuf,
    /// The index to write; without it, the film's name with .usm-index, beside the film
    #[arg(long, short, value_name = "INDEX", value_hint = ValueHint::FilePath)]
    output: Option<PathBuf>,
    /// Replace the index if it is there
    #[arg(long)]
    force: bool,
    /// Do not wait until the index is on the disk
    #[arg(long)]
    no_sync: bool,
    /// Write a JSON object
    #[arg(long)]
    json: bool,
    /// Print errors only
    #[arg(long, short, conflicts_with = "json")]
    quiet: bool,
}

impl IndexFilm {
    pub fn run(self) -> Status {
        let options = RunOptions { json: self.json, ..RunOptions::default() };
        let source = Source::named(&self.film);
        let film = source.id;
        workers::run(&Run { options: &self, film }, &[source], &options)
    }

    fn target(&self) -> PathBuf {
        let beside = || self.film.parent().unwrap_or(Path::new("")).join(format!("{}.usm-index", stem(&self.film)));
        self.output.clone().unwrap_or_else(beside)
    }
}

/// The index of a film's video, by steps.
pub fn of(input: &mut Input, meter: &Meter) -> Result<Index, Error> {
    let index = input.reader(Reading::default().with_audio(Audio::None), meter)?.index()?;
    Ok(index)
}

/// The bytes of the video.
pub fn video_bytes(index: &Index) -> u64 {
    index.entries().next_back().map_or(0, |last| (last.place + last.length) as u64)
}

struct Run<'o> {
    options: &'o IndexFilm,
    film: Option<FileId>,
}

impl Task for Run<'_> {
    fn film<'a>(&'a self, film: Film<'a, '_>, turn: &Turn<'a, '_>) -> Result<(), Error> {
        let Film { label, input, meter, .. } = film;
        let index = of(input, meter)?;
        let stored = StoredIndex { film: FilmMark::of(input, meter)?, index };
        let target = self.options.target();
        let bytes = stored.to_bytes()?;
        self.write(&target, &bytes)?;
        let (payloads, video_bytes) = (stored.index.len() as u64, video_bytes(&stored.index));
        let mut printer = turn.take();
        if self.options.json {
            let path = target.as_os_str().as_encoded_bytes();
            let (path, path_hex) = (AsText(path), AsHex(path));
            let about = About::new("index", label);
            return printer.object(&Object { about, path, path_hex, bytes: bytes.len(), payloads, video_bytes });
        }
        if !self.options.quiet {
            let (file, target) = (Shown::path(label), Shown::path(&target));
            let payloads = counted(payloads, "video payload");
            print_to!(&mut *printer, "{file}: {payloads}, {} bytes: {target}\n", grouped(video_bytes));
        }
        Ok(())
    }
}

impl Run<'_> {
    fn write(&self, target: &Path, bytes: &[u8]) -> Result<(), Error> {
        let mut staged = StagedFiles::new(!self.options.no_sync);
        staged.write(target.to_path_buf(), bytes)?;
        let is_kept = |id: FileId| (self.film == Some(id)).then(|| "it is the film".to_string());
        staged.place(&Replacing { force: self.options.force, is_kept: &is_kept })?;
        Ok(())
    }
}

#[derive(Serialize)]
struct Object<'a> {
    #[serde(flatten)]
    about: About<'a>,
    path: AsText<'a>,
    path_hex: AsHex<'a>,
    bytes: usize,
    payloads: u64,
    video_bytes: u64,
}
