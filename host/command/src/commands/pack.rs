//! `usm pack`: streams into a film.

use std::ffi::OsString;
use std::fs::File;
use std::io::{self, IsTerminal};
use std::os::fd::AsFd;
use std::os::unix::ffi::OsStrExt;
use std::path::PathBuf;

use clap::{Args, ValueHint};
use serde::Serialize;
use usm::Lengths;

use crate::files::identity::FileId;
use crate::files::staged::{Replacing, StagedFiles};
use crate::options::codecs::Codecs;
use crate::options::key::KeyOptions;
use crate::output::json::{About, FailedFilm};
use crate::output::text::Shown;
use crate::output::{Error, Status};
use crate::output::{Output, print_to, report, report_error, write_all};
use crate::run::packing::OpenStreams;
use crate::run::progress::{Meter, Progress};
use crate::run::sources::{Origin, Source};

/// Pack streams into a film
///
/// The film has the video and, where it is named, the audio, and is masked under the key. `usm extract` with the same
/// key gives both back. The streams are clear: as extract writes them with a key. A film appears whole or not at all.
///
/// A film has a name of its own, by default that of its file, and none on standard output. Without a codec it says none; audio is masked where its
/// codec is 2.
#[derive(Args)]
pub struct Pack {
    /// The video stream, or - for standard input
    #[arg(value_name = "VIDEO", value_hint = ValueHint::FilePath)]
    video: PathBuf,
    /// The audio stream, or - for standard input
    #[arg(value_name = "AUDIO", value_hint = ValueHint::FilePath)]
    audio: Option<PathBuf>,
    /// The film to write, or - for standard output
    #[arg(long, short, value_name = "FILM", required = true, value_hint = ValueHint::FilePath)]
    output: PathBuf,
    /// The film's own name
    #[arg(long, value_name = "NAME")]
    name: Option<OsString>,
    #[command(flatten)]
    codecs: Codecs,
    #[command(flatten)]
    key: KeyOptions,
    /// Replace the film if it is there
    #[arg(long)]
    force: bool,
    /// Do not wait until the film is on the disk
    #[arg(long)]
    no_sync: bool,
    /// Write a JSON object
    #[arg(long, conflicts_with = "quiet")]
    json: bool,
    /// Print errors only
    #[arg(long, short)]
    quiet: bool,
}

impl Pack {
    pub fn run(self) -> Status {
        let key = match self.key.key() {
            Ok(key) => key,
            Err(error) => return report_error(error),
        };
        let (video, audio) = (Source::named(&self.video), self.audio.as_deref().map(Source::named));
        let is_input = |source: &Source| source.origin == Origin::StandardInput;
        if is_input(&video) && audio.as_ref().is_some_and(is_input) {
            return report(Status::Failed, "standard input can't be both streams");
        }
        let total: Option<u64> = std::iter::once(&video).chain(&audio).map(|source| source.length).sum();
        let progress = Progress::new(total);
        let meter = Meter::new(&progress, self.readings(), total.unwrap_or(0));
        let packed = OpenStreams::open(&video, audio.as_ref(), &meter).and_then(|streams| self.pack(key, streams));
        drop(meter);
        progress.end();
        match packed {
            Ok(_) if self.is_to_output() => Status::Success,
            Ok(sizes) => write_all(|output| self.print(&sizes, output)),
            Err(error) => self.fail(error),
        }
    }

    /// Reads the streams while it writes the film, which gets its name when it is complete.
    fn pack(&self, key: Option<u64>, mut streams: OpenStreams) -> Result<Sizes, Error> {
        let lengths = streams.lengths(self.name()).with_codecs(self.codecs.video_codec, self.codecs.audio_codec);
        lengths.check()?;
        let film = if self.is_to_output() {
            print_film(&mut streams, lengths, key)?
        } else {
            self.write_film(&mut streams, lengths, key)?
        };
        Ok(Sizes { film, video: lengths.video, audio: lengths.audio })
    }

    /// Writes the film to its file. Where that fails nothing is left of it.
    fn write_film(&self, streams: &mut OpenStreams, lengths: Lengths, key: Option<u64>) -> Result<u64, Error> {
        let mut staged = StagedFiles::new(!self.no_sync);
        let ids = streams.ids();
        let is_kept = |id: FileId| ids.contains(&id).then(|| "it is one of the streams".to_string());
        let replacing = Replacing { force: self.force, is_kept: &is_kept };
        staged.check(&self.output, &replacing)?;
        let file = staged.create(self.output.clone())?;
        let size = streams.pack(lengths, key, file, |error| Error::with(&self.output, error))?;
        staged.place(&replacing)?;
        Ok(size)
    }

    /// How often the streams are read.
    fn readings(&self) -> u64 {
        if self.is_to_output() { 2 } else { 1 }
    }

    /// Whether the film goes to standard output, where nothing else is printed then.
    fn is_to_output(&self) -> bool {
        self.output.as_os_str() == "-"
    }

    /// The film's own name: as it is given, or that of its file.
    fn name(&self) -> &[u8] {
        let own = self.name.as_deref().or(self.output.file_name().filter(|_| !self.is_to_output()));
        own.map_or(b"", OsStrExt::as_bytes)
    }

    fn print(&self, sizes: &Sizes, output: &mut Output) -> Result<(), Error> {
        if self.json {
            return output.object(&Packed { about: About::new("packed", &self.output), sizes });
        }
        if !self.quiet {
            let audio = sizes.audio.map_or("no audio".to_string(), |audio| format!("audio {audio}"));
            let Sizes { film, video, .. } = sizes;
            print_to!(output, "{}: {film} bytes, video {video}, {audio}\n", Shown::path(&self.output));
        }
        Ok(())
    }

    fn fail(&self, error: Error) -> Status {
        let printed =
            write_all(|output| if self.json { output.object(&FailedFilm::new(&self.output, &error)) } else { Ok(()) });
        let status = match error {
            Error::Refused(refusal) => report(Status::Refused, &format!("{}: {refusal}", Shown::path(&self.output))),
            error => report_error(error),
        };
        status.max(printed)
    }
}

/// Writes the film to standard output, which must not be a terminal. Nothing can be taken back there, so that all payloads
/// are looked at before: the streams are read twice.
fn print_film(streams: &mut OpenStreams, lengths: Lengths, key: Option<u64>) -> Result<u64, Error> {
    streams.pack(lengths, None, io::sink(), Error::Output)?;
    let output = io::stdout();
    if output.is_terminal() {
        return Err(Error::System("standard output is a terminal: a film is not for it".to_string()));
    }
    // The film's pieces are long, and lines are nothing to it: they go to the file as they are.
    let file = output.as_fd().try_clone_to_owned().map(File::from).map_err(Error::Output)?;
    streams.pack(lengths, key, file, Error::Output)
}

#[derive(Serialize)]
struct Sizes {
    #[serde(rename = "bytes")]
    film: u64,
    #[serde(rename = "video_bytes")]
    video: usize,
    #[serde(rename = "audio_bytes")]
    audio: Option<usize>,
}

#[derive(Serialize)]
struct Packed<'a> {
    #[serde(flatten)]
    about: About<'a>,
    #[serde(flatten)]
    sizes: &'a Sizes,
}
