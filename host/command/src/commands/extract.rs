//! `usm extract`: both streams of films as files.

use std::cell::RefCell;
use std::collections::BTreeSet;
use std::path::{Path, PathBuf};

use clap::{Args, ValueEnum, ValueHint};
use serde::Serialize;
use usm::{Audio, ChunkKind, Header, Reader, Reading, Stream};

use crate::commands::extract_one;
use crate::files::names::NameOption;
use crate::files::targets::{Claim, OutputOptions, Targets};
use crate::options::key::KeyOptions;
use crate::options::reading::ReadingOptions;
use crate::output::json::{About, AsHex, AsText};
use crate::output::text::Shown;
use crate::output::{Error, Output, Status, print_to, report_error};
use crate::run::input::Input;
use crate::run::sources::Films;
use crate::run::streams;
use crate::run::workers::{self, Film, Task, Turn};

/// Extract the streams of films
///
/// A film becomes a file for its video and one for its audio, beside the film or in DIR. They have the film's own name,
/// made safe, or the file's where it has none, and end in m2v or ivf and in adx or hca. With a key the streams are
/// unmasked, without one they are as stored.
///
/// Both files are complete and on the disk before either gets its name, and if the second can't have it the first is
/// undone. So neither a full disk nor a file that is there nor a run that is stopped leaves half a file or half a pair. A
/// crash of the machine between the two names can. --force replaces regular files only, and loses none if it fails.
///
/// --video and --audio write the streams of one film to the files that they name; - is standard output.
#[derive(Args)]
pub struct Extract {
    #[command(flatten)]
    pub films: Films,
    #[command(flatten)]
    pub key: KeyOptions,
    /// Write the video of one film to FILE, or with - to standard output
    #[arg(long, value_name = "FILE", value_hint = ValueHint::FilePath, conflicts_with_all = ["output", "skip_existing", "json", "channels"])]
    pub video: Option<PathBuf>,
    /// Write the audio of one film to FILE, or with - to standard output
    #[arg(long, value_name = "FILE", value_hint = ValueHint::FilePath, conflicts_with_all = ["output", "skip_existing", "json", "channels", "no_audio"])]
    pub audio: Option<PathBuf>,
    /// What becomes of several channels of audio: joined in one file, or each in a file of its own, NAME.CHANNEL.adx
    #[arg(long, value_name = "HOW", value_enum, conflicts_with_all = ["channel", "no_audio"])]
    channels: Option<Channels>,
    #[command(flatten)]
    name: NameOption,
    #[command(flatten)]
    pub reading: ReadingOptions,
    #[command(flatten)]
    pub output: OutputOptions,
}

#[derive(Clone, Copy, PartialEq, ValueEnum)]
enum Channels {
    Joined,
    Each,
}

impl Extract {
    pub fn run(self) -> Status {
        if self.video.is_some() || self.audio.is_some() {
            return extract_one::run(&self);
        }
        let begin = || {
            let key = self.key.key()?;
            let sources = self.films.sources()?;
            let targets = Targets::new(&self.output, &sources)?;
            Ok((Extraction { key, reading: self.reading.reading(), targets, options: &self }, sources))
        };
        match begin() {
            Ok((extraction, sources)) => workers::run(&extraction, &sources, &self.films.options),
            Err(error) => report_error(error),
        }
    }
}

struct Extraction<'o> {
    options: &'o Extract,
    key: Option<u64>,
    reading: Reading,
    targets: Targets,
}

/// A file to be written.
struct StreamFile {
    path: PathBuf,
    stream: Stream,
    /// The channel that it takes; none where it takes all.
    channel: Option<u8>,
}

impl Task for Extraction<'_> {
    fn film<'a>(&'a self, film: Film<'a, '_>, turn: &Turn<'a, '_>) -> Result<(), Error> {
        let Film { label, input, meter, .. } = film;
        let mut reader = input.reader(self.reading, meter)?;
        let files = self.files(label, &mut reader)?;
        let paths: Vec<PathBuf> = files.iter().map(|file| file.path.clone()).collect();
        if turn.decide(|| self.targets.claim(label, &paths))? == Claim::Skip {
            turn.finish_in_turn(move |output| self.print_skipped(label, output));
            return Ok(());
        }
        let mut staged = self.targets.staged();
        for path in paths {
            staged.create(path)?;
        }
        let heard = RefCell::new(BTreeSet::new());
        let route = |stream: Stream, channel: u8| {
            if stream == Stream::Audio {
                heard.borrow_mut().insert(channel);
            }
            let is_for = |file: &StreamFile| file.stream == stream && file.channel.is_none_or(|own| own == channel);
            files.iter().position(is_for)
        };
        let sizes = streams::write(&mut reader, self.key, &route, &mut staged, meter)?;
        reader.get_ref().check_end()?;
        self.targets.place(label, staged)?;
        if let Some(note) = self.note(&heard.borrow(), reader.header()) {
            turn.note(&note);
        }
        if self.options.films.options.json {
            // The name, which may be as long as the film, stays where it is.
            let name = reader.header().name.as_deref();
            return turn.take().object(&Extracted::of(label, name, &files, &sizes));
        }
        turn.finish_in_turn(move |output| {
            if self.options.output.quiet { Ok(()) } else { print_files(label, &files, &sizes, output) }
        });
        Ok(())
    }
}

impl Extraction<'_> {
    /// The files of a film: that of the video, and those of audio which is taken.
    fn files(&self, label: &Path, reader: &mut Reader<&mut Input>) -> Result<Vec<StreamFile>, Error> {
        let name = self.options.name.of(label, reader.header());
        let file = |ending: String, stream: Stream, channel: Option<u8>| StreamFile {
            path: self.targets.target(label, &format!("{name}.{ending}")),
            stream,
            channel,
        };
        let mut files = vec![file(reader.header().video.kind.to_string(), Stream::Video, None)];
        let Some(kind) = self.audio_kind(reader.header()) else { return Ok(files) };
        match self.options.channels {
            Some(Channels::Each) => {
                let channels = channels_of(reader)?;
                files.extend(
                    channels.iter().map(|&channel| file(format!("{channel}.{kind}"), Stream::Audio, Some(channel))),
                );
            }
            _ => files.push(file(kind, Stream::Audio, None)),
        }
        Ok(files)
    }

    /// The ending of audio that is taken.
    fn audio_kind(&self, header: &Header) -> Option<String> {
        let format = header.audio.as_ref().filter(|_| self.reading.audio != Audio::None)?;
        Some(format.kind.to_string())
    }

    /// What a person may not expect of the audio, by the channels that were taken of it.
    fn note(&self, heard: &BTreeSet<u8>, header: &Header) -> Option<String> {
        if self.options.output.quiet || header.audio.is_none() {
            return None;
        }
        match self.reading.audio {
            Audio::Channel(channel) if heard.is_empty() => {
                Some(format!("no audio is of channel {channel}: the file is empty"))
            }
            Audio::All if self.options.channels.is_none() && heard.len() > 1 => Some(format!(
                "audio of {} channels is joined in one file; --channels each gives each its own",
                heard.len()
            )),
            _ => None,
        }
    }

    fn print_skipped(&self, label: &Path, output: &mut Output) -> Result<(), Error> {
        if self.options.films.options.json {
            return output.object(&Skipped { about: About::new("skipped", label), why: "its files are there" });
        }
        if !self.options.output.quiet {
            output.gap()?;
            print_to!(output, "{}\nskipped: its files are there\n", Shown::path(label));
        }
        Ok(())
    }
}

/// The channels of audio that is taken.
fn channels_of(reader: &mut Reader<&mut Input>) -> Result<BTreeSet<u8>, Error> {
    let mut channels = BTreeSet::new();
    while let Some(chunk) = reader.next_chunk()? {
        if chunk.kind == ChunkKind::Audio && chunk.length > 0 {
            channels.insert(chunk.channel);
        }
    }
    reader.rewind()?;
    Ok(channels)
}

/// The object of a film whose files are all there.
#[derive(Serialize)]
struct Skipped<'a> {
    #[serde(flatten)]
    about: About<'a>,
    why: &'static str,
}

fn print_files(label: &Path, files: &[StreamFile], sizes: &[usize], output: &mut Output) -> Result<(), Error> {
    output.gap()?;
    print_to!(output, "{}\n", Shown::path(label));
    for (file, size) in files.iter().zip(sizes) {
        let stream = if file.stream == Stream::Video { "video" } else { "audio" };
        print_to!(output, "{stream}  {size} bytes: {}\n", Shown::path(&file.path));
    }
    Ok(())
}

#[derive(Serialize)]
struct Extracted<'a> {
    #[serde(flatten)]
    about: About<'a>,
    name: Option<AsText<'a>>,
    name_hex: Option<AsHex<'a>>,
    video: Option<StreamObject<'a>>,
    audio: Option<StreamObject<'a>>,
    /// Where each channel has a file.
    #[serde(skip_serializing_if = "Vec::is_empty")]
    channels: Vec<StreamObject<'a>>,
}

#[derive(Serialize)]
struct StreamObject<'a> {
    path: AsText<'a>,
    path_hex: AsHex<'a>,
    bytes: usize,
    #[serde(skip_serializing_if = "Option::is_none")]
    channel: Option<u8>,
}

impl<'a> Extracted<'a> {
    fn of(label: &'a Path, name: Option<&'a [u8]>, files: &'a [StreamFile], sizes: &[usize]) -> Extracted<'a> {
        let mut extracted = Extracted {
            about: About::new("extracted", label),
            name: name.map(AsText),
            name_hex: name.map(AsHex),
            video: None,
            audio: None,
            channels: Vec::new(),
        };
        for (file, &size) in files.iter().zip(sizes) {
            let path = file.path.as_os_str().as_encoded_bytes();
            let object = StreamObject { path: AsText(path), path_hex: AsHex(path), bytes: size, channel: file.channel };
            match (file.stream, file.channel) {
                (Stream::Video, _) => extracted.video = Some(object),
                (Stream::Audio, None) => extracted.audio = Some(object),
                (Stream::Audio, Some(_)) => extracted.channels.push(object),
            }
        }
        extracted
    }
}
