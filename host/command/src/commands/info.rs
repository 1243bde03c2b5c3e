//! `usm info`: what films hold.

use std::collections::BTreeMap;
use std::path::Path;
use std::time::Duration;

use clap::Args;
use serde::Serialize;
use usm::{AudioDetails, ChunkHead, ChunkKind, Format, Header, Reader, VideoDetails};

use crate::options::reading::ReadingOptions;
use crate::output::json::{About, AsHex, AsText, Number};
use crate::output::media;
use crate::output::text::{CUT, Shown};
use crate::output::{Error, Status};
use crate::output::{Output, print_to, report_error};
use crate::run::input::Input;
use crate::run::progress::Meter;
use crate::run::sources::Films;
use crate::run::workers::{self, Film, Task, Turn};

/// Say what films hold
///
/// Name, codecs, kinds, sizes, the chunks by kind and channel, whether any payload can show a key, and whether each
/// stream is closed by its end chunk. A film that was cut at a chunk's start is accepted, and unclosed. Below a stream
/// stands what else the header says of it: width and height, rates, frames or samples, and the duration by these. It is
/// not compared with the stream.
#[derive(Args)]
pub struct Info {
    #[command(flatten)]
    films: Films,
    #[command(flatten)]
    reading: ReadingOptions,
}

impl Info {
    pub fn run(self) -> Status {
        match self.films.sources() {
            Ok(sources) => workers::run(&self, &sources, &self.films.options),
            Err(error) => report_error(error),
        }
    }
}

impl Task for Info {
    fn film<'a>(&'a self, film: Film<'a, '_>, turn: &Turn<'a, '_>) -> Result<(), Error> {
        let Film { label, input, meter, .. } = film;
        let mut reader = input.reader(self.reading.reading(), meter)?;
        let facts = Facts::of(&mut reader, meter)?;
        reader.get_ref().check_end()?;
        let report = Report { label, bytes: reader.total(), header: reader.header(), facts };
        let mut printer = turn.take();
        if self.films.options.json { printer.object(&Object::of(&report)) } else { report.print(&mut printer) }
    }
}

/// What is printed of a film.
struct Report<'a> {
    label: &'a Path,
    bytes: usize,
    header: &'a Header,
    facts: Facts,
}

/// What the chunks say of a film.
struct Facts {
    /// How many chunks of a kind and channel there are, and the bytes of their payloads.
    counts: BTreeMap<(ChunkKind, u8), (usize, usize)>,
    video: StreamFacts,
    audio: StreamFacts,
}

#[derive(Clone, Copy)]
struct StreamFacts {
    size: usize,
    end: End,
    /// The start of the first chunk whose payload another key would change.
    shows_key: Option<usize>,
}

/// How a stream ends.
#[derive(Clone, Copy, PartialEq)]
enum End {
    /// Its last chunk is an end chunk.
    Closed,
    /// It has an end chunk, and others after it.
    GoesOn,
    /// It has no end chunk.
    Missing,
}

impl Facts {
    fn of(reader: &mut Reader<&mut Input>, meter: &Meter) -> Result<Facts, Error> {
        let mut facts = Facts { counts: BTreeMap::new(), video: StreamFacts::NONE, audio: StreamFacts::NONE };
        while let Some(chunk) = reader.next_chunk()? {
            let (count, bytes) = facts.counts.entry((chunk.kind, chunk.channel)).or_default();
            *count += 1;
            *bytes += chunk.length;
            match &chunk.letters {
                b"@SFV" => facts.video.add(&chunk),
                b"@SFA" => facts.audio.add(&chunk),
                _ => {}
            }
            meter.reach(reader.place());
        }
        Ok(facts)
    }
}

impl StreamFacts {
    const NONE: StreamFacts = StreamFacts { size: 0, end: End::Missing, shows_key: None };

    fn add(&mut self, chunk: &ChunkHead) {
        self.end = match (chunk.kind, self.end) {
            (ChunkKind::End, _) => End::Closed,
            (_, End::Missing) => End::Missing,
            _ => End::GoesOn,
        };
        if matches!(chunk.kind, ChunkKind::Video | ChunkKind::Audio) {
            self.size += chunk.length;
        }
        if self.shows_key.is_none() && chunk.mask.key_bits(chunk.length) != 0 {
            self.shows_key = Some(chunk.start);
        }
    }
}

impl Report<'_> {
    fn print(&self, output: &mut Output) -> Result<(), Error> {
        let Report { label, bytes, header, facts } = self;
        output.gap()?;
        print_to!(output, "{}\n", Shown::path(label));
        match header.name.as_deref() {
            Some(name) if name.len() > CUT => {
                print_to!(output, "name    {} {} bytes\n", Shown::cut(name), name.len())
            }
            Some(name) => print_to!(output, "name    {}\n", Shown::bytes(name)),
            None => print_to!(output, "name    none\n"),
        }
        print_to!(output, "bytes   {bytes}\n");
        let video = stream(&header.video, media::video_codec, facts.video);
        print_stream("video", &video, media::video(&header.details.video), output)?;
        match &header.audio {
            Some(format) => {
                let audio = stream(format, media::audio_codec, facts.audio);
                print_stream("audio", &audio, media::audio(&header.details.audio), output)?;
            }
            None => print_to!(output, "audio   none\n"),
        }
        print_to!(output, "key     {}\n", shows(facts.video.shows_key, facts.audio.shows_key));
        facts.print_counts(output)
    }
}

impl Facts {
    fn print_counts(&self, output: &mut Output) -> Result<(), Error> {
        let mut heading = "chunks";
        for ((kind, channel), (count, bytes)) in &self.counts {
            print_to!(output, "{heading:<6}  {kind:<5}  channel {channel}: {count}, {bytes} bytes\n");
            heading = "";
        }
        if self.counts.is_empty() {
            print_to!(output, "chunks  none\n");
        }
        Ok(())
    }
}

/// A line on a stream, and one on what else the header says of it.
fn print_stream(name: &str, stream: &str, details: Option<String>, output: &mut Output) -> Result<(), Error> {
    print_to!(output, "{name}   {stream}\n");
    if let Some(details) = details {
        print_to!(output, "        {details}\n");
    }
    Ok(())
}

/// The name of a codec, where it is known.
type CodecName = fn(u32) -> Option<&'static str>;

fn stream<Kind: std::fmt::Display>(format: &Format<Kind>, name: CodecName, facts: StreamFacts) -> String {
    let codec = match format.codec.map(|codec| (codec, name(codec))) {
        Some((codec, Some(name))) => format!("codec {codec} ({name})"),
        Some((codec, None)) => format!("codec {codec}"),
        None => "no codec".to_string(),
    };
    let end = match facts.end {
        End::Closed => "closed",
        End::GoesOn => "unclosed: it goes on after its end chunk",
        End::Missing => "unclosed: it has no end chunk",
    };
    format!("{}, {codec}, {} bytes, {end}", format.kind, facts.size)
}

fn shows(video: Option<usize>, audio: Option<usize>) -> String {
    match (video, audio) {
        (Some(video), Some(audio)) => {
            format!("matters: in video from the chunk at {video}, in audio from the chunk at {audio}")
        }
        (Some(video), None) => format!("matters: in video alone, from the chunk at {video}"),
        (None, Some(audio)) => format!("matters: in audio alone, from the chunk at {audio}"),
        (None, None) => "does not matter: every payload is the same under all keys".to_string(),
    }
}

#[derive(Serialize)]
struct Object<'a> {
    #[serde(flatten)]
    about: About<'a>,
    bytes: usize,
    name: Option<AsText<'a>>,
    name_hex: Option<AsHex<'a>>,
    video: Stream<VideoObject>,
    audio: Option<Stream<AudioObject>>,
    shows_key: bool,
    chunks: Vec<Group>,
}

#[derive(Serialize)]
struct Stream<Details> {
    codec: Option<u32>,
    #[serde(skip_serializing_if = "Option::is_none")]
    codec_name: Option<&'static str>,
    format: String,
    bytes: usize,
    closed: bool,
    shows_key_at: Option<usize>,
    #[serde(flatten)]
    details: Details,
}

/// What else the header says of the video, where it does.
#[derive(Serialize)]
struct VideoObject {
    #[serde(skip_serializing_if = "Option::is_none")]
    width: Option<Number>,
    #[serde(skip_serializing_if = "Option::is_none")]
    height: Option<Number>,
    #[serde(skip_serializing_if = "Option::is_none")]
    frame_rate: Option<String>,
    #[serde(skip_serializing_if = "Option::is_none")]
    frames: Option<Number>,
    #[serde(skip_serializing_if = "Option::is_none")]
    duration_ms: Option<Number>,
}

/// The same of the audio.
#[derive(Serialize)]
struct AudioObject {
    #[serde(skip_serializing_if = "Option::is_none")]
    sampling_rate: Option<Number>,
    #[serde(skip_serializing_if = "Option::is_none")]
    sound_channels: Option<Number>,
    #[serde(skip_serializing_if = "Option::is_none")]
    samples: Option<Number>,
    #[serde(skip_serializing_if = "Option::is_none")]
    duration_ms: Option<Number>,
}

#[derive(Serialize)]
struct Group {
    kind: String,
    channel: u8,
    count: usize,
    bytes: usize,
}

impl<'a> Object<'a> {
    fn of(report: &'a Report) -> Object<'a> {
        let Report { label, bytes, header, facts } = report;
        Object {
            about: About::new("film", label),
            bytes: *bytes,
            name: header.name.as_deref().map(AsText),
            name_hex: header.name.as_deref().map(AsHex),
            video: Stream::of(&header.video, media::video_codec, facts.video, VideoObject::of(&header.details.video)),
            audio: header.audio.map(|format| {
                Stream::of(&format, media::audio_codec, facts.audio, AudioObject::of(&header.details.audio))
            }),
            shows_key: facts.video.shows_key.or(facts.audio.shows_key).is_some(),
            chunks: facts
                .counts
                .iter()
                .map(|((kind, channel), &(count, bytes))| Group {
                    kind: kind.to_string(),
                    channel: *channel,
                    count,
                    bytes,
                })
                .collect(),
        }
    }
}

impl<Details> Stream<Details> {
    fn of<Kind: std::fmt::Display>(
        format: &Format<Kind>,
        name: CodecName,
        facts: StreamFacts,
        details: Details,
    ) -> Stream<Details> {
        Stream {
            codec: format.codec,
            codec_name: format.codec.and_then(name),
            format: format.kind.to_string(),
            bytes: facts.size,
            closed: facts.end == End::Closed,
            shows_key_at: facts.shows_key,
            details,
        }
    }
}

impl VideoObject {
    fn of(details: &VideoDetails) -> VideoObject {
        VideoObject {
            width: details.width.map(Number),
            height: details.height.map(Number),
            frame_rate: details.frame_rate.map(|rate| format!("{}/{}", rate.numerator(), rate.denominator())),
            frames: details.frames.map(Number),
            duration_ms: details.duration().and_then(milliseconds),
        }
    }
}

impl AudioObject {
    fn of(details: &AudioDetails) -> AudioObject {
        AudioObject {
            sampling_rate: details.sampling_rate.map(Number),
            sound_channels: details.channels.map(Number),
            samples: details.samples.map(Number),
            duration_ms: details.duration().and_then(milliseconds),
        }
    }
}

fn milliseconds(duration: Duration) -> Option<Number> {
    duration.as_millis().try_into().ok().map(Number)
}
