//! A film's outline and its two streams.

use std::fmt;

use crate::debug::Bytes;
use crate::error::make_room;
use crate::ffi::{self, FilmReply, Key};
use crate::{Audio, Error, Reading, Refusal};

/// What a film holds, without the bytes of its streams. The name is a part of the film.
#[derive(Clone, PartialEq, Eq)]
#[non_exhaustive]
pub struct Outline<'a> {
    /// The film's own name as it is stored: bytes of any encoding, perhaps empty, perhaps with slashes and zero bytes.
    /// `None` where it has none.
    pub name: Option<&'a [u8]>,
    pub video: Track<VideoKind>,
    /// `None` where the film has no audio. Audio that is present and not taken has size 0.
    pub audio: Option<Track<AudioKind>>,
}

/// What the header says of a stream, and its size.
#[derive(Clone, Copy, PartialEq, Eq, Debug)]
#[non_exhaustive]
pub struct Track<Kind> {
    /// The codec that the header gives.
    pub codec: Option<u32>,
    pub kind: Kind,
    /// The bytes of the stream.
    pub size: usize,
}

/// What a video stream is. As text it is the usual ending of a file's name.
#[derive(Clone, Copy, PartialEq, Eq, Hash, Debug)]
#[non_exhaustive]
pub enum VideoKind {
    M2v,
    Ivf,
}

/// What an audio stream is. As text it is the usual ending of a file's name.
#[derive(Clone, Copy, PartialEq, Eq, Hash, Debug)]
#[non_exhaustive]
pub enum AudioKind {
    Adx,
    Hca,
}

/// A film's streams, and its outline.
#[derive(Clone, PartialEq, Eq)]
#[non_exhaustive]
pub struct Film<'a> {
    pub outline: Outline<'a>,
    pub video: Vec<u8>,
    /// `None` where the film has no audio or it is not taken.
    pub audio: Option<Vec<u8>>,
}

/// What a film holds: name, codecs, kinds and sizes.
///
/// ```
/// use usm::{AudioKind, Reading};
///
/// let film = std::fs::read("tests/song.usm")?;
/// let outline = usm::outline(&film, Reading::default())?;
/// assert_eq!(outline.name, Some(&b"songs/lark.usm"[..]));
/// assert_eq!(outline.video.size, 1453);
/// assert_eq!(outline.audio.unwrap().kind, AudioKind::Adx);
/// # Ok::<(), Box<dyn std::error::Error>>(())
/// ```
pub fn outline(film: &[u8], reading: Reading) -> Result<Outline<'_>, Refusal> {
    let sizes = sizes(film, reading)?;
    // All bytes always settle what a film is.
    let outline = accepted(film, ffi::open(film, film.len(), reading.for_c()).film)?;
    Ok(outline.with_sizes(sizes))
}

impl Outline<'_> {
    fn with_sizes(mut self, [video, audio]: [usize; 2]) -> Self {
        self.video.size = video;
        if let Some(track) = &mut self.audio {
            track.size = audio;
        }
        self
    }
}

/// Extracts both streams of a film: unmasked under a key, or as they are stored without one.
///
/// ```
/// use usm::Reading;
///
/// let film = std::fs::read("tests/song.usm")?;
/// let song = usm::extract(&film, Reading::default(), Some(0x0123456789ABCDEF))?;
/// assert_eq!(song.video, std::fs::read("tests/song.video")?);
/// assert_eq!(song.audio.as_deref(), Some(&std::fs::read("tests/song.audio")?[..]));
/// assert_eq!(song.outline.video.kind.to_string(), "m2v");
/// # Ok::<(), Box<dyn std::error::Error>>(())
/// ```
pub fn extract(film: &[u8], reading: Reading, key: Option<u64>) -> Result<Film<'_>, Error> {
    let (mut video, mut audio) = (Vec::new(), Vec::new());
    let outline = extract_into(film, reading, key, &mut video, &mut audio)?;
    let takes_audio = outline.audio.is_some() && reading.audio != Audio::None;
    Ok(Film { outline, video, audio: takes_audio.then_some(audio) })
}

/// Extracts both streams of a film into two vectors, whose contents they replace. Where the film is refused both stay
/// as they are. A vector that has room enough keeps it, so that one pair serves many films.
///
/// ```
/// use usm::Reading;
///
/// let (mut video, mut audio) = (Vec::new(), Vec::new());
/// for path in ["tests/song.usm", "tests/f.usm"] {
///     let film = std::fs::read(path)?;
///     usm::extract_into(&film, Reading::default(), None, &mut video, &mut audio)?;
///     println!("{path}: {} and {} bytes", video.len(), audio.len());
/// }
/// # assert_eq!((video.len(), audio.len()), (32, 0));
/// # Ok::<(), Box<dyn std::error::Error>>(())
/// ```
pub fn extract_into<'a>(
    film: &'a [u8],
    reading: Reading,
    key: Option<u64>,
    video: &mut Vec<u8>,
    audio: &mut Vec<u8>,
) -> Result<Outline<'a>, Error> {
    let [video_size, audio_size] = sizes(film, reading)?;
    make_room(video, video_size)?;
    make_room(audio, audio_size)?;
    let key = Key { number: key.unwrap_or(0), given: key.is_some().into() };
    Ok(accepted(film, ffi::extract(film, reading.for_c(), key, video, audio))?)
}

/// The sizes of both streams, video first. It costs a walk over the film's chunks.
///
/// ```
/// let film = std::fs::read("tests/song.usm")?;
/// assert_eq!(usm::sizes(&film, usm::Reading::default())?, [1453, 736]);
/// # Ok::<(), Box<dyn std::error::Error>>(())
/// ```
pub fn sizes(film: &[u8], reading: Reading) -> Result<[usize; 2], Refusal> {
    let reply = ffi::measure(film, reading.for_c());
    if reply.number != SHORT_OUTPUT {
        Refusal::check(reply.number, reply.refused_at, reply.unknown_type)?;
    }
    Ok([reply.video_size, reply.audio_size])
}

/// The number of outputs that are too short; the reply has their sizes then, and nothing else.
const SHORT_OUTPUT: u8 = 12;

/// The number of a name that is a part of the film.
const NAME_IN_FILM: u8 = 0;

fn accepted(film: &[u8], reply: FilmReply) -> Result<Outline<'_>, Refusal> {
    Refusal::check(reply.number, reply.refused_at, reply.unknown_type)?;
    let name = (reply.name_source == NAME_IN_FILM).then(|| &film[reply.name_start..][..reply.name_length]);
    let video = Track {
        codec: (reply.has_video_codec != 0).then_some(reply.video_codec),
        kind: VideoKind::of(reply.video_kind),
        size: reply.video_size,
    };
    let audio = Track {
        codec: (reply.has_audio_codec != 0).then_some(reply.audio_codec),
        kind: AudioKind::of(reply.audio_kind),
        size: reply.audio_size,
    };
    Ok(Outline { name, video, audio: (reply.has_audio != 0).then_some(audio) })
}

impl fmt::Debug for Outline<'_> {
    fn fmt(&self, f: &mut fmt::Formatter) -> fmt::Result {
        f.debug_struct("Outline")
            .field("name", &self.name.map(Bytes))
            .field("video", &self.video)
            .field("audio", &self.audio)
            .finish()
    }
}

impl fmt::Debug for Film<'_> {
    fn fmt(&self, f: &mut fmt::Formatter) -> fmt::Result {
        f.debug_struct("Film")
            .field("outline", &self.outline)
            .field("video", &Bytes(&self.video))
            .field("audio", &self.audio.as_deref().map(Bytes))
            .finish()
    }
}

impl VideoKind {
    pub(crate) fn of(number: u8) -> VideoKind {
        if number == 0 { VideoKind::M2v } else { VideoKind::Ivf }
    }
}

impl AudioKind {
    pub(crate) fn of(number: u8) -> AudioKind {
        if number == 0 { AudioKind::Adx } else { AudioKind::Hca }
    }
}

impl fmt::Display for VideoKind {
    fn fmt(&self, f: &mut fmt::Formatter) -> fmt::Result {
        f.pad(match self {
            VideoKind::M2v => "m2v",
            VideoKind::Ivf => "ivf",
        })
    }
}

impl fmt::Display for AudioKind {
    fn fmt(&self, f: &mut fmt::Formatter) -> fmt::Result {
        f.pad(match self {
            AudioKind::Adx => "adx",
            AudioKind::Hca => "hca",
        })
    }
}
