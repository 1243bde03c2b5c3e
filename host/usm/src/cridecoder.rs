//! The names and signatures of the crate cridecoder, for a program that calls it: one `use` line changes.
//!
//! ```
//! // use cridecoder::usm::extract_usm_to_memory;
//! use usm::cridecoder::extract_usm_to_memory;
//!
//! let film = std::fs::File::open("tests/song.usm")?;
//! let streams = extract_usm_to_memory(film, b"song", Some(0x0123456789ABCDEF), true)?;
//! assert_eq!((streams[0].name.as_str(), streams[0].extension.as_str()), ("lark", "m2v"));
//! assert_eq!(streams[1].data, std::fs::read("tests/song.audio")?);
//! # Ok::<(), Box<dyn std::error::Error>>(())
//! ```
//!
//! Where the original answers, the answer is the same. Where it panics or asks for memory that no machine has, this one
//! answers. docs/MIGRATING.md of the repository has the list.

use std::error::Error;
use std::fmt;
use std::io::{self, ErrorKind, Read, Seek};
use std::path::Path;

use encoding_rs::SHIFT_JIS;

use crate::debug::Bytes;
use crate::error::make_room;
use crate::{Audio, ChunkKind, Error as CallError, Reader, Reading, Reason, Refusal, Stream};

/// A stream of a film.
#[derive(Clone, PartialEq, Eq)]
pub struct ExtractedUsmStream {
    /// The film's name, decoded as Shift-JIS, without folders and ending.
    pub name: String,
    /// `m2v`, `ivf`, `adx` or `hca`.
    pub extension: String,
    /// The bytes of the stream.
    pub data: Vec<u8>,
}

impl fmt::Debug for ExtractedUsmStream {
    fn fmt(&self, f: &mut fmt::Formatter) -> fmt::Result {
        f.debug_struct("ExtractedUsmStream")
            .field("name", &self.name)
            .field("extension", &self.extension)
            .field("data", &Bytes(&self.data))
            .finish()
    }
}

/// Why a film has no streams.
#[derive(Debug)]
pub enum UsmError {
    /// The reader's own error; `UnexpectedEof` where the film's bytes run out; `InvalidData`, with the [`Refusal`]
    /// inside, where a size is too small, a table has over 64 columns or 256 rows, or the film is longer than 1 GiB;
    /// `OutOfMemory` where there is none for the film or its streams.
    Io(io::Error),
    /// There is no `CRID` at the start.
    InvalidCridSignature,
    /// There is no `@UTF` where a table begins.
    InvalidUtfSignature,
    /// These letters were expected.
    ExpectedSignature(String),
    /// This marker was expected.
    ExpectedMarker(String),
    /// A column type is unknown.
    UnknownColumnType(u8),
}

/// Extracts the streams of a film: video, and audio where the film has some and `export_audio` asks for it. The reader
/// is read from its start, its chunks first, then their payloads.
pub fn extract_usm_to_memory<R: Read + Seek>(
    mut usm: R,
    fallback_name: &[u8],
    key: Option<u64>,
    export_audio: bool,
) -> Result<Vec<ExtractedUsmStream>, UsmError> {
    usm.rewind()?;
    let audio = if export_audio { Audio::All } else { Audio::None };
    let mut film = Reader::new(usm, Reading::default().with_audio(audio))?;
    let [video, audio] = both_streams(&mut film, key)?;
    let header = film.header();
    let name = stem(header.name.as_deref().unwrap_or(fallback_name));
    let stream = |extension: String, data| ExtractedUsmStream { name: name.clone(), extension, data };
    let mut streams = vec![stream(header.video.kind.to_string(), video)];
    if let (Some(format), true) = (&header.audio, export_audio) {
        streams.push(stream(format.kind.to_string(), audio));
    }
    Ok(streams)
}

/// Video and audio of a film, each in a vector of just its size.
fn both_streams<R: Read + Seek>(film: &mut Reader<R>, key: Option<u64>) -> Result<[Vec<u8>; 2], CallError> {
    let mut sizes = [0; 2];
    for chunk in film.chunks() {
        let chunk = chunk?;
        match chunk.kind {
            ChunkKind::Video => sizes[0] += chunk.length,
            ChunkKind::Audio => sizes[1] += chunk.length,
            _ => {}
        }
    }
    film.rewind()?;
    let mut streams = [Vec::new(), Vec::new()];
    for (stream, size) in streams.iter_mut().zip(sizes) {
        make_room(stream, size)?;
    }
    while let Some(part) = film.next_part(key)? {
        let stream = match part.stream {
            Stream::Video => &mut streams[0],
            Stream::Audio => &mut streams[1],
        };
        // A reader that gives other bytes the second time could ask for more room than there is.
        make_room(stream, stream.len() + part.bytes.len())?;
        stream.extend_from_slice(part.bytes);
    }
    Ok(streams)
}

/// The name without folders and ending, as the original makes it.
fn stem(name: &[u8]) -> String {
    let (decoded, _, _) = SHIFT_JIS.decode(name);
    let stem = Path::new(&*decoded).file_stem().and_then(std::ffi::OsStr::to_str);
    stem.unwrap_or(&decoded).to_string()
}

impl From<io::Error> for UsmError {
    fn from(error: io::Error) -> UsmError {
        UsmError::Io(error)
    }
}

impl From<CallError> for UsmError {
    fn from(error: CallError) -> UsmError {
        match error {
            CallError::Refused(refusal) => refusal.into(),
            error => UsmError::Io(error.into()),
        }
    }
}

impl From<Refusal> for UsmError {
    fn from(refusal: Refusal) -> UsmError {
        match refusal.reason {
            Reason::RanOut => UsmError::Io(ErrorKind::UnexpectedEof.into()),
            Reason::NoFilm => UsmError::InvalidCridSignature,
            Reason::NoTable => UsmError::InvalidUtfSignature,
            Reason::NoVideo => UsmError::ExpectedSignature("@SFV".to_string()),
            Reason::NoAudio => UsmError::ExpectedSignature("@SFA".to_string()),
            Reason::NoHeaderEnd => UsmError::ExpectedMarker("#HEADER END".to_string()),
            Reason::NoMetadataEnd => UsmError::ExpectedMarker("#METADATA END".to_string()),
            Reason::UnknownType(column_type) => UsmError::UnknownColumnType(column_type),
            _ => UsmError::Io(io::Error::new(ErrorKind::InvalidData, refusal)),
        }
    }
}

impl fmt::Display for UsmError {
    fn fmt(&self, f: &mut fmt::Formatter) -> fmt::Result {
        match self {
            UsmError::Io(error) => write!(f, "IO error: {error}"),
            UsmError::InvalidCridSignature => f.write_str("invalid CRID signature"),
            UsmError::InvalidUtfSignature => f.write_str("invalid UTF signature"),
            UsmError::ExpectedSignature(letters) => write!(f, "expected {letters} signature"),
            UsmError::ExpectedMarker(marker) => write!(f, "expected {marker}"),
            UsmError::UnknownColumnType(column_type) => write!(f, "unknown column type: {column_type}"),
        }
    }
}

impl Error for UsmError {
    fn source(&self) -> Option<&(dyn Error + 'static)> {
        match self {
            UsmError::Io(error) => Some(error),
            _ => None,
        }
    }
}
