//! The original's extraction and its walk over the chunks, in the words of the rules.

use std::io::{Cursor, ErrorKind, Read, Seek, SeekFrom};

use oracle::reader::Reader;
use oracle::usm::extractor::{ExtractedUsmStream, UsmError, access, extract_usm_to_memory};

use super::answer::{Chunk, Kind, Refusal, Tracks};
use super::watch::Watched;
use crate::panics::caught;

/// All that the original tells of a film.
pub struct Film {
    pub header: Header,
    /// `m2v` or `ivf`, `adx` or `hca`.
    pub video_kind: String,
    pub audio_kind: String,
    pub video: Vec<u8>,
    /// Empty where there is none or it is not chosen.
    pub audio: Vec<u8>,
    pub chunks: Vec<Chunk>,
}

pub struct Header {
    pub name: Vec<u8>,
    pub tracks: Tracks,
}

pub enum Answer {
    Accepted(Film),
    Refused(Refusal),
    /// With these words, and the start of the block read last.
    Panicked(String, u64),
}

/// What the original makes of a container. It panics where a difference overflows.
pub fn extract(container: &[u8], audio: bool, key: Option<u64>, fallback: &[u8]) -> Answer {
    let mut watched = Watched::new(container);
    match caught(|| extract_usm_to_memory(&mut watched, fallback, key, audio)) {
        Ok(Ok(streams)) => Answer::Accepted(film(container, audio, fallback, streams)),
        Ok(Err(error)) => Answer::Refused(refusal(&error, watched.block())),
        Err(what) => Answer::Panicked(what, watched.block()),
    }
}

/// The header of a container alone, as a film without chunks.
pub fn without_chunks(container: &[u8], fallback: &[u8]) -> Result<Film, Refusal> {
    let mut watched = Watched::new(container);
    let header = read_header(&mut Reader::new(&mut watched), fallback);
    let header = header.map_err(|error| refusal(&error, watched.block()))?;
    let video_kind = access::video_ext(header.tracks.video_codec).to_string();
    let audio_kind = access::audio_ext(header.tracks.audio_codec).to_string();
    Ok(Film { header, video_kind, audio_kind, video: Vec::new(), audio: Vec::new(), chunks: Vec::new() })
}

fn read_header<R: Read + Seek>(reader: &mut Reader<R>, fallback: &[u8]) -> Result<Header, UsmError> {
    let (name, has_audio, video_codec, audio_codec) = access::parse_usm_header(reader, fallback)?;
    Ok(Header { name, tracks: Tracks { has_audio, video_codec, audio_codec } })
}

/// The streams of an accepted container, with its header and chunks. Video comes first; there is audio where it is
/// present and chosen.
fn film(container: &[u8], audio: bool, fallback: &[u8], streams: Vec<ExtractedUsmStream>) -> Film {
    let mut reader = Reader::new(Cursor::new(container));
    let header = read_header(&mut reader, fallback).expect("the header of an accepted container");
    let takes_audio = header.tracks.has_audio && audio;
    let chunks = chunks(container, &mut reader, takes_audio).expect("the chunks of an accepted container");
    let mut streams = streams.into_iter();
    let video = streams.next().expect("a video stream");
    let (audio_kind, audio) = match streams.next() {
        Some(stream) => (stream.extension, stream.data),
        None => (access::audio_ext(header.tracks.audio_codec).to_string(), Vec::new()),
    };
    Film { header, video_kind: video.extension, audio_kind, video: video.data, audio, chunks }
}

/// A walk by the original's `read_chunk_header` from where the header ends.
fn chunks(container: &[u8], reader: &mut Reader<Cursor<&[u8]>>, takes_audio: bool) -> Result<Vec<Chunk>, UsmError> {
    let mut chunks = Vec::new();
    let mut place = reader.stream_position()?;
    while let Some(header) = access::read_chunk_header(reader, place)? {
        let channel = container[place as usize + 12];
        chunks.push(Chunk { channel, ..chunk(place, &header, takes_audio) });
        place = reader.seek(SeekFrom::Start(header.next))?;
    }
    Ok(chunks)
}

fn chunk(start: u64, header: &access::Chunk, takes_audio: bool) -> Chunk {
    let (kind, taken) = match &header.letters {
        _ if header.is_end => (Kind::End, false),
        b"@SFV" => (Kind::Video, true),
        b"@SFA" => (Kind::Audio, takes_audio),
        _ => (Kind::Other, false),
    };
    let length = if taken { header.payload_length() as u64 } else { 0 };
    Chunk { start, kind, data_type: header.data_type, channel: 0, length }
}

/// The rules' number for an error of the original.
fn refusal(error: &UsmError, place: u64) -> Refusal {
    let number = match error {
        UsmError::Io(error) if error.kind() == ErrorKind::UnexpectedEof => 1,
        UsmError::InvalidCridSignature => 2,
        UsmError::InvalidUtfSignature => 3,
        UsmError::ExpectedSignature(letters) if letters == "@SFV" => 4,
        UsmError::ExpectedSignature(letters) if letters == "@SFA" => 5,
        UsmError::ExpectedMarker(marker) if marker == "#HEADER END" => 6,
        UsmError::ExpectedMarker(marker) if marker == "#METADATA END" => 7,
        UsmError::UnknownColumnType(column_type) => return Refusal { number: 8, place, column_type: *column_type },
        error => panic!("no container gives this error: {error}"),
    };
    Refusal::new(number, place)
}
