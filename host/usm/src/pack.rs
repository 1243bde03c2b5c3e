//! Streams packed into a film.

use std::fmt;
use std::io::{Read, Write};

use crate::chunks::kind_of;
use crate::debug::Bytes;
use crate::error::make_room;
use crate::ffi::{self, Key, SizeReply};
use crate::sized::{check, fill, filled, size_of};
use crate::{ChunkKind, Error, Refusal};

/// The streams of a film to be written, and what its header says of them.
#[derive(Clone, Copy, PartialEq, Eq, Default)]
#[non_exhaustive]
pub struct Streams<'a> {
    /// The film's name: bytes of any encoding.
    pub name: &'a [u8],
    pub video: &'a [u8],
    /// Audio that is there may be empty.
    pub audio: Option<&'a [u8]>,
    /// The codecs that the header gives. Audio is masked where its codec is 2, ADX.
    pub video_codec: Option<u32>,
    pub audio_codec: Option<u32>,
}

impl<'a> Streams<'a> {
    /// Video alone, under a name.
    pub fn new(name: &'a [u8], video: &'a [u8]) -> Streams<'a> {
        Streams { name, video, ..Streams::default() }
    }

    /// The same, with audio.
    pub fn with_audio(self, audio: &'a [u8]) -> Streams<'a> {
        Streams { audio: Some(audio), ..self }
    }

    /// The same, with the codecs of video and audio.
    pub fn with_codecs(self, video_codec: Option<u32>, audio_codec: Option<u32>) -> Streams<'a> {
        Streams { video_codec, audio_codec, ..self }
    }

    fn write(self, key: Option<u64>, film: &mut Vec<u8>) -> SizeReply {
        let packing = packing(key, self.audio.is_some(), self.video_codec, self.audio_codec);
        ffi::write(self.name, self.video, self.audio.unwrap_or_default(), packing, film)
    }
}

impl fmt::Debug for Streams<'_> {
    fn fmt(&self, f: &mut fmt::Formatter) -> fmt::Result {
        f.debug_struct("Streams")
            .field("name", &Bytes(self.name))
            .field("video", &Bytes(self.video))
            .field("audio", &self.audio.map(Bytes))
            .field("video_codec", &self.video_codec)
            .field("audio_codec", &self.audio_codec)
            .finish()
    }
}

impl fmt::Debug for Lengths<'_> {
    fn fmt(&self, f: &mut fmt::Formatter) -> fmt::Result {
        f.debug_struct("Lengths")
            .field("name", &Bytes(self.name))
            .field("video", &self.video)
            .field("audio", &self.audio)
            .field("video_codec", &self.video_codec)
            .field("audio_codec", &self.audio_codec)
            .finish()
    }
}

fn packing(key: Option<u64>, audio: bool, video_codec: Option<u32>, audio_codec: Option<u32>) -> ffi::Packing {
    ffi::Packing {
        key: Key { number: key.unwrap_or(0), given: key.is_some().into() },
        video_codec: video_codec.unwrap_or(0),
        audio_codec: audio_codec.unwrap_or(0),
        has_audio: audio.into(),
        has_video_codec: video_codec.is_some().into(),
        has_audio_codec: audio_codec.is_some().into(),
    }
}

/// A film that is packed piece by piece: as [`Streams`], with the lengths of the streams in their place.
#[derive(Clone, Copy, PartialEq, Eq, Default)]
#[non_exhaustive]
pub struct Lengths<'a> {
    /// The film's name: bytes of any encoding.
    pub name: &'a [u8],
    pub video: usize,
    /// Audio that is there may be empty.
    pub audio: Option<usize>,
    /// The codecs that the header gives. Audio is masked where its codec is 2, ADX.
    pub video_codec: Option<u32>,
    pub audio_codec: Option<u32>,
}

impl<'a> Lengths<'a> {
    /// Video alone, under a name.
    pub fn new(name: &'a [u8], video: usize) -> Lengths<'a> {
        Lengths { name, video, ..Lengths::default() }
    }

    /// The same, with audio.
    pub fn with_audio(self, audio: usize) -> Lengths<'a> {
        Lengths { audio: Some(audio), ..self }
    }

    /// The same, with the codecs of video and audio.
    pub fn with_codecs(self, video_codec: Option<u32>, audio_codec: Option<u32>) -> Lengths<'a> {
        Lengths { video_codec, audio_codec, ..self }
    }

    /// What [`pack_to`] refuses before it reads or writes a byte: lengths, name and codecs that make no film.
    pub fn check(self) -> Result<(), Refusal> {
        size_of(|header| self.open(None, header)).map(|_| ())
    }

    fn open(self, key: Option<u64>, header: &mut Vec<u8>) -> SizeReply {
        ffi::write_open(self.name, self.video, self.audio.unwrap_or(0), self.packing(key), header)
    }

    fn packing(self, key: Option<u64>) -> ffi::Packing {
        packing(key, self.audio.is_some(), self.video_codec, self.audio_codec)
    }
}

/// Packs streams into a film: masked under a key, or as they are without one. [`extract`](crate::extract) under the same
/// key gives name, codecs and streams back (proved).
///
/// ```
/// use usm::{Reading, Streams};
///
/// let film = std::fs::read("tests/song.usm")?;
/// let key = Some(0x0123456789ABCDEF);
/// let song = usm::extract(&film, Reading::default(), key)?;
///
/// let streams = Streams::new(b"lark.usm", &song.video).with_audio(song.audio.as_deref().unwrap()).with_codecs(Some(1), Some(2));
/// let packed = usm::pack(streams, key)?;
/// assert_eq!(usm::extract(&packed, Reading::default(), key)?.video, song.video);
///
/// // A payload that begins with the mark of an end would be lost.
/// let error = usm::pack(Streams::new(b"", b"#CONTENTS END"), None).unwrap_err();
/// assert_eq!(error.refusal().unwrap().reason, usm::Reason::MarkedPayload);
/// # Ok::<(), Box<dyn std::error::Error>>(())
/// ```
pub fn pack(streams: Streams, key: Option<u64>) -> Result<Vec<u8>, Error> {
    filled(|film| streams.write(key, film))
}

/// The same into a vector, whose contents the film replaces. Where it is refused the vector stays as it is.
pub fn pack_into(streams: Streams, key: Option<u64>, film: &mut Vec<u8>) -> Result<(), Error> {
    fill(film, |film| streams.write(key, film))
}

/// The bytes of the film that these streams make.
pub fn packed_size(streams: Streams) -> Result<usize, Refusal> {
    size_of(|film| streams.write(None, film))
}

/// Packs streams that are read into a film that is written, in the memory of one payload of 65,536 bytes, and gives how
/// many bytes were written. The film is that of [`pack`] for the same streams (proved of its pieces). As many bytes are
/// read of each stream as its length says, and audio only where it has one; a reader that ends before gives its error.
///
/// What is refused of the lengths, the name and the codecs is refused before a byte is written, and by [`Lengths::check`]. A
/// payload that begins with the mark of an end is refused when its turn comes: what was written by then is no film.
///
/// Header, ends and each chunk are written by one call each, and each payload is read by one: readers and writers need no
/// buffers of their own.
///
/// ```
/// use usm::{Lengths, Streams};
///
/// let (video, audio) = (vec![1; 100_000], vec![2; 70_000]);
/// let mut film = Vec::new();
/// let lengths = Lengths::new(b"lark.usm", video.len()).with_audio(audio.len());
/// let bytes = usm::pack_to(lengths, Some(7), &video[..], &audio[..], &mut film)?;
/// assert_eq!(bytes, film.len() as u64);
/// assert_eq!(film, usm::pack(Streams::new(b"lark.usm", &video).with_audio(&audio), Some(7))?);
/// # Ok::<(), Box<dyn std::error::Error>>(())
/// ```
pub fn pack_to(
    lengths: Lengths,
    key: Option<u64>,
    mut video: impl Read,
    mut audio: impl Read,
    mut film: impl Write,
) -> Result<u64, Error> {
    let packing = lengths.packing(key);
    let (video_len, audio_len) = (lengths.video, lengths.audio.unwrap_or(0));
    let mut written = 0;
    let mut put = |bytes: &[u8]| -> Result<(), Error> {
        written += bytes.len() as u64;
        Ok(film.write_all(bytes)?)
    };

    put(&filled(|header| lengths.open(key, header))?)?;
    // A chunk is written by one call: its payload is read to where it stands behind the head.
    let (mut head, mut chunk, mut turn) = ([0; ffi::HEAD_BYTES], Vec::new(), 0);
    loop {
        let next = ffi::write_chunk(video_len, audio_len, turn, packing, &mut head);
        if next.found != 1 {
            break;
        }
        let payload_end = head.len() + next.length;
        make_room(&mut chunk, payload_end + next.padding)?;
        chunk.resize(payload_end + next.padding, 0);
        chunk[..head.len()].copy_from_slice(&head);
        let payload = &mut chunk[head.len()..payload_end];
        match kind_of(next.kind) {
            ChunkKind::Video => video.read_exact(payload)?,
            _ => audio.read_exact(payload)?,
        }
        check(ffi::write_payload(packing.key.number, next.mask, payload))?;
        chunk[payload_end..].fill(0);
        put(&chunk)?;
        turn = next.next;
    }
    put(&filled(|ends| ffi::write_end(packing, ends))?)?;
    Ok(written)
}
