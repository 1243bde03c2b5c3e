//! Where the streams of a film part under two keys, and why they do not.

use crate::reader::Mask;
use crate::{Reading, Refusal, Stream, ffi};

/// The first byte at which a film's streams differ under two keys.
#[derive(Clone, Copy, PartialEq, Eq, Hash, Debug)]
#[non_exhaustive]
pub struct Parting {
    pub stream: Stream,
    /// Its place in the stream.
    pub byte: usize,
    /// The start of its chunk in the film.
    pub chunk: usize,
    /// Its place in the chunk's payload.
    pub offset: usize,
}

/// Where the streams of a film part under two keys: the first byte that differs of the video, or of the audio where the
/// video is the same; `None` where both streams are (proved). No stream is unpacked.
///
/// ```
/// use usm::{Reading, Stream};
///
/// let film = std::fs::read("tests/song.usm")?;
/// let parting = usm::apart(&film, Reading::default(), 0x0123456789ABCDEF, 0)?.unwrap();
/// assert_eq!((parting.stream, parting.byte, parting.chunk), (Stream::Video, 128, 704));
/// assert_eq!(usm::apart(&film, Reading::default(), 0x0123456789ABCDEF, 0xFF23456789ABCDEF)?, None);
/// # Ok::<(), Box<dyn std::error::Error>>(())
/// ```
pub fn apart(film: &[u8], reading: Reading, one: u64, other: u64) -> Result<Option<Parting>, Refusal> {
    let reply = ffi::apart(film, reading.for_c(), one, other);
    Refusal::check(reply.number, reply.refused_at, reply.unknown_type)?;
    let stream = match reply.stream {
        1 => Stream::Video,
        2 => Stream::Audio,
        _ => return Ok(None),
    };
    Ok(Some(Parting { stream, byte: reply.byte, chunk: reply.chunk, offset: reply.offset }))
}

impl Mask {
    /// The first byte of a payload of this mask and length that differs under two keys, once it is clear; `None` where it
    /// is the same under both. The first chunk of the video, or else of the audio, that has one is the one that
    /// [`apart()`] names (proved).
    pub fn apart(self, length: usize, one: u64, other: u64) -> Option<usize> {
        Some(ffi::payload_apart(self.number(), length, one, other)).filter(|&byte| byte < length)
    }
}

/// Why two keys give the same streams of a film.
#[derive(Clone, Copy, PartialEq, Eq, Hash, Debug)]
#[non_exhaustive]
pub enum Why {
    /// They do not.
    Different,
    /// They are one key.
    OneKey,
    /// They differ only in bits that change no film.
    NeverCount,
    /// They differ in bits that count, and this film shows none of those.
    NotShown,
}

/// Why two keys give the same streams of a film that shows these bits of a key. They are different exactly where
/// [`extract`](crate::extract) gives other streams under the one than under the other (proved).
///
/// ```
/// use usm::Why;
///
/// assert_eq!(usm::why(0x00FFFF0FFFFFFFFF, 0x0123456789ABCDEF, 0xFF23456789ABCDEF), Why::NeverCount);
/// assert_eq!(usm::why(0xFF, 0x0123, 0x0223), Why::NotShown);
/// ```
pub fn why(bits: u64, one: u64, other: u64) -> Why {
    match ffi::why(bits, one, other) {
        0 => Why::Different,
        1 => Why::OneKey,
        2 => Why::NeverCount,
        _ => Why::NotShown,
    }
}
