//! The masks of payloads, and the tables of a key.

use crate::ffi;

/// The two streams of a film.
#[derive(Clone, Copy, PartialEq, Eq, PartialOrd, Ord, Hash, Debug)]
pub enum Stream {
    Video,
    Audio,
}

/// Masks a clear payload in place. A payload is the whole payload of one chunk. In a film the masked ones are those of
/// data type 0, of audio where the codec is ADX, 2.
///
/// ```
/// use usm::Stream;
///
/// let clear = vec![7; 0x400];
/// let mut payload = clear.clone();
/// usm::mask(Stream::Video, 0x0123456789ABCDEF, &mut payload);
/// assert_ne!(payload, clear);
/// usm::unmask(Stream::Video, 0x0123456789ABCDEF, &mut payload);
/// assert_eq!(payload, clear);
/// ```
pub fn mask(stream: Stream, key: u64, payload: &mut [u8]) {
    match stream {
        Stream::Video => ffi::mask_video(key, payload),
        Stream::Audio => ffi::mask_audio(key, payload),
    }
}

/// Unmasks a payload in place: the reverse of [`mask`].
pub fn unmask(stream: Stream, key: u64, payload: &mut [u8]) {
    match stream {
        Stream::Video => ffi::unmask_video(key, payload),
        Stream::Audio => ffi::unmask_audio(key, payload),
    }
}

/// The tables of a key, from which its masks are made. Two keys give the same streams for every film exactly where
/// their tables are equal.
///
/// ```
/// let (first, second) = (usm::key_table(0x7F123456789ABCDE), usm::key_table(0x001234F6789ABCDE));
/// assert_eq!(first, second);
/// ```
pub fn key_table(key: u64) -> KeyTable {
    let bytes = ffi::key_table(key);
    let part = |at: usize| std::array::from_fn(|lane| bytes[at + lane]);
    KeyTable { t: part(0), v: part(32), a: part(64) }
}

/// The tables T, V and A of a key.
#[derive(Clone, Copy, PartialEq, Eq, Hash, Debug)]
pub struct KeyTable {
    pub t: [u8; 32],
    pub v: [u8; 32],
    pub a: [u8; 32],
}
