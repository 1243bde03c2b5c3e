//! The functions of libusm.a that read a film piece by piece, and those that give the bits of a key that a film and a
//! payload show, and where and why two keys part, behind safe calls.

use crate::containers::answer::Refusal;
use crate::containers::exports::{FilmReply, ReadingBytes};
pub use crate::ffi::{ApartReply, FilmAudio, KeyBitsReply, OpenReply, StepReply};
use crate::ffi::{
    usm_apart, usm_clear, usm_clear_piece, usm_key_bits, usm_open, usm_payload_apart, usm_payload_bits, usm_step, usm_why,
};

impl FilmAudio {
    /// What a header says of the audio.
    pub fn of(film: FilmReply) -> FilmAudio {
        FilmAudio { codec: film.audio_codec, present: film.has_audio, has_codec: film.has_audio_codec }
    }
}

/// What a step finds.
pub const OVER: u8 = 0;
pub const CHUNK: u8 = 1;
pub const MORE: u8 = 2;

// SAFETY, for the calls below: each pointer and length are those of one slice, lent to this call.

pub fn open(beginning: &[u8], total: usize, reading: ReadingBytes) -> OpenReply {
    unsafe { usm_open(beginning.as_ptr(), beginning.len(), total, reading) }
}

pub fn step(window: &[u8], place: usize, total: usize, reading: ReadingBytes, audio: FilmAudio) -> StepReply {
    unsafe { usm_step(window.as_ptr(), window.len(), place, total, reading, audio) }
}

pub fn clear(key: u64, mask: u8, payload: &mut [u8]) {
    unsafe { usm_clear(key, mask, payload.as_mut_ptr(), payload.len()) }
}

pub fn clear_piece(key: u64, mask: u8, total: usize, place: usize, row: &[u8], piece: &mut [u8]) -> bool {
    let (at, len) = (piece.as_mut_ptr(), piece.len());
    unsafe { usm_clear_piece(key, mask, total, place, row.as_ptr(), row.len(), at, len) == 1 }
}

pub fn key_bits(container: &[u8], reading: ReadingBytes) -> KeyBitsReply {
    unsafe { usm_key_bits(container.as_ptr(), container.len(), reading) }
}

pub fn payload_bits(mask: u8, length: usize) -> u64 {
    // SAFETY: it takes numbers alone.
    unsafe { usm_payload_bits(mask, length) }
}

pub fn apart(container: &[u8], reading: ReadingBytes, key: u64, other: u64) -> ApartReply {
    unsafe { usm_apart(container.as_ptr(), container.len(), reading, key, other) }
}

pub fn payload_apart(mask: u8, length: usize, key: u64, other: u64) -> usize {
    // SAFETY: it takes numbers alone.
    unsafe { usm_payload_apart(mask, length, key, other) }
}

pub fn why(bits: u64, key: u64, other: u64) -> u8 {
    // SAFETY: the same.
    unsafe { usm_why(bits, key, other) }
}

/// The refusal that a reply has, where it has one.
pub fn refusal(number: u8, refused_at: usize, unknown_type: u8) -> Option<Refusal> {
    (number != 0).then(|| Refusal { number, place: refused_at as u64, column_type: unknown_type })
}
