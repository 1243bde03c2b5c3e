//! The function of libusm.a that writes films, behind a safe call; and what it replies.

use crate::containers::exports::KeyBytes;
pub use crate::ffi::SizeReply;
use crate::ffi::{Packing as PackingBytes, usm_write};

/// What a film is made of. `None` stands for what is not there.
#[derive(Clone, Copy)]
pub struct Film<'a> {
    pub name: &'a [u8],
    pub video: &'a [u8],
    pub audio: Option<&'a [u8]>,
    pub video_codec: Option<u32>,
    pub audio_codec: Option<u32>,
    pub key: Option<u64>,
}

pub fn write(film: Film, out: &mut [u8]) -> SizeReply {
    let packing = PackingBytes {
        key: KeyBytes { number: film.key.unwrap_or(0), given: film.key.is_some().into() },
        video_codec: film.video_codec.unwrap_or(0),
        audio_codec: film.audio_codec.unwrap_or(0),
        has_audio: film.audio.is_some().into(),
        has_video_codec: film.video_codec.is_some().into(),
        has_audio_codec: film.audio_codec.is_some().into(),
    };
    let audio = film.audio.unwrap_or(&[]);
    // SAFETY: each pointer and length are those of one slice, lent to this call.
    unsafe {
        usm_write(
            film.name.as_ptr(),
            film.name.len(),
            film.video.as_ptr(),
            film.video.len(),
            audio.as_ptr(),
            audio.len(),
            packing,
            out.as_mut_ptr(),
            out.len(),
        )
    }
}
