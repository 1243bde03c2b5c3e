//! The two functions of libusm.a that read containers, behind safe calls; and what they reply.

use std::mem::offset_of;
use std::ptr::{null, null_mut};

use crate::ffi::{self, usm_extract, usm_list};
pub use crate::ffi::{FilmReply, Key as KeyBytes, ListReply, Reading as ReadingBytes};

use super::answer::{Chunk, Kind, Refusal, Tracks};
use super::rules::INSIDE;

/// A record of the list. The padding is named, so that it can be seen to stay where a record stays.
#[repr(C)]
#[derive(Clone, Copy, PartialEq, Eq, Debug)]
pub struct Record {
    pub start: u64,
    pub kind: u8,
    pub data_type: u8,
    pub channel: u8,
    pub padding: u8,
    pub offset: u32,
    pub length: u64,
}

/// It is laid out as the crate has it.
macro_rules! is_same {
    ($($field:ident),+) => {
        const _: () = assert!(size_of::<Record>() == size_of::<ffi::Chunk>());
        $(const _: () = assert!(offset_of!(Record, $field) == offset_of!(ffi::Chunk, $field));)+
    };
}

is_same!(start, kind, data_type, channel, offset, length);

/// What an extraction is given beside the container and the outputs.
#[derive(Clone, Copy)]
pub struct How<'a> {
    pub reading: ReadingBytes,
    pub key: KeyBytes,
    pub fallback: &'a [u8],
}

// SAFETY, for the calls below: each pointer and length are those of one slice, or of the room of a new vector, lent
// to this call.

pub fn extract(container: &[u8], how: How, video: &mut [u8], audio: &mut [u8]) -> FilmReply {
    let (video, audio) = ((video.as_mut_ptr(), video.len()), (audio.as_mut_ptr(), audio.len()));
    unsafe { extract_to(container, how, video, audio) }
}

/// Extracts to new outputs of these sizes, and gives them back. They are not cleared before, as those of C's `malloc`
/// and of the original are not.
pub fn extract_to_new(container: &[u8], how: How, sizes: [usize; 2]) -> FilmReply {
    let [mut video, mut audio] = sizes.map(Vec::<u8>::with_capacity);
    unsafe { extract_to(container, how, (video.as_mut_ptr(), sizes[0]), (audio.as_mut_ptr(), sizes[1])) }
}

unsafe fn extract_to(container: &[u8], how: How, video: (*mut u8, usize), audio: (*mut u8, usize)) -> FilmReply {
    unsafe {
        usm_extract(
            container.as_ptr(),
            container.len(),
            how.reading,
            how.key,
            how.fallback.as_ptr(),
            how.fallback.len(),
            video.0,
            video.1,
            audio.0,
            audio.1,
        )
    }
}

pub fn list(container: &[u8], reading: ReadingBytes, list: &mut [Record]) -> ListReply {
    unsafe { usm_list(container.as_ptr(), container.len(), reading, list.as_mut_ptr().cast(), list.len()) }
}

/// The numbers of both with NULL for every slice of length 0, which usm.h allows.
pub fn both_with_null() -> [u8; 2] {
    let (reading, key) = (ReadingBytes { audio: 1, channel: 0, payloads: 0, tables: 0 }, KeyBytes { number: 0, given: 1 });
    // SAFETY: nothing is read or written through a pointer with length 0.
    unsafe {
        [
            usm_extract(null(), 0, reading, key, null(), 0, null_mut(), 0, null_mut(), 0).number,
            usm_list(null(), 0, reading, null_mut(), 0).number,
        ]
    }
}

/// What is known of an accepted film, but for the name.
pub struct Success {
    pub tracks: Tracks,
    pub is_ivf: bool,
    pub is_hca: bool,
    pub video_size: usize,
    pub audio_size: usize,
}

/// The fields of the name in a reply.
#[derive(Clone, Copy, PartialEq, Eq, Debug)]
pub struct NamePart {
    pub source: u8,
    pub start: usize,
    pub length: usize,
}

pub const IN_FALLBACK: u8 = 1;

impl Success {
    /// The reply. The fields of the name are 0.
    pub fn reply(&self) -> FilmReply {
        let Tracks { has_audio, video_codec, audio_codec } = self.tracks;
        FilmReply {
            video_size: self.video_size,
            audio_size: self.audio_size,
            video_codec: video_codec.unwrap_or(0),
            audio_codec: audio_codec.unwrap_or(0),
            has_audio: has_audio.into(),
            has_video_codec: video_codec.is_some().into(),
            has_audio_codec: audio_codec.is_some().into(),
            video_kind: self.is_ivf.into(),
            audio_kind: self.is_hca.into(),
            ..FilmReply::default()
        }
    }
}

impl FilmReply {
    pub fn refused(refusal: Refusal) -> FilmReply {
        let Refusal { number, place, column_type } = refusal;
        FilmReply { number, refused_at: place as usize, unknown_type: column_type, ..FilmReply::default() }
    }

    pub fn outputs_too_short(video_size: usize, audio_size: usize) -> FilmReply {
        FilmReply { number: 12, video_size, audio_size, ..FilmReply::default() }
    }

    pub fn name(&self) -> NamePart {
        NamePart { source: self.name_source, start: self.name_start, length: self.name_length }
    }

    pub fn without_name(self) -> FilmReply {
        FilmReply { name_source: 0, name_start: 0, name_length: 0, ..self }
    }
}

impl ListReply {
    pub fn counted(count: usize) -> ListReply {
        ListReply { count, ..ListReply::default() }
    }

    pub fn too_short(count: usize) -> ListReply {
        ListReply { number: 13, count, ..ListReply::default() }
    }

    pub fn refused(refusal: Refusal) -> ListReply {
        let Refusal { number, place, column_type } = refusal;
        ListReply { number, refused_at: place as usize, unknown_type: column_type, ..ListReply::default() }
    }
}

/// The record of a chunk; its padding is not looked at.
pub fn record(chunk: &Chunk) -> Record {
    let kind = match chunk.kind {
        Kind::Video => 0,
        Kind::Audio => 1,
        Kind::Other => 2,
        Kind::End => 3,
    };
    let Chunk { start, data_type, channel, length, .. } = *chunk;
    Record { start, kind, data_type, channel, padding: 0, offset: INSIDE as u32, length }
}
