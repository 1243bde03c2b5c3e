//! What the original makes of a film, for a harness in C.

// Of the comparison's files not everything is used here.
#![allow(dead_code)]

mod containers;

#[path = "../comparison/panics.rs"]
mod panics;

use std::cell::RefCell;
use std::slice;
use std::sync::Once;

use containers::answer::Kind;
use containers::original::{Answer, Film, extract};

/// Bytes that stay until the next call.
#[repr(C)]
#[derive(Clone, Copy)]
pub struct Bytes {
    at: *const u8,
    len: usize,
}

/// A chunk as the original walks over it.
#[repr(C)]
pub struct Chunk {
    start: u64,
    length: u64,
    kind: u8,
    data_type: u8,
}

/// The answer. `outcome` is 0 for a film, 1 for a refusal, 2 for a panic.
#[repr(C)]
pub struct Reply {
    outcome: u8,
    number: u8,
    unknown_type: u8,
    has_audio: u8,
    has_video_codec: u8,
    has_audio_codec: u8,
    is_ivf: u8,
    is_hca: u8,
    video_codec: u32,
    audio_codec: u32,
    place: u64,
    name: Bytes,
    video: Bytes,
    audio: Bytes,
    chunks: *const Chunk,
    count: usize,
}

thread_local! {
    static LAST: RefCell<Option<(Film, Vec<Chunk>)>> = const { RefCell::new(None) };
}

static SILENCED: Once = Once::new();

/// Extracts a film by the original. What the reply points to stays until the next call.
///
/// # Safety
///
/// The two slices have as many bytes as is said.
#[unsafe(no_mangle)]
pub unsafe extern "C" fn original_extract(
    film: Bytes,
    takes_audio: u8,
    has_key: u8,
    key: u64,
    fallback: Bytes,
) -> Reply {
    SILENCED.call_once(panics::silence);
    let [film, fallback] = [film, fallback].map(|bytes| unsafe { slice::from_raw_parts(bytes.at, bytes.len) });
    match extract(film, takes_audio != 0, (has_key != 0).then_some(key), fallback) {
        Answer::Accepted(film) => accepted(film),
        Answer::Refused(refusal) => {
            Reply { number: refusal.number, unknown_type: refusal.column_type, place: refusal.place, ..reply(1) }
        }
        Answer::Panicked(_, place) => Reply { place, ..reply(2) },
    }
}

fn reply(outcome: u8) -> Reply {
    let none = Bytes { at: std::ptr::null(), len: 0 };
    Reply {
        outcome,
        number: 0,
        unknown_type: 0,
        has_audio: 0,
        has_video_codec: 0,
        has_audio_codec: 0,
        is_ivf: 0,
        is_hca: 0,
        video_codec: 0,
        audio_codec: 0,
        place: 0,
        name: none,
        video: none,
        audio: none,
        chunks: std::ptr::null(),
        count: 0,
    }
}

fn accepted(film: Film) -> Reply {
    let chunks = film.chunks.iter().map(chunk).collect();
    LAST.with_borrow_mut(|last| {
        let (film, chunks) = last.insert((film, chunks));
        let bytes = |bytes: &Vec<u8>| Bytes { at: bytes.as_ptr(), len: bytes.len() };
        let tracks = film.header.tracks;
        Reply {
            has_audio: tracks.has_audio.into(),
            has_video_codec: tracks.video_codec.is_some().into(),
            has_audio_codec: tracks.audio_codec.is_some().into(),
            is_ivf: (film.video_kind == "ivf").into(),
            is_hca: (film.audio_kind == "hca").into(),
            video_codec: tracks.video_codec.unwrap_or(0),
            audio_codec: tracks.audio_codec.unwrap_or(0),
            name: bytes(&film.header.name),
            video: bytes(&film.video),
            audio: bytes(&film.audio),
            chunks: chunks.as_ptr(),
            count: chunks.len(),
            ..reply(0)
        }
    })
}

fn chunk(chunk: &containers::answer::Chunk) -> Chunk {
    let kind = match chunk.kind {
        Kind::Video => 0,
        Kind::Audio => 1,
        Kind::Other => 2,
        Kind::End => 3,
    };
    Chunk { start: chunk.start, length: chunk.length, kind, data_type: chunk.data_type }
}
