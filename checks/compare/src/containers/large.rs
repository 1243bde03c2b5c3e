//! Large containers for the clock: chunks of one length, by turns video and ADX audio.

use super::film::{Chunk, Film, Tables};
use super::rules::{INSIDE, SFA, SFV};
use super::samples::codec;
use crate::random::Random;
use crate::tables::columns::STORED;

pub const LONG: usize = 1 << 26;
pub const SHORT: usize = 1 << 20;

/// Room for the header and for a last chunk, which is skipped and fills the container.
const AROUND: usize = 2048;
const BEFORE_PAYLOAD: usize = INSIDE as usize;

/// As many payloads of this length as there is room for in so many bytes.
pub fn with_payloads(bytes: usize, payload: usize) -> Vec<u8> {
    container(bytes, payload, (bytes - AROUND) / (BEFORE_PAYLOAD + payload))
}

/// So many payloads, as long as there is room for in so many bytes.
pub fn with_count(bytes: usize, count: usize) -> Vec<u8> {
    container(bytes, (bytes - AROUND) / count - BEFORE_PAYLOAD, count)
}

fn container(bytes: usize, payload: usize, count: usize) -> Vec<u8> {
    let tables = Tables { audio: Some(codec(STORED, 2)), ..Tables::empty() };
    let mut film = Film::with_header(&tables, || 0);
    film.bytes.reserve(bytes);
    let video = Chunk::new(SFV, &Random(8).bytes(payload));
    let audio = Chunk { letters: *SFA, ..video.clone() };
    [&video, &audio].into_iter().cycle().take(count).for_each(|chunk| film.chunk(chunk));
    let rest = bytes - film.bytes.len() - BEFORE_PAYLOAD;
    film.chunk(&Chunk::new(b"@SBT", &vec![0; rest]));
    film.bytes
}
