//! Random containers, most of them sound, with the edges of every rule far more often than chance has them.

use super::call::Call;
use super::case::Case;
use super::film::{Chunk, Film, Tables};
use super::header_tables::table;
use super::mistakes;
use super::rules::{END, SFA, SFV};
use super::samples::with_codec;
use crate::random::Random;

/// A container of any shape.
pub fn any(random: &mut Random) -> Case {
    let count = match random.within(0..40) {
        0..4 => 0,
        4..36 => random.within(1..8),
        _ => random.within(8..40),
    };
    let mut film = film(count, random);
    film.bytes.extend(trailing(random));
    if random.one_in(6) {
        mistakes::make(&mut film, random);
    }
    finish(film, random)
}

/// A small container, for damaged copies.
pub fn small(random: &mut Random) -> Case {
    let count = random.within(1..4);
    let film = film(count, random);
    finish(film, random)
}

/// A film of a few payloads around the lengths at which one shows more of a key, most of them masked.
pub fn clips(random: &mut Random) -> Case {
    let tables = with_codec(random.pick(&[2, 2, 2, 4]));
    let chunks: Vec<Chunk> = (0..random.within(1..4)).map(|_| clip(random)).collect();
    finish(Film::with_chunks(&tables, &chunks), random)
}

fn clip(random: &mut Random) -> Chunk {
    let (letters, least) = random.pick(&[(SFA, 0x130), (SFA, 0x130), (SFA, 0x130), (SFV, 0x220)]);
    let length = random.within(least..least + 0x40) as usize;
    Chunk::new(letters, &random.bytes(length)).of_type(random.pick(&[0, 0, 0, 0, 0, 1]))
}

fn finish(film: Film, random: &mut Random) -> Case {
    Case::new(&film.bytes, Call::some(random))
}

fn film(chunks: u64, random: &mut Random) -> Film {
    let mut film = Film::with_header(&tables(random), {
        let mut random = Random(random.number());
        move || if random.one_in(3) { random.within(0..9) as usize } else { 0 }
    });
    for _ in 0..chunks {
        film.chunk(&chunk(random));
    }
    film
}

fn tables(random: &mut Random) -> Tables {
    let has_audio = !random.one_in(3);
    let has_audio_metadata = has_audio && random.one_in(2);
    Tables {
        entry: table(b"filename", random),
        video: table(b"mpeg_codec", random),
        audio: has_audio.then(|| table(b"audio_codec", random)),
        video_metadata: table(b"a", random),
        audio_metadata: has_audio_metadata.then(|| table(b"a", random)),
    }
}

/// A chunk: its frame may be odd, and its payload has a length at an edge or any.
fn chunk(random: &mut Random) -> Chunk {
    let letters = letters(random);
    let data_type = random.pick(&[0, 0, 0, 0, 0, 0, 1, 2, 3, 4, 5, 6, 7, 0x80, 0xFF]);
    if random.one_in(10) {
        return Chunk::end(&letters).of_type(data_type);
    }
    let length = length(random);
    let mut payload = random.bytes(length);
    if random.one_in(30) && length >= END.len() {
        payload[..END.len()].copy_from_slice(END);
    }
    let plain = Chunk::new(&letters, &payload).of_type(data_type);
    if !random.one_in(4) {
        return plain;
    }
    let mut size = || random.pick(&[0, 0, 1, 4, 8, 0x17, 0x18, 0x19, 0x20, 0x40, 0x100]);
    let (header_size, footer_size) = (size(), size());
    let framed = plain.framed(header_size, footer_size);
    odd(framed, random)
}

fn letters(random: &mut Random) -> [u8; 4] {
    let known = [*SFV, *SFV, *SFV, *SFV, *SFA, *SFA, *SFA];
    let others = [*b"@SFB", *b"@CUE", *b"CRID", *b"@sfv", [0; 4], *b"@UTF", *b"SFV@"];
    if random.one_in(8) { random.pick(&others) } else { random.pick(&known) }
}

/// Now and then sizes that do not fit, for a chunk that is read: 9 or 1; for one that is skipped: nothing.
fn odd(chunk: Chunk, random: &mut Random) -> Chunk {
    let around = u32::from(chunk.header_size) + u32::from(chunk.footer_size);
    match random.within(0..16) {
        0 => Chunk { block_size: around, ..chunk },
        1 => Chunk { block_size: around.saturating_sub(1), ..chunk },
        2 => Chunk { header_size: 0xFFFF, footer_size: 0xFFFF, ..chunk },
        3 => Chunk { block_size: chunk.block_size + random.within(1..80) as u32, ..chunk },
        4 => Chunk { block_size: random.within(0..64) as u32, ..chunk },
        _ => chunk,
    }
}

fn length(random: &mut Random) -> usize {
    let edges = [
        0, 1, 12, 13, 14, 0x20, 0x13F, 0x140, 0x141, 0x158, 0x159, 0x15A, 0x15B, 0x15C, 0x15D, 0x15E, 0x15F, 0x160,
        0x161, 0x23F, 0x240, 0x241, 0x25F, 0x260, 0x261,
    ];
    match random.within(0..20) {
        0..14 => random.pick(&edges),
        14..19 => random.within(0..0x300) as usize,
        _ => random.within(0x300..0x1400) as usize,
    }
}

/// What stands after the last chunk: nothing, too little for a chunk, or what may be one.
fn trailing(random: &mut Random) -> Vec<u8> {
    let length = match random.within(0..16) {
        0..8 => 0,
        8..12 => random.within(1..4),
        12 => random.pick(&[4, 44, 45, 46]),
        13 => random.within(4..200),
        _ => 48,
    };
    let mut bytes = if random.one_in(2) { random.bytes(length as usize) } else { vec![0; length as usize] };
    // 48 bytes: a skipped chunk whose size leads past the end.
    if length == 48 {
        bytes[..8].copy_from_slice(b"@END\0\0\xFF\xFF");
    }
    bytes
}
