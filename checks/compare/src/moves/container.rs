//! Request 1's container by rules W, put together block by block; without a key, since payloads travel as stored.

use super::exports::Codecs;
use super::original::{Film, PAYLOAD};
use crate::containers::rules::{CRID, END, HEADER_END, LONGEST, METADATA_END, SFA, SFV};

/// The container of a film with one audio or none, or the number of its refusal.
pub fn container(film: &Film, codecs: Codecs) -> Result<Vec<u8>, u8> {
    let audio = film.audios.first();
    if audio.is_none() && codecs.audio.is_some() {
        return Err(23);
    }
    let written = blocks(film, codecs);
    if written.len() > LONGEST {
        return Err(11);
    }
    let mut payloads = payloads(&film.video).chain(payloads(audio.map_or(&[], Vec::as_slice)));
    if payloads.any(|payload| payload.starts_with(END)) {
        return Err(15);
    }
    Ok(written)
}

fn blocks(film: &Film, codecs: Codecs) -> Vec<u8> {
    let audio = film.audios.first();
    let name = [&[0; 4], &(film.name.len() as u32).to_be_bytes()[..]].concat();
    let mut written = block(CRID, &table(0x5B, b"filename", &name, film.name.as_bytes()));
    let streams = if audio.is_some() { &[SFV, SFA][..] } else { &[SFV] };
    let mut in_each = |contents: [&[u8]; 2]| {
        for (letters, contents) in streams.iter().zip(contents) {
            written.extend(block(letters, contents));
        }
    };
    in_each([&codec_table(b"mpeg_codec", codecs.video), &codec_table(b"audio_codec", codecs.audio)]);
    in_each([&marker(HEADER_END); 2]);
    in_each([EMPTY_TABLE; 2]);
    in_each([&marker(METADATA_END); 2]);
    let [mut video, mut audio] = [&film.video[..], audio.map_or(&[], Vec::as_slice)].map(payloads);
    loop {
        let turn = [(SFV, video.next()), (SFA, audio.next())];
        if turn.iter().all(|(_, payload)| payload.is_none()) {
            break;
        }
        for (letters, payload) in turn {
            written.extend(payload.map_or(Vec::new(), |payload| block(letters, payload)));
        }
    }
    for letters in streams {
        written.extend(block(letters, &marker(END)));
    }
    written
}

fn payloads(stream: &[u8]) -> impl Iterator<Item = &[u8]> {
    stream.chunks(PAYLOAD)
}

const EMPTY_TABLE: &[u8] = b"@UTF\0\0\0\x18\0\0\0\0\0\0\0\0\0\0\0\0\0\0\0\0\0\0\0\0\0\0\0\0";

fn codec_table(column: &[u8], codec: Option<u32>) -> Vec<u8> {
    codec.map_or(EMPTY_TABLE.to_vec(), |codec| table(0x54, column, &codec.to_be_bytes(), &[]))
}

/// A table of one column and one row, and data behind its strings.
fn table(kind: u8, column: &[u8], cell: &[u8], data: &[u8]) -> Vec<u8> {
    let strings = 24 + 5 + cell.len();
    let behind = strings + column.len() + 1;
    let fields = [behind + data.len(), 29, strings, behind, column.len(), 1 << 16 | cell.len(), 1];
    let fields = fields.map(|field| (field as u32).to_be_bytes());
    [b"@UTF", fields.as_flattened(), &[kind, 0, 0, 0, 0], cell, column, &[0], data].concat()
}

/// A marker with zeros up to 0x20 bytes.
fn marker(letters: &[u8]) -> Vec<u8> {
    [letters, &vec![0; 0x20 - letters.len()]].concat()
}

fn block(letters: &[u8; 4], contents: &[u8]) -> Vec<u8> {
    let padding = contents.len().next_multiple_of(0x20) - contents.len();
    let size = (0x18 + contents.len() + padding) as u32;
    let sizes = [size.to_be_bytes(), (0x18 << 16 | padding as u32).to_be_bytes()];
    [letters, sizes.as_flattened(), &[0; 20], contents, &vec![0; padding]].concat()
}
