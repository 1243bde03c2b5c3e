//! The film that a container would be: its parts, taken wherever its own sizes say that they stand. The container is that
//! film exactly when making it again gives the same bytes, which is for the caller to try.

use super::exports::Codecs;
use super::original::Film;
use crate::containers::answer::Kind;
use crate::containers::rules::{self, INSIDE, Name};

/// Where the name of a film of the builder begins.
const NAME: usize = 96;
/// Where the table or payload of a block of the builder begins.
const CONTENTS: usize = 28;

/// The parts of a film of the builder, with any number of audios.
pub fn of_old(container: &[u8]) -> Option<Film> {
    let blocks = old_blocks(container);
    let entry = blocks.first().filter(|block| block.letters == *b"CRID")?;
    let name = container.get(NAME..(8 + entry.size).checked_sub(1)?)?;
    let audios = blocks.iter().filter(|block| block.letters == *b"@SFA").count();
    let mut film = Film { name: text(name)?, video: Vec::new(), audios: vec![Vec::new(); audios] };
    for block in blocks {
        let stream = match &block.letters {
            b"@SBV" => &mut film.video,
            b"@SBA" => film.audios.get_mut(number(container, block.start + 16)?)?,
            _ => continue,
        };
        let payload = block.start + CONTENTS;
        stream.extend(container.get(payload..payload + block.size.checked_sub(0x18)?)?);
    }
    Some(film)
}

/// A block of the builder: where it starts, its letters and the size that it claims.
pub struct Block {
    pub start: usize,
    pub letters: [u8; 4],
    pub size: usize,
}

impl Block {
    /// Where the next block stands.
    pub fn end(&self) -> usize {
        match &self.letters {
            b"@END" => self.start + CONTENTS,
            b"@SBV" | b"@SBA" => (self.start + self.size + CONTENTS - 0x18).next_multiple_of(0x20),
            _ => (self.start + self.size + 8).next_multiple_of(0x20),
        }
    }
}

/// The blocks of a film of the builder, up to the first that does not begin in it.
pub fn old_blocks(container: &[u8]) -> Vec<Block> {
    let (mut blocks, mut start) = (Vec::new(), 0);
    while let (Some(letters), Some(size)) = (container.get(start..start + 4), number(container, start + 4)) {
        let block = Block { start, letters: letters.try_into().expect("four letters"), size };
        start = block.end();
        blocks.push(block);
    }
    blocks
}

/// The parts of request 1's container, by the rules.
pub fn of_new(container: &[u8]) -> Option<(Film, Codecs)> {
    let found = rules::read(container, true).answer.ok()?;
    let part = |start: u64, length: u64| &container[start as usize..][..length as usize];
    let Name::Part { start, length } = found.name else { return None };
    let stream = |kind: Kind| {
        let chunks = found.chunks.iter().filter(|chunk| chunk.kind == kind);
        chunks.flat_map(|chunk| part(chunk.start + INSIDE, chunk.length)).copied().collect()
    };
    let tracks = found.tracks;
    let audios = if tracks.has_audio { vec![stream(Kind::Audio)] } else { Vec::new() };
    let film = Film { name: text(part(start, length))?, video: stream(Kind::Video), audios };
    Some((film, Codecs { video: tracks.video_codec, audio: tracks.audio_codec }))
}

/// A name of the builder is a `String`.
fn text(name: &[u8]) -> Option<String> {
    String::from_utf8(name.to_vec()).ok()
}

fn number(container: &[u8], at: usize) -> Option<usize> {
    let bytes = container.get(at..at + 4)?;
    Some(u32::from_be_bytes(bytes.try_into().expect("four bytes")) as usize)
}
