//! Rules H and C: what is expected of a container, but for the bytes of its streams.

use super::answer::{Chunk, Kind, Refusal, Tracks};
use super::table_rules::{self, Cell, Table};

pub const LONGEST: usize = 1 << 30;

/// Where the table, marker or payload of a block stands.
pub const INSIDE: u64 = 0x20;
/// The least that is left where a chunk stands.
const CHUNK: u64 = INSIDE + END.len() as u64;

pub const CRID: &[u8; 4] = b"CRID";
pub const SFV: &[u8; 4] = b"@SFV";
pub const SFA: &[u8; 4] = b"@SFA";
pub const HEADER_END: &[u8; 11] = b"#HEADER END";
pub const METADATA_END: &[u8; 13] = b"#METADATA END";
pub const END: &[u8; 13] = b"#CONTENTS END";

/// What the rules say of a container.
pub struct Reading {
    pub answer: Result<Film, Refusal>,
    /// The start of every block that was read, in order.
    pub starts: Vec<u64>,
    /// The length of the payload asked for last, present or not.
    pub claimed: u64,
}

pub struct Film {
    pub name: Name,
    pub tracks: Tracks,
    /// Where the first chunk stands, or would.
    pub first: u64,
    pub chunks: Vec<Chunk>,
}

impl Film {
    /// The size of the stream of this kind.
    pub fn size(&self, kind: Kind) -> u64 {
        self.chunks.iter().filter(|chunk| chunk.kind == kind).map(|chunk| chunk.length).sum()
    }
}

#[derive(Clone, Copy)]
pub enum Name {
    /// A part of the container.
    Part {
        start: u64,
        length: u64,
    },
    Fallback,
}

/// Reads a container, with audio chosen or not.
pub fn read(container: &[u8], audio: bool) -> Reading {
    let mut walk = Walk { container, block: 0, starts: Vec::new(), claimed: 0 };
    let answer = walk.film(audio);
    Reading { answer, starts: walk.starts, claimed: walk.claimed }
}

struct Walk<'a> {
    container: &'a [u8],
    /// The start of the block being read.
    block: u64,
    starts: Vec<u64>,
    claimed: u64,
}

impl<'a> Walk<'a> {
    fn film(&mut self, audio: bool) -> Result<Film, Refusal> {
        if self.container.len() > LONGEST {
            return self.refuse(11);
        }
        let (name, place) = self.entry()?;
        let (tracks, place) = self.header(place)?;
        let first = self.metadata(place, tracks.has_audio)?;
        let chunks = self.chunks(first, tracks.has_audio && audio)?;
        Ok(Film { name, tracks, first, chunks })
    }

    /// Step 1; gives the name and the next block's place.
    fn entry(&mut self) -> Result<(Name, u64), Refusal> {
        self.begin(0);
        self.expect(CRID, 2)?;
        let next = self.next()?;
        let name = match self.table()?.in_last_row(b"filename") {
            Some(Cell::Part { start, length }) => Name::Part { start, length },
            _ => Name::Fallback,
        };
        Ok((name, next))
    }

    /// Steps 2 to 5.
    fn header(&mut self, place: u64) -> Result<(Tracks, u64), Refusal> {
        self.begin(place);
        self.expect(SFV, 4)?;
        let mut next = self.next()?;
        let video_codec = codec(&self.table()?, b"mpeg_codec");
        self.begin(next);
        let has_audio = self.letters()? == SFA;
        let mut audio_codec = None;
        if has_audio {
            next = self.next()?;
            audio_codec = codec(&self.table()?, b"audio_codec");
            self.begin(next);
        }
        self.expect(SFV, 4)?;
        next = self.next()?;
        self.marker(HEADER_END, 6)?;
        if has_audio {
            self.begin(next);
            self.expect(SFA, 5)?;
            next = self.next()?;
            self.marker(HEADER_END, 6)?;
        }
        Ok((Tracks { has_audio, video_codec, audio_codec }, next))
    }

    /// Steps 6 to 8; gives the place of the first chunk.
    fn metadata(&mut self, place: u64, has_audio: bool) -> Result<u64, Refusal> {
        self.begin(place);
        self.expect(SFV, 4)?;
        let next = self.next()?;
        self.table()?;
        self.begin(next);
        if has_audio && self.letters()? == SFA {
            return self.audio_metadata();
        }
        self.expect(SFV, 4)?;
        self.marker(METADATA_END, 7)?;
        let marker_end = self.block + INSIDE + METADATA_END.len() as u64;
        Ok(marker_end.next_multiple_of(4) + 16)
    }

    /// The rest of step 7, from the block of the audio table.
    fn audio_metadata(&mut self) -> Result<u64, Refusal> {
        let mut next = self.next()?;
        self.table()?;
        for (letters, number) in [(SFV, 4), (SFA, 5)] {
            self.begin(next);
            self.expect(letters, number)?;
            next = self.next()?;
            self.marker(METADATA_END, 7)?;
        }
        Ok(next)
    }

    fn chunks(&mut self, first: u64, takes_audio: bool) -> Result<Vec<Chunk>, Refusal> {
        let mut chunks = Vec::new();
        let mut place = first;
        while self.left(place) >= 4 {
            self.begin(place);
            chunks.push(self.chunk(takes_audio)?);
            place = self.next()?;
        }
        Ok(chunks)
    }

    fn chunk(&mut self, takes_audio: bool) -> Result<Chunk, Refusal> {
        let head = self.bytes(0, CHUNK)?;
        let data_type = head[15] % 4;
        let (kind, taken) = match &head[..4] {
            _ if head.ends_with(END) => (Kind::End, false),
            letters if letters == SFV => (Kind::Video, true),
            letters if letters == SFA => (Kind::Audio, takes_audio),
            _ => (Kind::Other, false),
        };
        let length = if taken { self.payload(head)? } else { 0 };
        Ok(Chunk { start: self.block, kind, data_type, channel: head[12], length })
    }

    /// The length of a payload that is taken.
    fn payload(&mut self, head: &[u8]) -> Result<u64, Refusal> {
        let around = number(&head[8..10]) + number(&head[10..12]);
        let Some(length) = number(&head[4..8]).checked_sub(around) else {
            return self.refuse(9);
        };
        self.claimed = length;
        self.bytes(INSIDE, length)?;
        Ok(length)
    }

    fn begin(&mut self, block: u64) {
        self.block = block;
        self.starts.push(block);
    }

    fn refuse<T>(&self, number: u8) -> Result<T, Refusal> {
        Err(Refusal::new(number, self.block))
    }

    /// How many bytes there are from a place on.
    fn left(&self, place: u64) -> u64 {
        (self.container.len() as u64).saturating_sub(place)
    }

    /// Bytes at a distance from the block's start.
    fn bytes(&self, at: u64, count: u64) -> Result<&'a [u8], Refusal> {
        let start = self.block + at;
        if self.left(start) < count {
            return self.refuse(1);
        }
        Ok(if count == 0 { &[] } else { &self.container[start as usize..(start + count) as usize] })
    }

    fn letters(&self) -> Result<&'a [u8], Refusal> {
        self.bytes(0, 4)
    }

    fn expect(&self, letters: &[u8; 4], otherwise: u8) -> Result<(), Refusal> {
        if self.letters()? == letters { Ok(()) } else { self.refuse(otherwise) }
    }

    /// Where the next block stands.
    fn next(&self) -> Result<u64, Refusal> {
        Ok(self.block + 8 + number(self.bytes(4, 4)?))
    }

    fn table(&self) -> Result<Table, Refusal> {
        table_rules::read(self.container, self.block + INSIDE).map_err(|cause| Refusal {
            number: cause.number,
            place: self.block,
            column_type: cause.column_type,
        })
    }

    fn marker(&self, marker: &[u8], otherwise: u8) -> Result<(), Refusal> {
        if self.bytes(INSIDE, marker.len() as u64)? == marker { Ok(()) } else { self.refuse(otherwise) }
    }
}

fn number(bytes: &[u8]) -> u64 {
    bytes.iter().fold(0, |number, &byte| number << 8 | u64::from(byte))
}

fn codec(table: &Table, name: &[u8]) -> Option<u32> {
    match table.in_first_row(name) {
        Some(Cell::Number(number)) => Some(number),
        _ => None,
    }
}
