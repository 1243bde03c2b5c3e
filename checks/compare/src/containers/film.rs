//! A container put together block by block.

use super::rules::{CRID, END, HEADER_END, INSIDE, METADATA_END, SFA, SFV};
use crate::tables::header;

/// What a block's size counts before its contents: the rest of its first 0x20 bytes.
const BEFORE_CONTENTS: u32 = 0x18;

/// The tables of a header; those for audio where there is some.
pub struct Tables {
    pub entry: Vec<u8>,
    pub video: Vec<u8>,
    pub audio: Option<Vec<u8>>,
    pub video_metadata: Vec<u8>,
    pub audio_metadata: Option<Vec<u8>>,
}

impl Tables {
    /// Empty ones, without audio.
    pub fn empty() -> Tables {
        let table = empty_table;
        Tables { entry: table(), video: table(), audio: None, video_metadata: table(), audio_metadata: None }
    }
}

pub fn empty_table() -> Vec<u8> {
    let mut table = header::blank();
    header::SIZE.set(&mut table, header::BODY as u32);
    table
}

/// A chunk as it is written. The block size may say anything.
#[derive(Clone)]
pub struct Chunk {
    pub letters: [u8; 4],
    pub block_size: u32,
    pub header_size: u16,
    pub footer_size: u16,
    pub data_type: u8,
    pub payload: Vec<u8>,
}

impl Chunk {
    /// A plain one: header size 0x18, no footer, data type 0.
    pub fn new(letters: &[u8; 4], payload: &[u8]) -> Chunk {
        Chunk {
            letters: *letters,
            block_size: BEFORE_CONTENTS + payload.len() as u32,
            header_size: BEFORE_CONTENTS as u16,
            footer_size: 0,
            data_type: 0,
            payload: payload.to_vec(),
        }
    }

    /// An end chunk under these letters.
    pub fn end(letters: &[u8; 4]) -> Chunk {
        Chunk::new(letters, &padded(END))
    }

    /// The same with other sizes around its payload.
    pub fn framed(self, header_size: u16, footer_size: u16) -> Chunk {
        let block_size = self.payload.len() as u32 + u32::from(header_size) + u32::from(footer_size);
        Chunk { block_size, header_size, footer_size, ..self }
    }

    pub fn of_type(self, data_type: u8) -> Chunk {
        Chunk { data_type, ..self }
    }
}

/// A marker with zeros up to 32 bytes.
fn padded(marker: &[u8]) -> Vec<u8> {
    let mut contents = marker.to_vec();
    contents.resize(0x20, 0);
    contents
}

#[derive(Clone, Default)]
pub struct Film {
    pub bytes: Vec<u8>,
    /// Where each block and chunk begins.
    pub starts: Vec<usize>,
    next: usize,
}

impl Film {
    /// A header; `padding` gives the bytes after a block's contents.
    pub fn with_header(tables: &Tables, mut padding: impl FnMut() -> usize) -> Film {
        let mut film = Film::default();
        let mut block = |letters, contents: &[u8]| film.block(letters, contents, padding());
        block(CRID, &tables.entry);
        block(SFV, &tables.video);
        if let Some(audio) = &tables.audio {
            block(SFA, audio);
        }
        block(SFV, &padded(HEADER_END));
        if tables.audio.is_some() {
            block(SFA, &padded(HEADER_END));
        }
        block(SFV, &tables.video_metadata);
        if let Some(audio_metadata) = &tables.audio_metadata {
            block(SFA, audio_metadata);
            block(SFV, &padded(METADATA_END));
            block(SFA, &padded(METADATA_END));
        } else {
            film.last_block();
        }
        film
    }

    /// A film with these tables and chunks, without padding.
    pub fn with_chunks(tables: &Tables, chunks: &[Chunk]) -> Film {
        let mut film = Film::with_header(tables, || 0);
        chunks.iter().for_each(|chunk| film.chunk(chunk));
        film
    }

    /// A block of the header.
    fn block(&mut self, letters: &[u8; 4], contents: &[u8], padding: usize) {
        let start = self.begin(letters, contents);
        let size = BEFORE_CONTENTS + (contents.len() + padding) as u32;
        self.write(start + 4, &size.to_be_bytes());
        self.go_to(start + 8 + size as usize);
    }

    /// The block of step 8, whose size nobody reads: chunks begin 16 bytes after its marker, rounded up to 4.
    fn last_block(&mut self) {
        let start = self.begin(SFV, METADATA_END);
        self.write(start + 4, &56_u32.to_be_bytes());
        self.go_to((start + INSIDE as usize + METADATA_END.len()).next_multiple_of(4) + 16);
    }

    pub fn chunk(&mut self, chunk: &Chunk) {
        let start = self.begin(&chunk.letters, &chunk.payload);
        self.write(start + 4, &chunk.block_size.to_be_bytes());
        self.write(start + 8, &chunk.header_size.to_be_bytes());
        self.write(start + 10, &chunk.footer_size.to_be_bytes());
        self.write(start + 15, &[chunk.data_type]);
        let next = start + 8 + chunk.block_size as usize;
        // A block that claims far more than it has is the last.
        if next < start + (1 << 20) {
            self.go_to(next);
        }
    }

    /// Letters at the next place, contents 0x20 after it; gives the place.
    fn begin(&mut self, letters: &[u8; 4], contents: &[u8]) -> usize {
        let start = self.next;
        self.starts.push(start);
        self.write(start, &[0; INSIDE as usize]);
        self.write(start, letters);
        self.write(start + INSIDE as usize, contents);
        start
    }

    fn go_to(&mut self, next: usize) {
        self.next = next;
        if self.bytes.len() < next {
            self.bytes.resize(next, 0);
        }
    }

    fn write(&mut self, at: usize, bytes: &[u8]) {
        let end = at + bytes.len();
        if self.bytes.len() < end {
            self.bytes.resize(end, 0);
        }
        self.bytes[at..end].copy_from_slice(bytes);
    }
}
