//! A `Cursor` that is watched: from what is sought on it follows which block was read last.

use std::io::{self, Cursor, Read, Seek, SeekFrom};

/// Where the contents of a block stand.
const INSIDE: u64 = 0x20;

pub struct Watched<'a> {
    cursor: Cursor<&'a [u8]>,
    block: u64,
    phase: Phase,
}

#[derive(Clone, Copy, PartialEq, Eq)]
enum Phase {
    /// The letters and the size of a header block; its contents come next.
    Letters,
    /// The contents; the next place sought is another block.
    Contents,
    /// The header is over: every place sought is a chunk.
    Chunks,
}

impl<'a> Watched<'a> {
    pub fn new(bytes: &'a [u8]) -> Watched<'a> {
        Watched { cursor: Cursor::new(bytes), block: 0, phase: Phase::Letters }
    }

    /// The start of the block read last.
    pub fn block(&self) -> u64 {
        self.block
    }

    /// A place is sought for the contents of the block just begun, or it begins one. Steps from where the
    /// cursor stands stay in their block. The end is sought once, between the header and the chunks.
    fn note(&mut self, to: SeekFrom) {
        match to {
            SeekFrom::Start(place) if self.phase == Phase::Letters && place == self.block + INSIDE => {
                self.phase = Phase::Contents;
            }
            SeekFrom::Start(place) => {
                self.block = place;
                if self.phase == Phase::Contents {
                    self.phase = Phase::Letters;
                }
            }
            SeekFrom::End(_) => self.phase = Phase::Chunks,
            SeekFrom::Current(_) => {}
        }
    }
}

impl Read for Watched<'_> {
    fn read(&mut self, buffer: &mut [u8]) -> io::Result<usize> {
        self.cursor.read(buffer)
    }
}

impl Seek for Watched<'_> {
    fn seek(&mut self, to: SeekFrom) -> io::Result<u64> {
        self.note(to);
        self.cursor.seek(to)
    }
}
