//! Readers that give less than they could.

use std::io::{self, Read, Seek, SeekFrom};

/// Gives a few bytes at each call, as a pipe may.
pub struct ShortReads<R> {
    source: R,
    most: usize,
}

impl<R> ShortReads<R> {
    /// At most so many bytes at each call.
    pub fn new(source: R, most: usize) -> ShortReads<R> {
        ShortReads { source, most }
    }
}

impl<R: Read> Read for ShortReads<R> {
    fn read(&mut self, room: &mut [u8]) -> io::Result<usize> {
        let count = room.len().min(self.most);
        self.source.read(&mut room[..count])
    }
}

impl<R: Seek> Seek for ShortReads<R> {
    fn seek(&mut self, to: SeekFrom) -> io::Result<u64> {
        self.source.seek(to)
    }
}
