//! A part of a film that is in memory, and moves over the film as it is read.

use std::io::{self, ErrorKind, Read, Seek, SeekFrom};

use crate::Error;
use crate::error::make_room;

/// The bytes of a window that moves from payload to payload. It stays in a processor's cache.
pub(crate) const WIDE: usize = 256 << 10;

/// The bytes that are read where only the head of a chunk is wanted.
const NARROW: usize = 64;

/// To jump over a chunk that is shorter costs more than to read it.
const SHORT: usize = 8 << 10;

/// Moves a reader forward without its bytes.
type Skip<R> = fn(&mut R, u64) -> io::Result<()>;

/// A window over a film of a known length.
pub(crate) struct Window<R> {
    source: R,
    skip: Skip<R>,
    /// The film's length.
    total: usize,
    /// Room, of which the first bytes are filled.
    room: Vec<u8>,
    filled: usize,
    /// The place in the film of the first byte.
    start: usize,
    /// The place of the last head.
    head: usize,
}

impl<R: Read + Seek> Window<R> {
    /// Over what a reader gives from where it stands to its end.
    pub fn new(mut source: R) -> Result<Window<R>, Error> {
        let start = source.stream_position()?;
        let end = source.seek(SeekFrom::End(0))?;
        source.seek(SeekFrom::Start(start))?;
        let total = end.saturating_sub(start);
        let skip = |source: &mut R, bytes: u64| source.seek_relative(bytes as i64);
        Window::with(source, skip, total)
    }

    /// Back to the film's start.
    pub fn rewind(&mut self) -> Result<(), Error> {
        self.source.seek_relative(-(self.end() as i64))?;
        self.filled = 0;
        self.start = 0;
        Ok(())
    }
}

impl<R: Read> Window<R> {
    /// Over the next bytes of a reader, so many.
    pub fn forward(source: R, total: u64) -> Result<Window<R>, Error> {
        let skip = |source: &mut R, bytes: u64| match io::copy(&mut source.take(bytes), &mut io::sink())? {
            skipped if skipped == bytes => Ok(()),
            _ => Err(ErrorKind::UnexpectedEof.into()),
        };
        Window::with(source, skip, total)
    }

    fn with(source: R, skip: Skip<R>, total: u64) -> Result<Window<R>, Error> {
        crate::Refusal::by_length(total)?;
        Ok(Window { source, skip, total: total as usize, room: Vec::new(), filled: 0, start: 0, head: 0 })
    }

    pub fn total(&self) -> usize {
        self.total
    }

    /// The place after the last byte.
    fn end(&self) -> usize {
        self.start + self.filled
    }

    pub fn source(&self) -> &R {
        &self.source
    }

    /// The film's beginning, of at least so many bytes where it has them.
    pub fn beginning(&mut self, least: usize) -> Result<&[u8], Error> {
        self.hold(0, least.min(self.total), least)?;
        Ok(&self.room[..self.filled])
    }

    /// Whether so much of the film's beginning is in the window.
    pub fn has_beginning(&self, length: usize) -> bool {
        self.start == 0 && self.filled >= length
    }

    /// The film's beginning, of so many bytes.
    pub fn into_beginning(mut self, length: usize) -> Result<Vec<u8>, Error> {
        self.beginning(length)?;
        self.room.truncate(length);
        Ok(self.room)
    }

    /// Takes the beginning out of the window, which holds what follows it from a place on.
    pub fn take_beginning(&mut self, place: usize) -> Result<Vec<u8>, Error> {
        let from = place.min(self.filled);
        let mut rest = Vec::new();
        make_room(&mut rest, self.filled - from)?;
        rest.extend_from_slice(&self.room[from..self.filled]);
        self.start = from;
        self.filled = rest.len();
        Ok(std::mem::replace(&mut self.room, rest))
    }

    /// The head of a chunk: so many bytes from a place on, or all that are left. Where its payload is wanted too, or the
    /// chunk before it was short, more is read at once.
    pub fn head(&mut self, place: usize, least: usize, with_payload: bool) -> Result<&[u8], Error> {
        let least = least.min(self.total.saturating_sub(place));
        if least == 0 {
            return Ok(&[]);
        }
        let is_short = place.saturating_sub(self.head) < SHORT;
        self.head = place;
        self.hold(place, least, if with_payload || is_short { WIDE } else { NARROW })?;
        Ok(&self.room[place - self.start..self.filled])
    }

    /// Some bytes from a place on: one at least, up to so many. What stands from `keep` on stays in the window.
    pub fn some(&mut self, place: usize, most: usize, keep: usize) -> Result<&mut [u8], Error> {
        let from = place.min(keep);
        self.hold(from, place + 1 - from, WIDE)?;
        let at = place - self.start;
        let end = self.filled.min(at.saturating_add(most));
        Ok(&mut self.room[at..end])
    }

    /// All bytes of a part of the film. What stands from `keep` on stays in the window.
    pub fn part(&mut self, place: usize, length: usize, keep: usize) -> Result<&mut [u8], Error> {
        let from = place.min(keep);
        self.hold(from, place + length - from, WIDE)?;
        let at = place - self.start;
        Ok(&mut self.room[at..at + length])
    }

    /// Has a part of the film in the window: so many bytes at least, and where they must be read, as many as are wished.
    fn hold(&mut self, place: usize, least: usize, wished: usize) -> Result<(), Error> {
        if place >= self.start && place + least <= self.end() {
            return Ok(());
        }
        self.move_to(place)?;
        let wished = wished.max(least).min(self.total.saturating_sub(place));
        if self.room.len() < wished {
            make_room(&mut self.room, wished)?;
            self.room.resize(wished, 0);
        }
        self.fill(least, wished)
    }

    /// Lets the window begin at a place.
    fn move_to(&mut self, place: usize) -> Result<(), Error> {
        let end = self.end();
        if place >= self.start && place < end {
            let from = place - self.start;
            self.room.copy_within(from..self.filled, 0);
            self.filled -= from;
        } else {
            debug_assert!(place >= end, "a window moves forward");
            if place > end {
                (self.skip)(&mut self.source, (place - end) as u64)?;
            }
            self.filled = 0;
        }
        self.start = place;
        Ok(())
    }

    /// Reads until the window has so many bytes, with as few calls as there must be.
    fn fill(&mut self, least: usize, wished: usize) -> Result<(), Error> {
        while self.filled < least {
            match self.source.read(&mut self.room[self.filled..wished]) {
                Ok(0) => return Err(self.shrank()),
                Ok(count) => self.filled += count,
                Err(error) if error.kind() == ErrorKind::Interrupted => {}
                Err(error) => return Err(error.into()),
            }
        }
        Ok(())
    }

    fn shrank(&self) -> Error {
        let left = self.end();
        let what = format!("it shrank while it was read: {left} of {} bytes are left", self.total);
        Error::Io(io::Error::new(ErrorKind::UnexpectedEof, what))
    }
}
