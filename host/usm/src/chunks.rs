//! The chunks of a film.

use std::fmt;

use crate::debug::Bytes;
use crate::{Error, Reading, Refusal, ffi, sized};

/// The chunks of a film, in their order. It holds 24 bytes for each.
#[derive(Clone)]
pub struct Chunks<'a> {
    film: &'a [u8],
    records: Vec<ffi::Chunk>,
}

/// A chunk of a film.
#[derive(Clone, Copy, PartialEq, Eq, Hash)]
#[non_exhaustive]
pub struct Chunk<'a> {
    /// The byte of the film where it starts.
    pub start: usize,
    pub kind: ChunkKind,
    /// 0 to 3. Masks are on payloads of type 0 alone.
    pub data_type: u8,
    /// The four letters that it begins with.
    pub letters: [u8; 4],
    /// Byte 12, which says the channel of audio.
    pub channel: u8,
    /// As it is stored; empty where it is skipped.
    pub payload: &'a [u8],
}

/// Kinds of chunks. Skipped are the ends of streams, chunks of other letters than `@SFV` and `@SFA`, and audio that is
/// not taken, is of another channel or is not in the header: its kind is audio still.
#[derive(Clone, Copy, PartialEq, Eq, PartialOrd, Ord, Hash, Debug)]
pub enum ChunkKind {
    Video,
    Audio,
    Other,
    End,
}

/// Lists the chunks of a film.
///
/// ```
/// use usm::{ChunkKind, Reading};
///
/// let film = std::fs::read("tests/song.usm")?;
/// let chunks = usm::list(&film, Reading::default())?;
/// assert_eq!(chunks.len(), 8);
/// let longest = chunks.iter().filter(|chunk| chunk.kind == ChunkKind::Video).map(|chunk| chunk.payload.len()).max();
/// assert_eq!(longest, Some(608));
/// # Ok::<(), Box<dyn std::error::Error>>(())
/// ```
pub fn list(film: &[u8], reading: Reading) -> Result<Chunks<'_>, Error> {
    let records = sized::listed(|records| ffi::list(film, reading.for_c(), records))?;
    Ok(Chunks { film, records })
}

/// How many chunks a film has, without a list of them.
///
/// ```
/// let film = std::fs::read("tests/song.usm")?;
/// assert_eq!(usm::count(&film, usm::Reading::default())?, 8);
/// # Ok::<(), Box<dyn std::error::Error>>(())
/// ```
pub fn count(film: &[u8], reading: Reading) -> Result<usize, Refusal> {
    sized::count_of(|records| ffi::list(film, reading.for_c(), records))
}

impl<'a> Chunks<'a> {
    pub fn len(&self) -> usize {
        self.records.len()
    }

    pub fn is_empty(&self) -> bool {
        self.records.is_empty()
    }

    /// The chunk of a number, counted from 0.
    pub fn get(&self, number: usize) -> Option<Chunk<'a>> {
        self.records.get(number).map(|record| chunk(self.film, record))
    }

    pub fn iter(&self) -> Iter<'a, '_> {
        Iter { film: self.film, records: self.records.iter() }
    }
}

/// The chunks of a film, one after the other.
#[derive(Clone)]
pub struct Iter<'a, 'b> {
    film: &'a [u8],
    records: std::slice::Iter<'b, ffi::Chunk>,
}

impl<'a> Iterator for Iter<'a, '_> {
    type Item = Chunk<'a>;

    fn next(&mut self) -> Option<Chunk<'a>> {
        self.records.next().map(|record| chunk(self.film, record))
    }

    fn size_hint(&self) -> (usize, Option<usize>) {
        self.records.size_hint()
    }
}

impl DoubleEndedIterator for Iter<'_, '_> {
    fn next_back(&mut self) -> Option<Self::Item> {
        self.records.next_back().map(|record| chunk(self.film, record))
    }
}

impl ExactSizeIterator for Iter<'_, '_> {}

impl<'a, 'b> IntoIterator for &'b Chunks<'a> {
    type Item = Chunk<'a>;
    type IntoIter = Iter<'a, 'b>;

    fn into_iter(self) -> Iter<'a, 'b> {
        self.iter()
    }
}

/// A record with what the film has at its place. Every chunk has 45 bytes at least, and its payload lies within the film.
fn chunk<'a>(film: &'a [u8], record: &ffi::Chunk) -> Chunk<'a> {
    let bytes = &film[record.start..];
    Chunk {
        start: record.start,
        kind: kind_of(record.kind),
        data_type: record.data_type,
        letters: [bytes[0], bytes[1], bytes[2], bytes[3]],
        channel: record.channel,
        payload: &bytes[record.offset as usize..][..record.length],
    }
}

impl fmt::Debug for Chunks<'_> {
    fn fmt(&self, f: &mut fmt::Formatter) -> fmt::Result {
        f.debug_struct("Chunks").field("len", &self.len()).finish_non_exhaustive()
    }
}

impl fmt::Debug for Iter<'_, '_> {
    fn fmt(&self, f: &mut fmt::Formatter) -> fmt::Result {
        f.debug_struct("Iter").field("len", &self.len()).finish_non_exhaustive()
    }
}

impl fmt::Debug for Chunk<'_> {
    fn fmt(&self, f: &mut fmt::Formatter) -> fmt::Result {
        f.debug_struct("Chunk")
            .field("start", &self.start)
            .field("kind", &self.kind)
            .field("data_type", &self.data_type)
            .field("letters", &Bytes(&self.letters))
            .field("channel", &self.channel)
            .field("payload", &Bytes(self.payload))
            .finish()
    }
}

pub(crate) fn kind_of(number: u8) -> ChunkKind {
    match number {
        0 => ChunkKind::Video,
        1 => ChunkKind::Audio,
        2 => ChunkKind::Other,
        _ => ChunkKind::End,
    }
}

impl fmt::Display for ChunkKind {
    fn fmt(&self, f: &mut fmt::Formatter) -> fmt::Result {
        f.pad(match self {
            ChunkKind::Video => "video",
            ChunkKind::Audio => "audio",
            ChunkKind::Other => "other",
            ChunkKind::End => "end",
        })
    }
}
