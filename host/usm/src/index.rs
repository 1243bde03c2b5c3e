//! An index of a film's video: where each byte of the stream stands in the film.

use std::fmt;
use std::io::{Read, Seek};

use crate::error::make_room;
use crate::{ChunkKind, Error, Reader, ffi, sized};

/// Where the video payloads of a film stand, 24 bytes for each. It does not need the film any more. Two indexes of one
/// film are equal.
#[derive(Clone, PartialEq, Eq)]
pub struct Index {
    entries: Vec<ffi::IndexEntry>,
}

/// A video payload of a film.
#[derive(Clone, Copy, PartialEq, Eq, Hash, Debug)]
#[non_exhaustive]
pub struct Entry {
    /// Where the payload begins in the video stream.
    pub place: usize,
    /// The start of its chunk in the film.
    pub chunk: usize,
    /// The bytes of the payload, which may be none.
    pub length: usize,
}

impl Entry {
    pub fn new(place: usize, chunk: usize, length: usize) -> Entry {
        Entry { place, chunk, length }
    }

    fn for_c(self) -> ffi::IndexEntry {
        ffi::IndexEntry { place: self.place as u64, chunk: self.chunk as u64, length: self.length as u64 }
    }
}

/// Where a byte of the video stream stands.
#[derive(Clone, Copy, PartialEq, Eq, Hash, Debug)]
#[non_exhaustive]
pub struct Place {
    /// The start of its chunk in the film.
    pub chunk: usize,
    /// The byte in the chunk's payload, counted from 0. Payloads begin 0x20 bytes after their chunk's start.
    pub offset: usize,
}

/// Makes the index of a film's video, for [`Index::seek`]. The film is read as the original reads it, without audio.
///
/// ```
/// let film = std::fs::read("tests/song.usm")?;
/// let index = usm::index(&film)?;
/// assert_eq!(index.len(), 3);
/// let second = index.entries().nth(1).unwrap();
/// assert_eq!((second.place, second.chunk, second.length), (608, 1792, 256));
/// # Ok::<(), Box<dyn std::error::Error>>(())
/// ```
pub fn index(film: &[u8]) -> Result<Index, Error> {
    sized::listed(|entries| ffi::index(film, entries)).map(|entries| Index { entries })
}

impl fmt::Debug for Index {
    fn fmt(&self, f: &mut fmt::Formatter) -> fmt::Result {
        f.debug_struct("Index").field("len", &self.len()).finish_non_exhaustive()
    }
}

impl<R: Read + Seek> Reader<R> {
    /// The index of the film's video, from its first chunk on, by steps: the same as that of [`index()`] where audio is not
    /// taken and payloads are read as the original reads them.
    ///
    /// ```
    /// use usm::{Audio, Reader, Reading};
    ///
    /// let film = std::fs::File::open("tests/song.usm")?;
    /// let mut reader = Reader::new(film, Reading::default().with_audio(Audio::None))?;
    /// assert_eq!(reader.index()?, usm::index(&std::fs::read("tests/song.usm")?)?);
    /// # Ok::<(), Box<dyn std::error::Error>>(())
    /// ```
    pub fn index(&mut self) -> Result<Index, Error> {
        self.rewind()?;
        let (mut entries, mut place) = (Vec::new(), 0);
        while let Some(chunk) = self.next_chunk()? {
            if chunk.kind == ChunkKind::Video {
                if entries.len() == entries.capacity() {
                    let count = entries.len();
                    make_room(&mut entries, (2 * count).max(64))?;
                }
                entries.push(Entry::new(place, chunk.start, chunk.length).for_c());
                place += chunk.length;
            }
        }
        Ok(Index { entries })
    }
}

impl Index {
    /// An index that was kept somewhere: of so many entries. Whatever these are, every byte has an answer.
    pub fn from_entries(count: usize, entries: impl Iterator<Item = Entry>) -> Result<Index, Error> {
        let mut kept = Vec::new();
        make_room(&mut kept, count)?;
        kept.extend(entries.take(count).map(Entry::for_c));
        Ok(Index { entries: kept })
    }

    /// Where a byte of the video stream stands, counted from 0; `None` past its end. It is the byte that
    /// [`extract`](crate::extract) gives there without a key (proved), and found by halving: fewer than 2^k payloads
    /// take k steps (proved).
    ///
    /// ```
    /// use usm::{Audio, Reading};
    ///
    /// let film = std::fs::read("tests/song.usm")?;
    /// let index = usm::index(&film)?;
    /// let place = index.seek(700).unwrap();
    /// assert_eq!((place.chunk, place.offset), (1792, 92));
    ///
    /// let stored = usm::extract(&film, Reading::default().with_audio(Audio::None), None)?;
    /// assert_eq!(film[place.chunk + 0x20 + place.offset], stored.video[700]);
    /// assert_eq!(index.seek(stored.video.len()), None);
    /// # Ok::<(), Box<dyn std::error::Error>>(())
    /// ```
    pub fn seek(&self, byte: usize) -> Option<Place> {
        let reply = ffi::seek(&self.entries, byte as u64);
        (reply.found != 0).then_some(Place { chunk: reply.chunk as usize, offset: reply.offset as usize })
    }

    /// The video payloads in their order, empty ones too.
    pub fn entries(&self) -> impl ExactSizeIterator<Item = Entry> + DoubleEndedIterator + '_ {
        self.entries.iter().map(|entry| Entry {
            place: entry.place as usize,
            chunk: entry.chunk as usize,
            length: entry.length as usize,
        })
    }

    /// How many video payloads there are.
    pub fn len(&self) -> usize {
        self.entries.len()
    }

    pub fn is_empty(&self) -> bool {
        self.entries.is_empty()
    }
}
