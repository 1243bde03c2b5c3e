//! The tables in a film's header: where they are.

use std::fmt;
use std::io::{Read, Seek};

use crate::debug::Bytes;
use crate::{Error, Reader, Reading, Refusal, ffi, sizes};

/// A table of a film's header.
#[derive(Clone, Copy, PartialEq, Eq, Hash, Debug)]
#[non_exhaustive]
pub struct HeaderTable {
    /// The letters of its block: `CRID`, `@SFV` or `@SFA`.
    pub letters: [u8; 4],
    /// Where the table begins in the film, for [`table`](crate::table).
    pub place: usize,
}

/// The tables in the header of a film that is accepted, in their order: that of the film, one for each stream, and one for
/// each stream's metadata.
///
/// ```
/// let film = std::fs::read("tests/song.usm")?;
/// let tables = usm::header_tables(&film, usm::Reading::default())?;
/// assert_eq!(tables.len(), 5);
/// assert_eq!(&tables[0].letters, b"CRID");
/// assert_eq!(tables[0].place, 32);
/// # Ok::<(), Box<dyn std::error::Error>>(())
/// ```
pub fn header_tables(film: &[u8], reading: Reading) -> Result<Vec<HeaderTable>, Refusal> {
    sizes(film, reading)?;
    tables_in(film, film.len(), reading)
}

/// The beginning of a film, with its header and all that the header's tables hold.
#[derive(Clone, PartialEq, Eq)]
#[non_exhaustive]
pub struct Opening {
    /// For [`table`](crate::table) and [`csv`](crate::csv()).
    pub bytes: Vec<u8>,
    /// Where the tables are, in their order.
    pub tables: Vec<HeaderTable>,
}

impl<R: Read + Seek> Reader<R> {
    /// The film's beginning, with the tables of its header.
    ///
    /// ```
    /// use usm::{Cell, Reader, Reading, Tables};
    ///
    /// let film = std::fs::File::open("tests/song.usm")?;
    /// let opening = Reader::new(film, Reading::default())?.into_opening()?;
    /// let table = usm::table(&opening.bytes, opening.tables[0].place, Tables::Original)?;
    /// assert_eq!(table.cell(b"filename", 0), Some(Cell::String(b"songs/lark.usm")));
    /// # Ok::<(), Box<dyn std::error::Error>>(())
    /// ```
    pub fn into_opening(self) -> Result<Opening, Error> {
        let (total, reading) = (self.total(), self.reading());
        let bytes = self.into_beginning()?;
        let tables = tables_in(&bytes, total, reading)?;
        Ok(Opening { bytes, tables })
    }
}

impl fmt::Debug for Opening {
    fn fmt(&self, f: &mut fmt::Formatter) -> fmt::Result {
        f.debug_struct("Opening").field("bytes", &Bytes(&self.bytes)).field("tables", &self.tables).finish()
    }
}

/// By the beginning of a film of so many bytes.
fn tables_in(beginning: &[u8], total: usize, reading: Reading) -> Result<Vec<HeaderTable>, Refusal> {
    let reply = ffi::header_tables(beginning, total, reading.for_c());
    Refusal::check(reply.number, reply.refused_at, reply.unknown_type)?;
    let ffi::HeaderTables { name, video, audio, video_metadata, audio_metadata } = reply.tables;
    let tables =
        [(b"CRID", name), (b"@SFV", video), (b"@SFA", audio), (b"@SFV", video_metadata), (b"@SFA", audio_metadata)];
    // A table that is not there has the place 0.
    let there = tables.into_iter().filter(|&(_, place)| place > 0);
    Ok(there.map(|(letters, place)| HeaderTable { letters: *letters, place }).collect())
}
