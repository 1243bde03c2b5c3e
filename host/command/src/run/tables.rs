//! The tables of films: those of a header, and the text of one.

use usm::{Opening, Reader, Tables};

use crate::options::limit::Limit;
use crate::output::Error;
use crate::run::input::{Input, make_room};

/// The beginning of a film, with the tables of its header. All chunks are looked at: a film that is refused has none.
pub fn opening(mut reader: Reader<&mut Input>) -> Result<Opening, Error> {
    reader.check()?;
    reader.get_ref().check_end()?;
    Ok(reader.into_opening()?)
}

/// The text of the table at a place, in a buffer. Cells may share a string, so that a small table could fill any disk.
pub fn text_of(bytes: &[u8], place: usize, tables: Tables, limit: &mut Limit, text: &mut Vec<u8>) -> Result<(), Error> {
    let size = usm::csv_size(bytes, place, tables)?;
    limit.take(size as u64)?;
    make_room(text, size)?;
    Ok(usm::csv_into(bytes, place, tables, text)?)
}
