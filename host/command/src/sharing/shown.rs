//! What a film shows of keys, by the heads of its chunks.

use std::io::{Read, Seek};

use usm::Reader;

use crate::output::Error;

/// What a statement needs of a film.
pub struct Shown {
    /// The bits of a key that it shows: the largest number of its payloads (proved).
    pub bits: u64,
    /// The bytes of a copy, both streams together.
    pub bytes: usize,
}

/// Goes over all chunks of a film, from the first on.
pub fn of<R: Read + Seek>(reader: &mut Reader<R>) -> Result<Shown, Error> {
    reader.rewind()?;
    let mut shown = Shown { bits: 0, bytes: 0 };
    while let Some(chunk) = reader.next_chunk()? {
        shown.bits = shown.bits.max(chunk.mask.key_bits(chunk.length));
        shown.bytes += chunk.length;
    }
    Ok(shown)
}
