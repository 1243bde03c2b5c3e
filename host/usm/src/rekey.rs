//! Films under another key.

use std::io::{Read, Seek};

use crate::Error;
use crate::reader::{ChunkHead, Mask, Reader};

/// A film under another key, piece by piece: what [`Reader::rekey`] gives.
pub struct Rekeying<'r, R> {
    reader: &'r mut Reader<R>,
    from: u64,
    to: u64,
    /// All bytes before this one are given.
    given: usize,
    /// A masked payload that comes next, after the bytes before it.
    payload: Option<ChunkHead>,
    /// There are no chunks any more.
    is_over: bool,
}

impl<R: Read + Seek> Reader<R> {
    /// Gives the film another key, from its first byte on. Masked payloads are unmasked under the one key and masked under
    /// the other, and all else stays as it is. So the new film has, under the new key, the streams of this one under the
    /// old key: a payload that is masked and unmasked under one key is as it was (proved).
    ///
    /// All audio must be taken, since audio that is skipped stays as it is.
    ///
    /// A film whose payloads begin elsewhere when they are read after their headers is [`Error::NotPlain`]: which bytes
    /// are to be changed would depend on the reading.
    ///
    /// ```
    /// use usm::{Reader, Reading};
    ///
    /// let film = std::fs::File::open("tests/song.usm")?;
    /// let mut reader = Reader::new(film, Reading::default())?;
    /// let mut rekeying = reader.rekey(0x0123456789ABCDEF, 42)?;
    /// let mut rekeyed = Vec::new();
    /// while let Some(piece) = rekeying.next_piece()? {
    ///     rekeyed.extend_from_slice(piece);
    /// }
    ///
    /// let film = usm::extract(&rekeyed, Reading::default(), Some(42))?;
    /// assert_eq!(film.video, std::fs::read("tests/song.video")?);
    /// # Ok::<(), Box<dyn std::error::Error>>(())
    /// ```
    pub fn rekey(&mut self, from: u64, to: u64) -> Result<Rekeying<'_, R>, Error> {
        self.rewind()?;
        Ok(Rekeying { reader: self, from, to, given: 0, payload: None, is_over: false })
    }
}

impl<R: Read> Rekeying<'_, R> {
    /// The next piece of the new film. All of them put one after the other are the film.
    pub fn next_piece(&mut self) -> Result<Option<&[u8]>, Error> {
        // What stands before the next payload, or before the next chunk.
        while self.given == self.end_of_gap() {
            if self.payload.is_some() {
                return self.rekeyed().map(Some);
            }
            if self.is_over {
                return Ok(None);
            }
            match self.reader.plain_step()? {
                Some(chunk) => self.payload = Some(chunk).filter(|chunk| chunk.mask != Mask::None && chunk.length > 0),
                None => self.is_over = true,
            }
        }
        self.stored().map(Some)
    }

    /// Up to there the film stays as it is.
    fn end_of_gap(&self) -> usize {
        match self.payload {
            Some(chunk) => chunk.payload,
            None if self.is_over => self.reader.total(),
            None => self.reader.place(),
        }
    }

    fn stored(&mut self) -> Result<&[u8], Error> {
        let most = self.end_of_gap() - self.given;
        let bytes = self.reader.window.some(self.given, most, self.given)?;
        self.given += bytes.len();
        Ok(bytes)
    }

    fn rekeyed(&mut self) -> Result<&[u8], Error> {
        let Some(chunk) = self.payload.take() else { return Ok(&[]) };
        let bytes = self.reader.window.part(chunk.payload, chunk.length, chunk.payload)?;
        chunk.mask.clear(self.from, bytes);
        chunk.mask.apply(self.to, bytes);
        self.given = chunk.payload + chunk.length;
        Ok(bytes)
    }
}
