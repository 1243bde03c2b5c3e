//! An index in a file: with the film that it was made of, and a seal by which damage shows.
//!
//! After the first line, `usm-index 1`, numbers have 8 bytes, the lowest first: the film's size, whether its file is
//! known, the file's device, inode and time of change in nanoseconds; the film's SHA-256; the count of the entries, and of
//! each its three numbers; at the end the SHA-256 of everything before.

use std::fs::File;
use std::io::Read;
use std::path::Path;

use sha2::{Digest, Sha256};
use usm::{Entry, Index};

use crate::files::identity::{FileId, Identity};
use crate::output::Error;
use crate::run::digests;
use crate::run::input::{Input, make_room};
use crate::run::progress::Meter;

/// The first line, but for the version.
const NAME: &[u8] = b"usm-index ";

/// The version of this form, as the first line has it.
const VERSION: &[u8] = b"1\n";

/// The bytes before the entries, of an entry, and of a digest.
const HEAD: usize = NAME.len() + VERSION.len() + 5 * 8 + DIGEST + 8;
const ENTRY: usize = 3 * 8;
const DIGEST: usize = 32;

/// An index, and the film that it was made of.
pub struct StoredIndex {
    pub film: FilmMark,
    pub index: Index,
}

/// By what a film is known again.
#[derive(Clone, PartialEq, Eq, Debug)]
pub struct FilmMark {
    pub bytes: u64,
    pub sha256: [u8; DIGEST],
    /// Its file, where a change of it would show.
    pub file: Option<Identity>,
}

impl FilmMark {
    /// Of a film that is open.
    pub fn of(input: &mut Input, meter: &Meter) -> Result<FilmMark, Error> {
        let file = input.identity()?;
        let sha256 = digests::of_film(input, meter)?;
        input.check_end()?;
        if input.identity()? != file {
            return Err(Error::System("it changed while it was read".to_string()));
        }
        Ok(FilmMark { bytes: input.length(), sha256, file: file.filter(|file| !file.is_recent()) })
    }

    /// Whether a film is the one that this is of. Its bytes are read where its file is another, or was changed since, or
    /// where that is asked for.
    fn is_of(&self, input: &mut Input, is_read: bool, meter: &Meter) -> Result<bool, Error> {
        input.hold(meter)?;
        if input.length() != self.bytes {
            return Ok(false);
        }
        let file = input.identity()?;
        if !is_read && file.is_some() && file == self.file {
            return Ok(true);
        }
        Ok(digests::of_film(input, meter)? == self.sha256)
    }
}

impl StoredIndex {
    /// The bytes of its file.
    pub fn to_bytes(&self) -> Result<Vec<u8>, Error> {
        let FilmMark { bytes, sha256, file } = &self.film;
        let mut stored = Vec::new();
        make_room(&mut stored, HEAD + ENTRY * self.index.len() + DIGEST)?;
        stored.extend_from_slice(NAME);
        stored.extend_from_slice(VERSION);
        let known = file.map_or([0; 4], |file| [1, file.id.device, file.id.inode, file.mtime as u64]);
        let numbers = [*bytes].into_iter().chain(known);
        numbers.for_each(|number| stored.extend_from_slice(&number.to_le_bytes()));
        stored.extend_from_slice(sha256);
        stored.extend_from_slice(&(self.index.len() as u64).to_le_bytes());
        for Entry { place, chunk, length, .. } in self.index.entries() {
            [place, chunk, length].iter().for_each(|&number| stored.extend_from_slice(&(number as u64).to_le_bytes()));
        }
        stored.extend_from_slice(&Sha256::digest(&stored));
        Ok(stored)
    }

    /// Reads an index, whatever film it is of.
    pub fn read(path: &Path) -> Result<StoredIndex, Error> {
        let wrong = |why: &str| Error::with(path, why);
        let mut file = File::open(path).map_err(|error| Error::with(path, error))?;
        let mut head = Vec::new();
        file.by_ref().take(HEAD as u64).read_to_end(&mut head).map_err(|error| Error::with(path, error))?;
        if !head.starts_with(NAME) {
            return Err(wrong("it is no index of a film"));
        }
        if !head[NAME.len()..].starts_with(VERSION) {
            return Err(wrong("it is an index of another version; usm index makes it anew"));
        }
        let rest = |head: &[u8]| {
            let count = head.len().checked_sub(8).map(|at| number(&head[at..]))?;
            usize::try_from(count).ok()?.checked_mul(ENTRY)?.checked_add(DIGEST)
        };
        let Some(rest) = rest(&head).filter(|_| head.len() == HEAD) else { return Err(wrong(DAMAGED)) };
        let length = file.metadata().map_err(|error| Error::with(path, error))?.len();
        if length != (HEAD + rest) as u64 {
            return Err(wrong(DAMAGED));
        }
        let mut stored = Vec::new();
        make_room(&mut stored, HEAD + rest).map_err(|error| error.of(path))?;
        stored.extend_from_slice(&head);
        file.take(rest as u64).read_to_end(&mut stored).map_err(|error| Error::with(path, error))?;
        StoredIndex::of_bytes(&stored)?.ok_or_else(|| wrong(DAMAGED))
    }

    /// An index by the bytes of its file; `None` where they are damaged.
    fn of_bytes(stored: &[u8]) -> Result<Option<StoredIndex>, Error> {
        let Some((contents, seal)) = stored.split_at_checked(stored.len().saturating_sub(DIGEST)) else {
            return Ok(None);
        };
        if contents.len() < HEAD || *seal != *Sha256::digest(contents) {
            return Ok(None);
        }
        let numbers = |at: usize| number(&contents[NAME.len() + VERSION.len() + 8 * at..]);
        let [bytes, is_known, device, inode, mtime] = [0, 1, 2, 3, 4].map(numbers);
        let file = Identity { id: FileId { device, inode }, size: bytes, mtime: mtime as i64 };
        let mut sha256 = [0; DIGEST];
        sha256.copy_from_slice(&contents[HEAD - 8 - DIGEST..HEAD - 8]);
        let film = FilmMark { bytes, sha256, file: (is_known != 0).then_some(file) };
        let entries = contents[HEAD..].chunks_exact(ENTRY).map(|entry| {
            let [place, chunk, length] = [0, 8, 16].map(|at| number(&entry[at..]) as usize);
            Entry::new(place, chunk, length)
        });
        let index = Index::from_entries(entries.len(), entries)?;
        Ok(Some(StoredIndex { film, index }))
    }

    /// The index, which stands in a file, where it is that of a film as it is now.
    pub fn of_film(&self, path: &Path, input: &mut Input, is_read: bool, meter: &Meter) -> Result<&Index, Error> {
        if self.film.is_of(input, is_read, meter)? {
            return Ok(&self.index);
        }
        Err(Error::with(path, OTHER))
    }
}

const OTHER: &str = "it is the index of another film, or of this one before it was changed; usm index makes it anew";
const DAMAGED: &str = "the index is damaged; usm index makes it anew";

/// The number that bytes begin with.
fn number(bytes: &[u8]) -> u64 {
    bytes.first_chunk().map_or(0, |bytes| u64::from_le_bytes(*bytes))
}

#[cfg(test)]
mod tests {
    use super::{DIGEST, ENTRY, FilmMark, HEAD, StoredIndex};
    use crate::files::identity::{FileId, Identity};

    fn stored(file: Option<Identity>) -> StoredIndex {
        let index = usm::index(&films::large(b"film", 300_000)).unwrap();
        StoredIndex { film: FilmMark { bytes: 300_000, sha256: [7; 32], file }, index }
    }

    #[test]
    fn what_is_kept_comes_back() {
        let file = Identity { id: FileId { device: 1, inode: u64::MAX }, size: 300_000, mtime: -5 };
        for file in [None, Some(file)] {
            let stored = stored(file);
            let bytes = stored.to_bytes().unwrap();
            assert_eq!(bytes.len(), HEAD + ENTRY * stored.index.len() + DIGEST);
            let back = StoredIndex::of_bytes(&bytes).unwrap().unwrap();
            assert_eq!((&back.film, &back.index), (&stored.film, &stored.index));
        }
    }

    #[test]
    fn every_damaged_byte_shows() {
        let bytes = stored(None).to_bytes().unwrap();
        for at in 0..bytes.len() {
            let mut damaged = bytes.clone();
            damaged[at] ^= 0x10;
            assert!(StoredIndex::of_bytes(&damaged).unwrap().is_none(), "{at}");
            assert!(StoredIndex::of_bytes(&bytes[..at]).unwrap().is_none(), "{at}");
        }
    }
}
