//! A film's streams under many keys at once: their digests, and where those of two keys differ.

use usm::{ChunkHead, Mask, Reader, Stream};

use super::films::Found;
use crate::output::Error;
use crate::run::digests::Hashing;
use crate::run::input::{Input, make_room};
use crate::run::progress::Meter;
use crate::sharing::apart::{self, Apart, Streams};
use crate::sharing::classes::Class;

/// Goes through a film once, and learns its streams under every class of keys.
pub fn learn(reader: &mut Reader<&mut Input>, classes: &[Class], meter: &Meter) -> Result<Vec<Found>, Error> {
    let mut learning = Learning::new(classes);
    while let Some(chunk) = reader.next_chunk()? {
        if let Some(stream) = apart::stream_of(&chunk) {
            learning.add(stream, &chunk, reader)?;
        }
        meter.reach(reader.place());
    }
    Ok(learning.classes.into_iter().map(ClassLearning::end).collect())
}

/// What is learnt so far, and room for a payload under two keys.
struct Learning {
    classes: Vec<ClassLearning>,
    /// The bytes of each stream so far.
    passed: Streams<u64>,
    first: Vec<u8>,
    other: Vec<u8>,
}

struct ClassLearning {
    class: Class,
    hashing: Hashing,
    /// Where the streams first differ from those of the first class.
    apart: Streams<Option<Apart>>,
}

impl Learning {
    fn new(classes: &[Class]) -> Learning {
        let learning = |&class: &Class| ClassLearning { class, hashing: Hashing::default(), apart: Streams::default() };
        Learning {
            classes: classes.iter().map(learning).collect(),
            passed: Streams::default(),
            first: Vec::new(),
            other: Vec::new(),
        }
    }

    /// The payload of a chunk.
    fn add(&mut self, stream: Stream, chunk: &ChunkHead, reader: &mut Reader<&mut Input>) -> Result<(), Error> {
        if chunk.mask == Mask::None {
            self.add_plain(stream, chunk, reader)?;
        } else {
            self.add_masked(stream, chunk, reader.payload(chunk)?)?;
        }
        *self.passed.of(stream) += chunk.length as u64;
        Ok(())
    }

    /// What is stored clear is the same under all keys.
    fn add_plain(&mut self, stream: Stream, chunk: &ChunkHead, reader: &mut Reader<&mut Input>) -> Result<(), Error> {
        let mut done = 0;
        while done < chunk.length {
            let part = reader.payload_from(chunk, done)?;
            for learning in &mut self.classes {
                learning.hashing.add(stream, part);
            }
            done += part.len();
        }
        Ok(())
    }

    /// A mask is taken off a whole payload, once for each class.
    fn add_masked(&mut self, stream: Stream, chunk: &ChunkHead, stored: &[u8]) -> Result<(), Error> {
        let start = *self.passed.of(stream);
        let Some((first, others)) = self.classes.split_first_mut() else { return Ok(()) };
        make_clear(chunk.mask, first.class, stored, &mut self.first)?;
        first.hashing.add(stream, &self.first);
        for learning in others {
            make_clear(chunk.mask, learning.class, stored, &mut self.other)?;
            learning.hashing.add(stream, &self.other);
            let apart = learning.apart.of(stream);
            if apart.is_none() {
                let byte = match (first.class, learning.class) {
                    (Some(one), Some(other)) => apart::in_payload(chunk, one, other),
                    // One of the two is as it is stored.
                    _ => first_difference(&self.first, &self.other),
                };
                *apart = apart::at(stream, start, chunk, byte);
            }
        }
        Ok(())
    }
}

impl ClassLearning {
    fn end(self) -> Found {
        Found { class: self.class, streams: self.hashing.end(), apart: self.apart.first() }
    }
}

/// A payload under a key, or as it is stored without one, in the place of what was in a buffer.
fn make_clear(mask: Mask, class: Class, stored: &[u8], clear: &mut Vec<u8>) -> Result<(), Error> {
    make_room(clear, stored.len())?;
    clear.extend_from_slice(stored);
    if let Some(key) = class {
        mask.clear(key, clear);
    }
    Ok(())
}

/// How many bytes are compared at once.
const PIECE: usize = 4096;

fn first_difference(one: &[u8], other: &[u8]) -> Option<usize> {
    let pieces = one.chunks(PIECE).zip(other.chunks(PIECE));
    let (number, (one, other)) = pieces.enumerate().find(|(_, (one, other))| one != other)?;
    let within = one.iter().zip(other).position(|(one, other)| one != other)?;
    Some(number * PIECE + within)
}

#[cfg(test)]
mod tests {
    use super::first_difference;

    #[test]
    fn the_first_difference() {
        let one = vec![7; 3 * 4096 + 5];
        assert_eq!(first_difference(&one, &one), None);
        for place in [0, 1, 4095, 4096, 8191, 3 * 4096 + 4] {
            let mut other = one.clone();
            other[place] = 8;
            other[3 * 4096 + 4] = 8;
            assert_eq!(first_difference(&one, &other), Some(place));
        }
    }
}
