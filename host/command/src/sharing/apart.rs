//! Where the streams of a film part under two keys.

use std::io::{Read, Seek};

use usm::{ChunkHead, ChunkKind, Reader, Stream};

use crate::output::Error;
use crate::output::numbers::grouped;

/// The first byte at which a film's streams differ under two keys: of the video, or of the audio where no byte of the
/// video does.
#[derive(Clone, Copy, PartialEq, Eq, Debug)]
pub struct Apart {
    pub is_audio: bool,
    /// Its place in the stream.
    pub byte: u64,
    /// The start of the chunk whose payload it stands in.
    pub chunk: u64,
}

impl Apart {
    pub fn stream(&self) -> &'static str {
        if self.is_audio { "audio" } else { "video" }
    }

    /// For people.
    pub fn sentence(&self) -> String {
        let Apart { byte, chunk, .. } = *self;
        format!(
            "First byte that differs: {} of the {}, in the chunk at {}",
            grouped(byte),
            self.stream(),
            grouped(chunk)
        )
    }
}

/// Where the streams of a film part under one key and under each of others; `None` where they are the same. No payload is
/// read.
pub fn of<R: Read + Seek>(reader: &mut Reader<R>, one: u64, others: &[u64]) -> Result<Vec<Option<Apart>>, Error> {
    reader.rewind()?;
    let mut found = vec![Streams::<Option<Apart>>::default(); others.len()];
    let mut passed = Streams::<u64>::default();
    while let Some(chunk) = reader.next_chunk()? {
        let Some(stream) = stream_of(&chunk) else { continue };
        for (&other, found) in others.iter().zip(&mut found) {
            let found = found.of(stream);
            if found.is_none() {
                *found = at(stream, *passed.of(stream), &chunk, in_payload(&chunk, one, other));
            }
        }
        *passed.of(stream) += chunk.length as u64;
    }
    Ok(found.into_iter().map(Streams::first).collect())
}

/// The first byte of a chunk's payload that differs under two keys, once it is clear. Where the payload shows no bit in
/// which they differ none does, and none is looked for.
pub fn in_payload(chunk: &ChunkHead, one: u64, other: u64) -> Option<usize> {
    let is_shown = (one ^ other) & chunk.mask.key_bits(chunk.length) != 0;
    is_shown.then(|| chunk.mask.apart(chunk.length, one, other)).flatten()
}

/// The stream that a chunk's payload is a part of.
pub fn stream_of(chunk: &ChunkHead) -> Option<Stream> {
    match chunk.kind {
        ChunkKind::Video => Some(Stream::Video),
        ChunkKind::Audio => Some(Stream::Audio),
        _ => None,
    }
}

/// Something of each stream.
#[derive(Clone, Copy, Default)]
pub struct Streams<T> {
    pub video: T,
    pub audio: T,
}

impl<T> Streams<T> {
    pub fn of(&mut self, stream: Stream) -> &mut T {
        match stream {
            Stream::Video => &mut self.video,
            Stream::Audio => &mut self.audio,
        }
    }
}

impl Streams<Option<Apart>> {
    /// A difference in the video counts before one in the audio.
    pub fn first(self) -> Option<Apart> {
        self.video.or(self.audio)
    }
}

/// A byte of a chunk's payload, which begins at a byte of its stream.
pub fn at(stream: Stream, start: u64, chunk: &ChunkHead, byte: Option<usize>) -> Option<Apart> {
    byte.map(|byte| Apart { is_audio: stream == Stream::Audio, byte: start + byte as u64, chunk: chunk.start as u64 })
}

#[cfg(test)]
mod tests {
    use std::io::Cursor;

    use films::{Film, Header};
    use usm::{Reader, Reading, extract};

    use super::Apart;

    fn of(film: &[u8], one: u64, other: u64) -> Option<Apart> {
        let mut reader = Reader::new(Cursor::new(film), Reading::default()).unwrap();
        let found = super::of(&mut reader, one, &[other, one]).unwrap();
        assert_eq!(found[1], None);
        found[0]
    }

    /// A film with short and long payloads of both streams, and one of another data type.
    fn film() -> Vec<u8> {
        let mut film = Film::new(&Header { audio: Some(Some(2)), ..Header::default() });
        film.chunk(b"@SFV", 0, 0, &[1; 0x23F]);
        film.chunk(b"@SFA", 0, 0, &[2; 0x143]);
        film.chunk(b"@SFV", 0, 1, &[3; 0x400]);
        film.chunk(b"@SFA", 0, 0, &[4; 0x159]);
        film.chunk(b"@SFV", 0, 0, &[5; 0x400]);
        film.end(b"@SFV");
        film.end(b"@SFA");
        film.bytes
    }

    /// Where the unpacked streams part, by looking at every byte.
    fn unpacked(film: &[u8], one: u64, other: u64) -> Option<(bool, u64)> {
        let [one, other] = [one, other].map(|key| extract(film, Reading::default(), Some(key)).unwrap());
        let place = |one: &[u8], other: &[u8]| one.iter().zip(other).position(|(one, other)| one != other);
        let video = place(&one.video, &other.video).map(|byte| (false, byte as u64));
        video.or(place(one.audio.as_ref()?, other.audio.as_ref()?).map(|byte| (true, byte as u64)))
    }

    #[test]
    fn streams_part_where_the_unpacked_ones_do() {
        let whole = film();
        let mut short = Film::new(&Header { audio: Some(Some(2)), ..Header::default() });
        short.chunk(b"@SFV", 0, 0, &[1; 0x23F]);
        short.chunk(b"@SFA", 0, 0, &[2; 0x143]);
        short.chunk(b"@SFA", 0, 0, &[2; 0x158]);
        for film in [&whole, &short.bytes] {
            for bit in 0..64 {
                for key in [0, 0x0123_4567_89AB_CDEF] {
                    let other = key ^ (1 << bit);
                    let apart = of(film, key, other);
                    let said = apart.map(|apart| (apart.is_audio, apart.byte));
                    assert_eq!(said, unpacked(film, key, other), "bit {bit}");
                    let whole = usm::apart(film, Reading::default(), key, other).unwrap();
                    let whole = whole.map(|whole| (whole.byte as u64, whole.chunk as u64));
                    assert_eq!(apart.map(|apart| (apart.byte, apart.chunk)), whole, "bit {bit}");
                }
            }
        }
        let chunks: Vec<u64> = usm::list(&whole, Reading::default()).unwrap().iter().map(|c| c.start as u64).collect();
        let Some(Apart { chunk, .. }) = of(&whole, 0, 1) else { panic!("the keys differ") };
        assert_eq!(chunk, chunks[4], "the video that shows the key, though audio shows it before");
        let Some(Apart { chunk, .. }) = of(&short.bytes, 0, 1 << 34) else { panic!("the keys differ") };
        assert_eq!(chunk, usm::list(&short.bytes, Reading::default()).unwrap().get(2).unwrap().start as u64);
    }
}
