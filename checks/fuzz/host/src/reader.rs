//! `usm::Reader` over a source that gives what it likes, beside the functions over the whole film.

use std::io::{self, Read, Seek, SeekFrom};

use usm::{Audio, ChunkKind, Error, Payloads, Reader, Reading, Stream, Tables};

/// As harness.h has them.
const OPTIONS: usize = 25;

struct Asked<'a> {
    reading: Reading,
    key: Option<u64>,
    /// The byte at which the source fails, if it is in the film.
    failing: u64,
    rooms: [u8; 2],
    film: &'a [u8],
}

impl Asked<'_> {
    fn of(input: &[u8]) -> Asked<'_> {
        let mut head = [0; OPTIONS];
        let own = input.len().min(OPTIONS);
        head[..own].copy_from_slice(&input[..own]);
        let audio = match head[0] {
            0 => Audio::None,
            2 => Audio::Channel(head[1]),
            _ => Audio::All,
        };
        let payloads = if head[2] == 1 { Payloads::AfterHeader } else { Payloads::Original };
        let tables = if head[3] == 1 { Tables::ZeroColumns } else { Tables::Original };
        let number = |at: usize| u64::from_le_bytes(head[at..at + 8].try_into().expect("8 bytes"));
        Asked {
            reading: Reading::default().with_audio(audio).with_payloads(payloads).with_tables(tables),
            key: (head[4] != 0).then(|| number(5)),
            failing: number(13),
            rooms: [head[21], head[22]],
            film: &input[own..],
        }
    }
}

/// A film that is read in pieces of a few bytes, is interrupted now and then, and fails at a byte.
struct Source<'a> {
    film: &'a [u8],
    place: u64,
    rooms: [u8; 2],
    turn: usize,
    failing: Option<u64>,
}

impl<'a> Source<'a> {
    fn new(asked: &Asked<'a>, failing: Option<u64>) -> Source<'a> {
        Source { film: asked.film, place: 0, rooms: asked.rooms, turn: 0, failing }
    }
}

impl Read for Source<'_> {
    fn read(&mut self, into: &mut [u8]) -> io::Result<usize> {
        self.turn += 1;
        if self.turn.is_multiple_of(7) {
            return Err(io::ErrorKind::Interrupted.into());
        }
        let rest = self.film.get(self.place as usize..).unwrap_or_default();
        let most = 1 + usize::from(self.rooms[self.turn % 2]) * 16;
        let count = rest.len().min(into.len()).min(most);
        if let Some(failing) = self.failing.filter(|failing| (self.place..self.place + count as u64).contains(failing))
        {
            return Err(io::Error::other(format!("it fails at {failing}")));
        }
        into[..count].copy_from_slice(&rest[..count]);
        self.place += count as u64;
        Ok(count)
    }
}

impl Seek for Source<'_> {
    fn seek(&mut self, to: SeekFrom) -> io::Result<u64> {
        let place = match to {
            SeekFrom::Start(place) => Some(place),
            SeekFrom::Current(by) => self.place.checked_add_signed(by),
            SeekFrom::End(by) => (self.film.len() as u64).checked_add_signed(by),
        };
        self.place = place.ok_or(io::ErrorKind::InvalidInput)?;
        Ok(self.place)
    }
}

/// Both streams by parts, or what went wrong.
fn streams<R: Read>(reader: &mut Reader<R>, key: Option<u64>) -> Result<[Vec<u8>; 2], Error> {
    let mut streams = [Vec::new(), Vec::new()];
    while let Some(part) = reader.next_part(key)? {
        streams[usize::from(part.stream == Stream::Audio)].extend_from_slice(part.bytes);
    }
    Ok(streams)
}

/// The film by a reader that does not fail: its header, its chunks and its streams are those of the whole.
fn compare<R: Read>(asked: &Asked, open: impl Fn() -> Result<Reader<R>, Error>) {
    let whole = usm::extract(asked.film, asked.reading, asked.key);
    let mut reader = match open() {
        Ok(reader) => reader,
        Err(error) => return same_refusal(&error, whole.err()),
    };
    let parts = streams(&mut reader, asked.key);
    let (film, [video, audio]) = match (whole, parts) {
        (Ok(film), Ok(parts)) => (film, parts),
        (whole, Err(error)) => return same_refusal(&error, whole.err()),
        (Err(error), Ok(_)) => panic!("the reader accepts what is refused: {error}"),
    };
    assert_eq!(film.video, video, "another video by parts");
    assert_eq!(film.audio.unwrap_or_default(), audio, "another audio by parts");
    let header = reader.header();
    assert_eq!(header.name.as_deref(), film.outline.name, "another name");
    assert_eq!(header.video.codec, film.outline.video.codec, "another video codec");
    let codecs = (header.audio.map(|audio| audio.codec), film.outline.audio.map(|audio| audio.codec));
    assert_eq!(codecs.0, codecs.1, "another audio codec");
    compare_chunks(asked, &mut open().expect("a film that was opened before"));
}

fn compare_chunks<R: Read>(asked: &Asked, reader: &mut Reader<R>) {
    let list = usm::list(asked.film, asked.reading).expect("the list of a film that is extracted");
    let mut bits = 0;
    for chunk in &list {
        let own = reader.next_chunk().expect("a chunk").expect("as many chunks");
        let listed = (chunk.start, chunk.kind, chunk.data_type, chunk.channel, chunk.payload.len());
        assert_eq!(listed, (own.start, own.kind, own.data_type, own.channel, own.length), "another chunk");
        if matches!(own.kind, ChunkKind::Video | ChunkKind::Audio) && own.length > 0 {
            assert_eq!(reader.payload(&own).expect("its payload"), chunk.payload, "another payload");
        }
        bits = bits.max(own.mask.key_bits(own.length));
    }
    assert!(reader.next_chunk().expect("an end").is_none(), "more chunks");
    assert_eq!(Ok(bits), usm::key_bits(asked.film, asked.reading), "other bits");
}

fn same_refusal(error: &Error, whole: Option<Error>) {
    let (by_parts, whole) = (error.to_string(), whole.map(|error| error.to_string()));
    assert_eq!(Some(by_parts), whole, "another refusal by parts");
}

/// A source that fails gives its error or a refusal, and where it fails past what is read, nothing else changes.
fn try_failing(asked: &Asked) {
    let failing = asked.failing % (asked.film.len() as u64 + 1);
    let source = Source::new(asked, Some(failing));
    if let Ok(parts) = Reader::new(source, asked.reading).and_then(|mut reader| streams(&mut reader, asked.key)) {
        let film = usm::extract(asked.film, asked.reading, asked.key).expect("what a failing source gave whole");
        assert_eq!((film.video, film.audio.unwrap_or_default()), (parts[0].clone(), parts[1].clone()));
    }
}

pub fn fuzz(input: &[u8]) {
    let asked = Asked::of(input);
    compare(&asked, || Reader::new(Source::new(&asked, None), asked.reading));
    compare(&asked, || Reader::forward(Source::new(&asked, None), asked.film.len() as u64, asked.reading));
    try_failing(&asked);
}
