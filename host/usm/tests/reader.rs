//! A film that is read piece by piece is the film that is read whole: the same header, chunks, streams and refusals.

use std::io::{Cursor, Read};

use films::{Film, Header, ShortReads};
use usm::{Audio, ChunkKind, Error, HeaderTable, Payloads, Reader, Reading, Refusal, Stream, Tables};

const KEY: u64 = 0x0123_4567_89AB_CDEF;

fn file(name: &str) -> Vec<u8> {
    std::fs::read(format!("{}/tests/{name}", env!("CARGO_MANIFEST_DIR"))).unwrap()
}

fn readings() -> Vec<Reading> {
    let mut readings = Vec::new();
    for audio in [Audio::All, Audio::None, Audio::Channel(1)] {
        for payloads in [Payloads::Original, Payloads::AfterHeader] {
            for tables in [Tables::Original, Tables::ZeroColumns] {
                readings.push(Reading::default().with_audio(audio).with_payloads(payloads).with_tables(tables));
            }
        }
    }
    readings
}

fn refused<T>(result: Result<T, Error>) -> Result<T, Refusal> {
    result.map_err(|error| error.refusal().unwrap_or_else(|| panic!("{error}")))
}

type Streams = [Vec<u8>; 2];

fn whole(film: &[u8], reading: Reading, key: Option<u64>) -> Result<Streams, Refusal> {
    let (mut video, mut audio) = (Vec::new(), Vec::new());
    refused(usm::extract_into(film, reading, key, &mut video, &mut audio))?;
    Ok([video, audio])
}

fn by_parts<R: Read>(reader: Result<Reader<R>, Error>, key: Option<u64>) -> Result<Streams, Refusal> {
    let mut streams = [Vec::new(), Vec::new()];
    let mut reader = refused(reader)?;
    while let Some(part) = refused(reader.next_part(key))? {
        streams[usize::from(part.stream == Stream::Audio)].extend_from_slice(part.bytes);
    }
    Ok(streams)
}

/// The tables of the header, which are in the film's opening as they are in the film.
fn tables_of(film: &[u8], reading: Reading) -> Result<Vec<HeaderTable>, Refusal> {
    let mut reader = refused(Reader::new(Cursor::new(film), reading))?;
    refused(reader.check())?;
    let opening = refused(reader.into_opening())?;
    assert!(film.starts_with(&opening.bytes));
    for table in &opening.tables {
        let csv = |bytes| refused(usm::csv(bytes, table.place, reading.tables)).unwrap();
        assert_eq!(csv(&opening.bytes), csv(film));
    }
    Ok(opening.tables)
}

/// Everything that a reader says of a film, beside the functions over the whole.
fn agrees(film: &[u8], reading: Reading) {
    for key in [None, Some(KEY)] {
        let expected = whole(film, reading, key);
        assert_eq!(by_parts(Reader::new(Cursor::new(film), reading), key), expected);
        let forward = Reader::forward(film, film.len() as u64, reading);
        assert_eq!(by_parts(forward, key), expected);
    }
    assert_eq!(tables_of(film, reading), usm::header_tables(film, reading));
    if reading == Reading::default() {
        let mut reader = Reader::new(Cursor::new(film), reading);
        let profile = reader.as_mut().map_err(|error| error.refusal().unwrap()).and_then(|reader| {
            refused(reader.next_chunk())?;
            refused(reader.profile())
        });
        assert_eq!(profile, usm::profile(film));
    }
    let listed = refused(usm::list(film, reading)).map(|chunks| {
        let chunk = |chunk: usm::Chunk| {
            (chunk.start, chunk.kind, chunk.data_type, chunk.letters, chunk.channel, chunk.payload.len())
        };
        chunks.iter().map(chunk).collect::<Vec<_>>()
    });
    let walked = refused(Reader::new(Cursor::new(film), reading)).and_then(|mut reader| {
        let outline = usm::outline(film, reading);
        let header = reader.header().clone();
        if let Ok(outline) = outline {
            assert_eq!(header.name.as_deref(), outline.name);
            assert_eq!((header.video.codec, header.video.kind), (outline.video.codec, outline.video.kind));
            let audio = header.audio.map(|format| (format.codec, format.kind));
            assert_eq!(audio, outline.audio.map(|track| (track.codec, track.kind)));
        }
        let mut chunks = Vec::new();
        for chunk in reader.chunks() {
            let chunk = refused(chunk)?;
            chunks.push((chunk.start, chunk.kind, chunk.data_type, chunk.letters, chunk.channel, chunk.length));
        }
        Ok(chunks)
    });
    assert_eq!(walked, listed);
    let bits = refused(Reader::new(Cursor::new(film), reading)).and_then(|mut reader| {
        let mut shown = reader.chunks().map(|chunk| refused(chunk).map(|chunk| chunk.mask.key_bits(chunk.length)));
        shown.try_fold(0, |most, bits| Ok(bits?.max(most)))
    });
    assert_eq!(bits, usm::key_bits(film, reading), "the bits of a key that the film shows");
}

/// Films whose payloads reach into the chunks after them, are longer than any window, or are empty.
fn odd_films() -> Vec<Vec<u8>> {
    let mut gaps = Film::new(&Header { name: Some(b"gaps"), audio: Some(Some(2)), ..Header::default() });
    for payload in [&b""[..], b"one", b"", b"", b"three", b""] {
        gaps.chunk(b"@SFV", 0, 0, payload);
        gaps.chunk(b"@SFA", 1, 0, &[5; 0x200]);
        gaps.chunk(b"@CUE", 0, 0, payload);
    }
    let mut overlaps = Film::new(&Header { audio: Some(Some(2)), ..Header::default() });
    for number in 0..20_u8 {
        let start = overlaps.bytes.len();
        let letters = if number % 3 == 0 { b"@SFA" } else { b"@SFV" };
        overlaps.chunk(letters, 0, 0, &vec![number; 0x260]);
        // A header size of 0: the payload is as long as the block, and reaches over the next chunk's head.
        overlaps.bytes[start + 9] = number % 0x19;
    }
    overlaps.end(b"@SFV");
    let mut long = Film::new(&Header { audio: Some(Some(2)), ..Header::default() });
    let payload: Vec<u8> = (0..700_000_u32).map(|at| (at.wrapping_mul(2_654_435_761) >> 24) as u8).collect();
    long.chunk(b"@SFV", 0, 0, &payload);
    long.chunk(b"@SFA", 0, 0, &payload[..300_000]);
    long.chunk(b"@SFV", 0, 1, &payload);
    long.end(b"@SFV");
    vec![gaps.bytes, overlaps.bytes, long.bytes, films::large(b"large", 3 << 20)]
}

/// A payload that reaches over the next chunk's head, where a window ends somewhere in between: the first window has the
/// film's first bytes, and those after it go on from there.
#[test]
fn a_window_that_ends_where_two_chunks_overlap() {
    const WINDOW_ENDS: usize = (16 << 10) + (256 << 10);
    for before in 0..0x20 {
        let mut film = Film::new(&Header { audio: Some(Some(2)), ..Header::default() });
        let start = film.bytes.len();
        // The next chunk starts some bytes before the window's end.
        let payload = WINDOW_ENDS - before - start - 0x20;
        film.bytes.extend(b"@SFV");
        film.bytes.extend((payload as u32 + 0x18).to_be_bytes());
        film.bytes.resize(start + 0x20, 0);
        film.bytes.extend((0..payload).map(|at| (at % 251) as u8));
        for _ in 0..3 {
            film.chunk(b"@SFV", 0, 0, &[7; 0x300]);
        }
        film.end(b"@SFV");
        agrees(&film.bytes, Reading::default());
    }
}

/// Payloads around the lengths of one and two pieces, stored clear and masked.
#[test]
fn payloads_about_as_long_as_a_piece() {
    const PIECE: usize = 256 << 10;
    for length in [PIECE - 1, PIECE, PIECE + 1, PIECE + 31, PIECE + 32, PIECE + 33, 2 * PIECE, 2 * PIECE + 5] {
        let mut film = Film::new(&Header { audio: Some(Some(2)), ..Header::default() });
        let payload: Vec<u8> = (0..length).map(|at| (at % 253) as u8).collect();
        film.chunk(b"@SFV", 0, 0, &payload);
        film.chunk(b"@SFA", 0, 0, &payload);
        film.chunk(b"@SFV", 0, 1, &payload);
        film.end(b"@SFV");
        agrees(&film.bytes, Reading::default());
    }
}

#[test]
fn odd_films_under_every_reading() {
    for film in odd_films() {
        for reading in readings() {
            agrees(&film, reading);
        }
    }
}

#[test]
fn every_cut_of_the_song() {
    let song = file("song.usm");
    for length in 0..=song.len() {
        for reading in [Reading::default(), Reading::default().with_audio(Audio::None)] {
            agrees(&song[..length], reading);
        }
    }
}

#[test]
fn every_byte_of_the_song_damaged() {
    let song = file("song.usm");
    for at in 0..song.len() {
        for other in [0, 0xFF, song[at] ^ 1, song[at] ^ 0x80] {
            let mut damaged = song.clone();
            damaged[at] = other;
            agrees(&damaged, Reading::default());
        }
    }
}

#[test]
fn a_reader_that_gives_a_few_bytes_at_a_time() {
    for film in [file("song.usm"), odd_films().swap_remove(1)] {
        for count in [1, 7, 44, 45, 46, 512] {
            let reader = Reader::new(ShortReads::new(Cursor::new(&film), count), Reading::default());
            assert_eq!(by_parts(reader, Some(KEY)), whole(&film, Reading::default(), Some(KEY)), "{count}");
        }
    }
}

#[test]
fn a_name_as_long_as_a_film() {
    for length in [0, 1, 16_000, 70_000, 3_000_000] {
        let name = b"\x83\x81".repeat(length);
        let mut film = Film::new(&Header { name: Some(&name), audio: Some(Some(2)), ..Header::default() });
        film.chunk(b"@SFV", 0, 0, &[7; 5000]);
        agrees(&film.bytes, Reading::default());
    }
}

#[test]
fn a_checked_film_is_read_from_its_first_chunk() {
    let song = file("song.usm");
    let mut reader = Reader::new(Cursor::new(&song), Reading::default()).unwrap();
    reader.check().unwrap();
    assert_eq!(by_parts(Ok(reader), Some(KEY)).unwrap()[0], file("song.video"));
    let cut = &song[..2000];
    let refusal = refused(Reader::new(Cursor::new(cut), Reading::default()).unwrap().check()).unwrap_err();
    assert_eq!(refusal.number, 1);
}

/// In the middle of a film, and from where its reader stood.
#[test]
fn back_to_a_chunk() {
    let bytes = [b"before".to_vec(), file("song.usm")].concat();
    let mut source = Cursor::new(bytes);
    source.set_position(6);
    let mut reader = Reader::new(source, Reading::default()).unwrap();
    let all: Vec<_> = reader.chunks().collect::<Result<_, _>>().unwrap();
    assert!(all.len() > 3);
    for (number, chunk) in all.iter().enumerate() {
        reader.back_to(chunk).unwrap();
        let rest: Vec<_> = reader.chunks().collect::<Result<_, _>>().unwrap();
        assert_eq!(rest, all[number..]);
    }
    reader.back_to(&all[1]).unwrap();
    assert_eq!(reader.next_part(None).unwrap().unwrap().bytes.len(), all[1].length);
}

#[test]
fn from_where_a_reader_stands() {
    let bytes = [b"before".to_vec(), file("song.usm")].concat();
    let mut source = Cursor::new(bytes);
    source.set_position(6);
    let mut video = Vec::new();
    let reader = Reader::new(source, Reading::default()).unwrap();
    reader.into_stream(Stream::Video, Some(KEY)).read_to_end(&mut video).unwrap();
    assert_eq!(video, file("song.video"));
}

#[test]
fn streams_as_readers() {
    let song = file("song.usm");
    for (stream, name) in [(Stream::Video, "song.video"), (Stream::Audio, "song.audio")] {
        let mut bytes = Vec::new();
        let reader = Reader::new(Cursor::new(&song), Reading::default()).unwrap();
        reader.into_stream(stream, Some(KEY)).read_to_end(&mut bytes).unwrap();
        assert_eq!(bytes, file(name));
    }
    let cut = &song[..2000];
    let reader = Reader::new(Cursor::new(cut), Reading::default()).unwrap();
    let error = reader.into_stream(Stream::Video, None).read_to_end(&mut Vec::new()).unwrap_err();
    assert_eq!(error.kind(), std::io::ErrorKind::InvalidData);
}

#[test]
fn a_source_that_ends_early_is_an_error() {
    let song = file("song.usm");
    let walk = |length: usize| {
        let mut reader = Reader::forward(&song[..length], song.len() as u64, Reading::default())?;
        reader.chunks().try_for_each(|chunk| chunk.map(|_| ()))
    };
    let error = walk(2000).unwrap_err();
    assert!(matches!(error, Error::Io(ref error) if error.kind() == std::io::ErrorKind::UnexpectedEof), "{error}");
}

#[test]
fn one_byte_over_the_limit_is_refused_by_length() {
    let error = Reader::forward(std::io::empty(), (1 << 30) + 1, Reading::default()).unwrap_err();
    assert_eq!(error.refusal().map(|refusal| refusal.number), Some(11));
}

/// The masks that steps give are those that `unmask` undoes.
#[test]
fn masks_are_those_of_the_streams() {
    let song = file("song.usm");
    let mut reader = Reader::new(Cursor::new(&song), Reading::default()).unwrap();
    let mut video = Vec::new();
    while let Some(chunk) = reader.next_chunk().unwrap() {
        if chunk.kind == ChunkKind::Video {
            let mut payload = reader.payload(&chunk).unwrap().to_vec();
            chunk.mask.clear(KEY, &mut payload);
            video.extend(payload);
        }
    }
    assert_eq!(video, file("song.video"));
}
