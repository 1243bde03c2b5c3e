//! A film under another key: the same film but for its masked payloads, and the same streams under the new key.

use std::io::{Cursor, Read, Seek};

use films::{Film, Header, ShortReads};
use usm::{Error, Reader, Reading, Rule, Stream};

const KEYS: [u64; 3] = [0x0123_4567_89AB_CDEF, 0xFEDC_BA98_7654_3210, 7];

fn song() -> Vec<u8> {
    std::fs::read(format!("{}/tests/song.usm", env!("CARGO_MANIFEST_DIR"))).unwrap()
}

fn rekeyed_from<R: Read + Seek>(source: R, from: u64, to: u64) -> Result<Vec<u8>, Error> {
    let mut reader = Reader::new(source, Reading::default())?;
    let mut rekeying = reader.rekey(from, to)?;
    let mut film = Vec::new();
    while let Some(piece) = rekeying.next_piece()? {
        assert!(!piece.is_empty());
        film.extend_from_slice(piece);
    }
    assert!(rekeying.next_piece()?.is_none(), "it stays over");
    Ok(film)
}

fn rekeyed(film: &[u8], from: u64, to: u64) -> Vec<u8> {
    rekeyed_from(Cursor::new(film), from, to).unwrap()
}

/// The same by the functions over whole films: every payload of the list by itself.
fn by_the_list(film: &[u8], from: u64, to: u64) -> Vec<u8> {
    let mut new = film.to_vec();
    let is_adx = usm::outline(film, Reading::default()).unwrap().audio.is_some_and(|audio| audio.codec == Some(2));
    for chunk in &usm::list(film, Reading::default()).unwrap() {
        let stream = match chunk.kind {
            usm::ChunkKind::Video => Stream::Video,
            usm::ChunkKind::Audio if is_adx => Stream::Audio,
            _ => continue,
        };
        if chunk.data_type == 0 {
            let payload = &mut new[chunk.start + 0x20..][..chunk.payload.len()];
            usm::unmask(stream, from, payload);
            usm::mask(stream, to, payload);
        }
    }
    new
}

/// Both streams, payloads of other data types, of other letters, empty ones, one that is longer than a window, a long
/// name, and a last chunk that is cut and still read.
fn films() -> Vec<Vec<u8>> {
    let mut film = Film::new(&Header { name: Some(&[b'n'; 100_000]), video_codec: Some(1), audio: Some(Some(2)) });
    let long: Vec<u8> = (0..700_000_u32).map(|at| (at.wrapping_mul(2_654_435_761) >> 24) as u8).collect();
    for (letters, data_type, payload) in [
        (b"@SFV", 0, &long[..]),
        (b"@SFA", 0, &long[..0x141]),
        (b"@SFV", 0, b""),
        (b"@CUE", 0, &long[..300]),
        (b"@SFV", 1, &long[..0x300]),
        (b"@SFA", 2, &long[..0x300]),
        (b"@SFV", 0, &long[..0x23F]),
        (b"@SFV", 0, &long[..0x240]),
        (b"@SFA", 0, &long[..]),
    ] {
        film.chunk(letters, 3, data_type, payload);
    }
    film.end(b"@SFV");
    film.end(b"@SFA");
    let cut = film.bytes[..film.bytes.len() - 10].to_vec();
    let mut hca = Film::new(&Header { audio: Some(Some(4)), ..Header::default() });
    hca.chunk(b"@SFA", 0, 0, &long[..0x400]);
    hca.chunk(b"@SFV", 0, 0, &long[..0x400]);
    vec![song(), films::f(), film.bytes, cut, hca.bytes, Film::new(&Header::default()).bytes]
}

#[test]
fn streams_under_the_new_key_are_those_under_the_old() {
    let [a, b, _] = KEYS;
    for film in films() {
        let new = rekeyed(&film, a, b);
        assert_eq!(new, by_the_list(&film, a, b));
        let [before, after] = [(&film, a), (&new, b)].map(|(film, key)| {
            let film = usm::extract(film, Reading::default(), Some(key)).unwrap();
            (film.video, film.audio)
        });
        assert_eq!(before, after);
    }
}

/// Request 11: over and over.
#[test]
fn keys_change_over_and_over() {
    let [a, b, c] = KEYS;
    for film in films() {
        let there = rekeyed(&film, a, b);
        assert_eq!(rekeyed(&there, b, c), rekeyed(&film, a, c));
        assert_eq!(rekeyed(&there, b, a), film);
        assert_eq!(rekeyed(&film, a, a), film);
    }
}

#[test]
fn however_the_bytes_come() {
    for film in films() {
        let whole = rekeyed(&film, KEYS[0], KEYS[1]);
        for count in [1000, 4097] {
            let short = ShortReads::new(Cursor::new(&film), count);
            assert_eq!(rekeyed_from(short, KEYS[0], KEYS[1]).unwrap(), whole);
        }
    }
    let song = song();
    assert_eq!(rekeyed_from(ShortReads::new(Cursor::new(&song), 1), 1, 2).unwrap(), rekeyed(&song, 1, 2));
}

#[test]
fn headers_of_other_sizes() {
    for (size, payload) in [(0x10_u8, 0x400), (0x17, 0x400), (0x19, 0x400), (0x20, 0x400), (0x20, 0x20)] {
        let mut film = Film::new(&Header::default());
        film.chunk(b"@SFV", 0, 0, &vec![7; 0x300]);
        let start = film.bytes.len();
        film.chunk(b"@SFV", 0, 0, &vec![7; payload]);
        film.chunk(b"@SFV", 0, 0, &vec![7; 0x300]);
        film.bytes[start + 9] = size;
        let error = rekeyed_from(Cursor::new(&film.bytes), 1, 2).unwrap_err();
        let Error::NotPlain(offence) = error else { panic!("{error}") };
        assert_eq!((offence.rule, offence.place), (Rule::HeaderSize, start), "{size:#x}");
    }
    // The header of a chunk that is skipped changes nothing.
    let song = song();
    assert_eq!(usm::profile(&song).unwrap().unwrap().rule, Rule::HeaderSize);
    assert!(rekeyed_from(Cursor::new(&song), 1, 2).is_ok());
}

#[test]
fn a_film_that_is_refused() {
    let film = song();
    for end in [0, 100, 660, 1000, film.len() - 60] {
        let [by_steps, whole] = [
            rekeyed_from(Cursor::new(&film[..end]), 1, 2).err().and_then(|error| error.refusal()),
            usm::extract(&film[..end], Reading::default(), None).err().and_then(|error| error.refusal()),
        ];
        assert!(whole.is_some(), "{end}");
        assert_eq!(by_steps, whole, "{end}");
    }
}
