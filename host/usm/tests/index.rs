//! An index by steps is that of the whole film, on films of every kind and cut anywhere.

use std::io::Cursor;

use films::{Film, Header};
use usm::{Audio, Entry, Index, Reader, Reading};

fn by_steps(film: &[u8]) -> Result<Index, usm::Error> {
    Reader::new(Cursor::new(film), Reading::default().with_audio(Audio::None))?.index()
}

fn song() -> Vec<u8> {
    std::fs::read(format!("{}/tests/song.usm", env!("CARGO_MANIFEST_DIR"))).unwrap()
}

#[test]
fn the_same_as_of_the_whole_film() {
    let mut overlaps = Film::new(&Header { audio: Some(Some(2)), ..Header::default() });
    for number in 0..20_u8 {
        let start = overlaps.bytes.len();
        overlaps.chunk(if number % 3 == 0 { b"@SFA" } else { b"@SFV" }, 0, 0, &vec![number; 0x260]);
        overlaps.bytes[start + 9] = number % 0x19;
    }
    overlaps.end(b"@SFV");
    let mut empty = Film::new(&Header::default());
    for payload in [&b""[..], b"one", b"", b"", b"three", b""] {
        empty.chunk(b"@SFV", 0, 0, payload);
        empty.chunk(b"@CUE", 0, 0, payload);
    }
    empty.end(b"@SFV");
    for film in [song(), films::f(), films::large(b"large", 3_000_000), overlaps.bytes, empty.bytes] {
        assert_eq!(by_steps(&film).unwrap(), usm::index(&film).unwrap());
    }
    let song = song();
    for end in 0..song.len() {
        let [steps, whole] = [by_steps(&song[..end]), usm::index(&song[..end])]
            .map(|index| index.map_err(|error| error.refusal().unwrap()));
        assert_eq!(steps, whole, "{end}");
    }
}

#[test]
fn an_index_that_was_kept() {
    let index = usm::index(&song()).unwrap();
    let kept: Vec<Entry> = index.entries().collect();
    let back = Index::from_entries(kept.len(), kept.iter().copied()).unwrap();
    assert_eq!(back, index);
    assert!((0..2000).all(|byte| back.seek(byte) == index.seek(byte)));
    // Whatever is kept, there is an answer.
    let odd = [(usize::MAX, usize::MAX, usize::MAX), (5, 0, 0), (0, 7, 9)].map(|(a, b, c)| Entry::new(a, b, c));
    let odd = Index::from_entries(3, odd.into_iter()).unwrap();
    for byte in [0, 1, 5, 6, usize::MAX - 1, usize::MAX] {
        odd.seek(byte);
    }
}
