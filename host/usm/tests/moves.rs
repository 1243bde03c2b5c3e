//! Films of the old builder through the library. old.usm and old-dubbed.usm are the original's own.

use usm::{Codecs, Reading, Reason, Refusal, Streams};

const KEY: u64 = 0x0123_4567_89AB_CDEF;
const CODECS: Codecs = Codecs { video: Some(1), audio: Some(2) };

fn file(name: &str) -> Vec<u8> {
    std::fs::read(format!("{}/tests/{name}", env!("CARGO_MANIFEST_DIR"))).unwrap()
}

/// The refusal of a call, which fails for nothing else.
fn why<T: std::fmt::Debug>(result: Result<T, usm::Error>) -> Refusal {
    result.unwrap_err().refusal().expect("a refusal")
}

fn refused(number: u8, reason: Reason) -> Refusal {
    Refusal { number, place: 0, reason }
}

#[test]
fn what_the_builder_masked_is_extracted() {
    let film = usm::from_old(&file("old.usm"), CODECS).unwrap();
    let song = usm::extract(&film, Reading::default(), Some(KEY)).unwrap();
    assert_eq!((song.video, song.audio), (file("song.video"), Some(file("song.audio"))));
    assert_eq!(song.outline.name, Some(&b"songs/lark.usm"[..]));
    let (video, audio) = (file("song.video"), file("song.audio"));
    let streams = Streams::new(b"songs/lark.usm", &video).with_audio(&audio).with_codecs(Some(1), Some(2));
    assert_eq!(usm::pack(streams, Some(KEY)).unwrap(), film);
}

#[test]
fn there_and_back_under_every_choice_of_codecs() {
    let old = file("old.usm");
    for codecs in [Codecs::default(), CODECS, Codecs { audio: None, ..CODECS }, Codecs { video: None, ..CODECS }] {
        let film = usm::from_old(&old, codecs).unwrap();
        assert_eq!(usm::from_old_size(&old, codecs), Ok(film.len()));
        let outline = usm::outline(&film, Reading::default()).unwrap();
        let found = Codecs { video: outline.video.codec, audio: outline.audio.unwrap().codec };
        assert_eq!(found, codecs);
        assert_eq!(usm::to_old(&film).unwrap(), old);
    }
}

#[test]
fn streams_of_every_length_there_and_back() {
    let bytes: Vec<u8> = (0..140_000_u32).map(|at| (at.wrapping_mul(2_654_435_761) >> 24) as u8).collect();
    for length in [0, 1, 4, 5, 28, 32, 36, 65_535, 65_536, 65_537, 131_072, 140_000] {
        for audio in [None, Some(0), Some(1), Some(65_536), Some(131_073)] {
            let streams = Streams::new("映画🎞".as_bytes(), &bytes[..length]);
            let streams = audio.map_or(streams, |audio| streams.with_audio(&bytes[140_000 - audio..]));
            let film = usm::pack(streams, None).unwrap();
            let old = usm::to_old(&film).unwrap();
            assert!(old.len() < film.len());
            assert_eq!(usm::from_old(&old, Codecs::default()).unwrap(), film, "{length} {audio:?}");
        }
    }
}

#[test]
fn films_of_others_are_not_moved() {
    let foreign = refused(19, Reason::Foreign);
    let old = file("old.usm");
    let film = usm::from_old(&old, CODECS).unwrap();
    for other in [file("song.usm"), file("f.usm"), film.clone(), Vec::new()] {
        assert_eq!(why(usm::from_old(&other, CODECS)), foreign);
    }
    for other in [file("song.usm"), file("f.usm"), old.clone(), Vec::new()] {
        assert_eq!(why(usm::to_old(&other)), foreign);
    }
    for length in 0..old.len() {
        assert_eq!(why(usm::from_old(&old[..length], CODECS)), foreign, "{length}");
    }
    for length in 0..film.len() {
        assert_eq!(why(usm::to_old(&film[..length])), foreign, "{length}");
    }
    let shift_jis = usm::pack(Streams::new(b"\x83\x81", b"picture"), None).unwrap();
    assert_eq!(why(usm::to_old(&shift_jis)), foreign);
}

#[test]
fn other_refusals() {
    let dubbed = file("old-dubbed.usm");
    assert_eq!(why(usm::from_old(&dubbed, CODECS)), refused(20, Reason::ManyAudios));
    let silent = usm::to_old(&usm::pack(Streams::new(b"", b"-CONTENTS END"), None).unwrap()).unwrap();
    assert_eq!(why(usm::from_old(&silent, CODECS)), refused(23, Reason::CodecAlone));
    let mut marked = silent.clone();
    let payload = silent.windows(13).position(|bytes| bytes == b"-CONTENTS END").unwrap();
    marked[payload] = b'#';
    assert_eq!(why(usm::from_old(&marked, Codecs::default())), refused(15, Reason::MarkedPayload));
    let long = vec![0; usm::LONGEST_FILM + 1];
    assert_eq!(why(usm::from_old(&long, CODECS)), refused(11, Reason::TooLong));
    assert_eq!(why(usm::to_old(&long)), refused(11, Reason::TooLong));
    assert_eq!(why(usm::from_old(&long[1..], CODECS)), refused(19, Reason::Foreign));
}

#[test]
fn vectors_are_used_again_and_stay_where_a_film_is_refused() {
    let mut moved = b"mine".to_vec();
    usm::from_old_into(&file("f.usm"), CODECS, &mut moved).unwrap_err();
    usm::to_old_into(&file("f.usm"), &mut moved).unwrap_err();
    assert_eq!(moved, b"mine");
    let mut moved = vec![9; 5000];
    let room = moved.as_ptr();
    usm::from_old_into(&file("old.usm"), CODECS, &mut moved).unwrap();
    let film = moved.clone();
    usm::to_old_into(&film, &mut moved).unwrap();
    assert_eq!(moved, file("old.usm"));
    assert_eq!(moved.as_ptr(), room, "there was room enough");
}
