//! Films through the library: outlines, streams, chunks, refusals.

use films::{Film, Header};
use usm::{Audio, AudioKind, ChunkKind, Reading, Reason, Refusal, Stream, VideoKind};

const KEY: u64 = 0x0123_4567_89AB_CDEF;

fn file(name: &str) -> Vec<u8> {
    std::fs::read(format!("{}/tests/{name}", env!("CARGO_MANIFEST_DIR"))).unwrap()
}

fn without_audio() -> Reading {
    Reading::default().with_audio(Audio::None)
}

/// The refusal of a call, which fails for nothing else.
fn refused<T>(result: Result<T, usm::Error>) -> Option<Refusal> {
    result.err().map(|error| error.refusal().expect("a refusal"))
}

#[test]
fn the_maker_makes_f() {
    assert_eq!(films::f(), file("f.usm"));
}

#[test]
fn the_song_is_extracted() {
    let film = file("song.usm");
    let song = usm::extract(&film, Reading::default(), Some(KEY)).unwrap();
    assert_eq!(song.video, file("song.video"));
    assert_eq!(song.audio, Some(file("song.audio")));
    assert_eq!(song.outline.name, Some(&b"songs/lark.usm"[..]));
    assert_eq!((song.outline.video.codec, song.outline.video.kind), (Some(1), VideoKind::M2v));
    let audio = song.outline.audio.unwrap();
    assert_eq!((audio.codec, audio.kind, audio.size), (Some(2), AudioKind::Adx, 736));
}

#[test]
fn without_a_key_streams_are_as_stored() {
    let film = file("song.usm");
    let song = usm::extract(&film, Reading::default(), None).unwrap();
    assert_eq!(song.video.len(), 1453);
    assert_ne!(song.video, file("song.video"));
    let stored: Vec<u8> = usm::list(&film, Reading::default())
        .unwrap()
        .iter()
        .filter(|chunk| chunk.kind == ChunkKind::Video)
        .flat_map(|chunk| chunk.payload)
        .copied()
        .collect();
    assert_eq!(song.video, stored);
}

#[test]
fn audio_that_is_not_taken_is_known() {
    let film = file("song.usm");
    let song = usm::extract(&film, without_audio(), Some(KEY)).unwrap();
    assert_eq!(song.audio, None);
    assert_eq!(song.outline.audio.map(|track| (track.codec, track.size)), Some((Some(2), 0)));
    assert_eq!(song.video, file("song.video"));
    let chunks = usm::list(&film, without_audio()).unwrap();
    let audio: Vec<usize> =
        chunks.iter().filter(|chunk| chunk.kind == ChunkKind::Audio).map(|chunk| chunk.payload.len()).collect();
    assert_eq!(audio, [0, 0]);
}

#[test]
fn an_outline_is_that_of_the_extraction() {
    for film in [file("song.usm"), file("f.usm"), file("f.usm")[..301].to_vec(), wide(), films::large(b"x", 200_000)] {
        for reading in [Reading::default(), without_audio()] {
            let extracted = usm::extract(&film, reading, None).unwrap();
            assert_eq!(usm::outline(&film, reading).unwrap(), extracted.outline);
            let sizes = [extracted.video.len(), extracted.audio.map_or(0, |audio| audio.len())];
            assert_eq!(usm::sizes(&film, reading).unwrap(), sizes);
        }
    }
}

/// A film whose first table reaches over all other blocks, so that its header by itself is refused.
fn wide() -> Vec<u8> {
    let mut film = files_with_name();
    let body = (film.len() - 64) as u32;
    film[36..40].copy_from_slice(&(24 + body).to_be_bytes());
    film
}

fn files_with_name() -> Vec<u8> {
    let mut film = Film::new(&Header { name: Some(b"wide"), ..Header::default() });
    film.chunk(b"@SFV", 0, 0, &[1; 100]);
    film.end(b"@SFV");
    film.bytes
}

#[test]
fn a_film_without_chunks_has_empty_streams() {
    let film = &file("f.usm")[..301];
    let extracted = usm::extract(film, Reading::default(), None).unwrap();
    assert_eq!((extracted.video, extracted.audio), (Vec::new(), None));
    assert_eq!(extracted.outline.name, None);
    assert!(usm::list(film, Reading::default()).unwrap().is_empty());
}

#[test]
fn vectors_are_used_again_and_stay_where_a_film_is_refused() {
    let (mut video, mut audio) = (b"old".to_vec(), vec![9; 5000]);
    let cut = &file("song.usm")[..720];
    usm::extract_into(cut, Reading::default(), None, &mut video, &mut audio).unwrap_err();
    assert_eq!((&video[..], &audio[..]), (&b"old"[..], &[9; 5000][..]));
    let room = audio.as_ptr();
    usm::extract_into(&file("song.usm"), Reading::default(), Some(KEY), &mut video, &mut audio).unwrap();
    assert_eq!((video, &audio), (file("song.video"), &file("song.audio")));
    assert_eq!(audio.as_ptr(), room, "there was room enough");
}

#[test]
fn chunks_have_letters_channels_and_payloads() {
    let mut film = Film::new(&Header { audio: Some(None), ..Header::default() });
    film.chunk(b"@SFV", 0, 0, b"picture");
    film.chunk(b"@SFA", 3, 2, b"sound");
    film.chunk(b"@CUE", 7, 1, b"skipped");
    film.end(b"@SFA");
    let chunks = usm::list(&film.bytes, Reading::default()).unwrap();
    let found: Vec<_> =
        chunks.iter().map(|chunk| (chunk.kind, chunk.letters, chunk.channel, chunk.data_type, chunk.payload)).collect();
    assert_eq!(
        found,
        [
            (ChunkKind::Video, *b"@SFV", 0, 0, &b"picture"[..]),
            (ChunkKind::Audio, *b"@SFA", 3, 2, b"sound"),
            (ChunkKind::Other, *b"@CUE", 7, 1, b""),
            (ChunkKind::End, *b"@SFA", 0, 0, b""),
        ]
    );
    assert_eq!(chunks.get(1), chunks.iter().nth(1));
    assert_eq!(chunks.get(4), None);
    assert_eq!(chunks.iter().next_back(), chunks.get(3));
}

/// The song, a film whose payloads are empty at both ends and twice in a row, one without video, one without chunks.
fn films_to_jump_in() -> Vec<Vec<u8>> {
    let mut gaps = Film::new(&Header { audio: Some(None), ..Header::default() });
    for payload in [&b""[..], b"one", b"", b"", b"three", b""] {
        gaps.chunk(b"@SFV", 0, 0, payload);
        gaps.chunk(b"@SFA", 0, 0, b"sound");
    }
    let mut silent = Film::new(&Header { audio: Some(None), ..Header::default() });
    silent.chunk(b"@SFA", 0, 0, b"sound");
    vec![file("song.usm"), gaps.bytes, silent.bytes, file("f.usm")[..301].to_vec()]
}

#[test]
fn a_jump_finds_every_byte_of_the_video_and_none_past_it() {
    for film in films_to_jump_in() {
        let index = usm::index(&film).unwrap();
        let video = usm::extract(&film, without_audio(), None).unwrap().video;
        let found: Vec<u8> =
            (0..).map_while(|byte| index.seek(byte)).map(|place| film[place.chunk + 0x20 + place.offset]).collect();
        assert_eq!(found, video);
        assert_eq!(index.seek(usize::MAX), None);
    }
}

#[test]
fn an_index_has_the_video_payloads_of_the_list() {
    for film in films_to_jump_in() {
        let index = usm::index(&film).unwrap();
        let mut place = 0;
        let mut expected = Vec::new();
        for chunk in &usm::list(&film, without_audio()).unwrap() {
            if chunk.kind == ChunkKind::Video {
                expected.push((place, chunk.start, chunk.payload.len()));
                place += chunk.payload.len();
            }
        }
        let found: Vec<_> = index.entries().map(|entry| (entry.place, entry.chunk, entry.length)).collect();
        assert_eq!(found, expected);
        assert_eq!((index.len(), index.is_empty()), (found.len(), found.is_empty()));
    }
}

#[test]
fn refusals_have_number_place_and_reason() {
    let f = file("f.usm");
    let changed = |at: usize, bytes: &[u8]| {
        let mut film = f.clone();
        film[at..at + bytes.len()].copy_from_slice(bytes);
        usm::outline(&film, Reading::default()).map(|_| ()).unwrap_err()
    };
    let refusal = |number, place, reason| Refusal { number, place, reason };
    assert_eq!(usm::outline(&f[..428], Reading::default()).unwrap_err(), refusal(1, 384, Reason::RanOut));
    assert_eq!(changed(0, b"c"), refusal(2, 0, Reason::NoFilm));
    assert_eq!(changed(32, b"c"), refusal(3, 0, Reason::NoTable));
    assert_eq!(changed(64, b"c"), refusal(4, 64, Reason::NoVideo));
    assert_eq!(changed(160, b"c"), refusal(6, 128, Reason::NoHeaderEnd));
    assert_eq!(changed(288, b"c"), refusal(7, 256, Reason::NoMetadataEnd));
    assert_eq!(changed(328, &[0xFF]), refusal(9, 320, Reason::TooSmall));
    assert_eq!(changed(32 + 24, &[0, 65]), refusal(10, 0, Reason::TooMany));
    let song = file("song.usm");
    let mut film = song.clone();
    let header_end = 384;
    assert_eq!(&film[header_end..header_end + 4], b"@SFA");
    film[header_end] = 0;
    assert_eq!(usm::outline(&film, Reading::default()).unwrap_err(), refusal(5, header_end, Reason::NoAudio));
    film = song.clone();
    assert_eq!(film[64], 0x3A, "the constant column of the name");
    film[64] = 0x37;
    assert_eq!(usm::outline(&film, Reading::default()).unwrap_err(), refusal(8, 0, Reason::UnknownType(7)));
    assert_eq!(Refusal::by_length(1 << 30), Ok(()));
    assert_eq!(Refusal::by_length((1 << 30) + 1), Err(refusal(11, 0, Reason::TooLong)));
}

#[test]
fn one_byte_over_the_limit_is_refused() {
    let film = vec![0; usm::LONGEST_FILM + 1];
    let by_length = Refusal::by_length(film.len() as u64);
    assert_eq!(usm::outline(&film, Reading::default()).map(|_| ()), by_length);
    assert_eq!(usm::count(&film, Reading::default()).map(|_| ()), by_length);
    assert_eq!(usm::outline(&film[1..], Reading::default()).unwrap_err().reason, Reason::NoFilm);
}

#[test]
fn every_cut_has_one_answer_from_every_function() {
    let song = file("song.usm");
    for length in 0..=song.len() {
        let film = &song[..length];
        for reading in [Reading::default(), without_audio()] {
            let refusal = refused(usm::extract(film, reading, Some(1)));
            assert_eq!(usm::outline(film, reading).err(), refusal);
            assert_eq!(refused(usm::list(film, reading)), refusal);
            assert_eq!(usm::sizes(film, reading).err(), refusal);
            assert_eq!(usm::key_bits(film, reading).err(), refusal);
        }
        assert_eq!(refused(usm::index(film)), usm::sizes(film, without_audio()).err());
    }
}

#[test]
fn masks_undo_each_other_and_leave_what_is_short() {
    for stream in [Stream::Video, Stream::Audio] {
        for length in [0, 0x140, 0x141, 0x23F, 0x240, 0x1000] {
            let clear: Vec<u8> = (0..length).map(|at: usize| at as u8).collect();
            let mut payload = clear.clone();
            usm::mask(stream, KEY, &mut payload);
            let stays = length < if stream == Stream::Video { 0x240 } else { 0x141 };
            assert_eq!(payload == clear, stays, "{stream:?} {length}");
            usm::unmask(stream, KEY, &mut payload);
            assert_eq!(payload, clear);
        }
    }
    let table = usm::key_table(0);
    assert_eq!(table.t[..4], [0, 0, 0, 0xCC]);
    assert_eq!(table.v[3], 0x33);
    assert_eq!(table.a[..4], [0xFF, 0x55, 0xFF, 0x52]);
}

/// What `Debug` prints goes to logs: it has the beginning of long bytes, and how many there are.
#[test]
fn debug_prints_no_whole_film() {
    let film = films::large(&[b'n'; 5000], 1 << 20);
    let extracted = usm::extract(&film, Reading::default(), None).unwrap();
    let chunks = usm::list(&film, Reading::default()).unwrap();
    let table = usm::table(&film, 32, usm::Tables::Original).unwrap();
    let reader = usm::Reader::new(std::io::Cursor::new(&film), Reading::default()).unwrap();
    let streams = usm::Streams::new(&film, &film).with_audio(&film);
    let printed = [
        format!("{extracted:?}"),
        format!("{chunks:?} {:?}", chunks.iter()),
        format!("{:?}", chunks.get(0)),
        format!("{table:?} {:?} {:?}", table.rows().next(), table.cell(b"filename", 0)),
        format!("{reader:?} {:?}", reader.header()),
        format!("{streams:?} {:?}", usm::salvage(&film)),
        format!("{:?}", usm::index(&film)),
    ];
    for text in printed {
        assert!(text.len() < 1000, "{} bytes: {}", text.len(), &text[..1000]);
    }
    assert!(format!("{extracted:?}").contains(&format!("video: b\"{}", extracted.video[..4].escape_ascii())));
    assert!(format!("{:?}", extracted.outline).contains(&format!("b\"{}\".. (5000 bytes)", "n".repeat(32))));
    assert!(format!("{:?}", table.columns()).contains("name: b\"filename\""));
}
