//! Films packed piece by piece, beside those that are packed whole.

use std::io::{self, Read, Write};

use usm::{Error, Lengths, Reason, Streams};

/// Bytes of a stream, none of which marks an end.
fn stream(len: usize, first: u8) -> Vec<u8> {
    (0..len).map(|i| first.wrapping_add((i % 251) as u8)).collect()
}

/// The film of two streams by pieces, and the error where there is none.
fn by_pieces(lengths: Lengths, key: Option<u64>, video: &[u8], audio: &[u8]) -> Result<Vec<u8>, Error> {
    let mut film = Vec::new();
    let written = usm::pack_to(lengths, key, video, audio, &mut film)?;
    assert_eq!(written, film.len() as u64);
    Ok(film)
}

#[test]
fn pieces_are_the_film_that_is_packed_whole() {
    let lens = [0, 1, 32, 33, 65_535, 65_536, 65_537, 200_000];
    for (video_len, audio_len) in lens.iter().flat_map(|v| lens.iter().map(move |a| (*v, *a))) {
        let (video, audio) = (stream(video_len, 3), stream(audio_len, 5));
        for key in [None, Some(0), Some(0x0123_4567_89AB_CDEF)] {
            for codec in [None, Some(2), Some(4)] {
                let streams = Streams::new(b"lark", &video).with_audio(&audio).with_codecs(Some(9), codec);
                let lengths = Lengths::new(b"lark", video_len).with_audio(audio_len).with_codecs(Some(9), codec);
                assert_eq!(by_pieces(lengths, key, &video, &audio).unwrap(), usm::pack(streams, key).unwrap());
            }
            let silent = by_pieces(Lengths::new(b"", video_len), key, &video, &[]).unwrap();
            assert_eq!(silent, usm::pack(Streams::new(b"", &video), key).unwrap());
        }
    }
}

#[test]
fn what_is_refused_whole_is_refused_by_pieces() {
    let why =
        |lengths, video: &[u8]| by_pieces(lengths, None, video, &[]).unwrap_err().refusal().expect("a refusal").reason;
    let alone = Lengths::new(b"", 0).with_codecs(None, Some(2));
    assert_eq!(why(alone, &[]), Reason::CodecAlone);
    assert_eq!(why(Lengths::new(b"", 1 << 30), &[]), Reason::TooLong);
    assert_eq!(why(Lengths::new(b"", usize::MAX), &[]), Reason::TooLong);
    let late = [stream(65_536, 1), b"#CONTENTS END".to_vec()].concat();
    assert_eq!(why(Lengths::new(b"", late.len()), &late), Reason::MarkedPayload);
}

/// What is refused of lengths is refused before, and only that.
#[test]
fn lengths_are_checked_before() {
    let why = |lengths: Lengths| lengths.check().map_err(|refusal| refusal.reason);
    assert_eq!(why(Lengths::new(b"lark", 100_000).with_audio(0).with_codecs(None, Some(2))), Ok(()));
    assert_eq!(why(Lengths::new(b"", 0).with_codecs(None, Some(2))), Err(Reason::CodecAlone));
    assert_eq!(why(Lengths::new(b"", 1 << 30)), Err(Reason::TooLong));
    assert_eq!(why(Lengths::new(b"", 0).with_audio(1 << 30)), Err(Reason::TooLong));
}

/// Counts the calls of what it reads from or writes to.
struct Counted<T>(T, usize);

impl<T: Read> Read for Counted<T> {
    fn read(&mut self, room: &mut [u8]) -> io::Result<usize> {
        self.1 += 1;
        self.0.read(room)
    }
}

impl<T: Write> Write for Counted<T> {
    fn write(&mut self, bytes: &[u8]) -> io::Result<usize> {
        self.1 += 1;
        self.0.write(bytes)
    }

    fn flush(&mut self) -> io::Result<()> {
        self.0.flush()
    }
}

#[test]
fn a_chunk_takes_one_call_to_read_and_one_to_write() {
    let (video, audio) = (stream(200_000, 1), stream(70_001, 2));
    let (mut pictures, mut sound, mut film) = (Counted(&video[..], 0), Counted(&audio[..], 0), Counted(io::sink(), 0));
    let lengths = Lengths::new(b"", video.len()).with_audio(audio.len());
    usm::pack_to(lengths, Some(1), &mut pictures, &mut sound, &mut film).unwrap();
    // Four payloads and two, and beside their chunks the header and the ends.
    assert_eq!((pictures.1, sound.1, film.1), (4, 2, 4 + 2 + 2));
}

#[test]
fn no_more_is_read_than_the_lengths_say() {
    let (video, mut audio) = (stream(70_000, 1), io::repeat(7));
    let mut film = Vec::new();
    usm::pack_to(Lengths::new(b"", 66_000).with_audio(10), None, &video[..], &mut audio, &mut film).unwrap();
    assert_eq!(film, usm::pack(Streams::new(b"", &video[..66_000]).with_audio(&[7; 10]), None).unwrap());
    let short = usm::pack_to(Lengths::new(b"", 70_001), None, &video[..], io::empty(), io::sink()).unwrap_err();
    assert!(matches!(short, Error::Io(error) if error.kind() == io::ErrorKind::UnexpectedEof));
}

#[test]
fn a_writer_that_fails_gives_its_error() {
    let mut room = [0; 500];
    let full = usm::pack_to(Lengths::new(b"", 1_000), None, io::repeat(1), io::empty(), &mut room[..]).unwrap_err();
    assert!(matches!(full, Error::Io(error) if error.kind() == io::ErrorKind::WriteZero));
    // The header, at least, is there.
    assert!(room.bytes().next().unwrap().is_ok_and(|byte| byte == b'C'));
}
