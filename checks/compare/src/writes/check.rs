//! Films that we write, extracted by the original: name, codecs and streams have to come back.

use super::exports::{Film, SizeReply, write};
use crate::containers::original::{Answer, extract};
use crate::random::Random;

/// How many films of random shape are written, beside those of every length that matters.
const RANDOM_FILMS: usize = 24_000;

/// Around every length at which a rule begins: none, padding, the masks, and whole payloads.
const LENGTHS: [usize; 24] = [
    0, 1, 12, 13, 14, 31, 32, 33, 0x13F, 0x140, 0x141, 0x15F, 0x160, 0x161, 0x23F, 0x240, 0x241, 0x25F, 0x260, 65_535,
    65_536, 65_537, 131_072, 131_073,
];

const CODECS: [Option<u32>; 7] = [None, Some(0), Some(1), Some(2), Some(4), Some(9), Some(u32::MAX)];

const NAMES: [&[u8]; 5] = [b"", b"a", b"lark.usm", b"a name with spaces, and a slash/", b"forty-three letters of ascii make it longer!"];

/// Writes every film and has it extracted, and tells how many films agreed.
pub fn run() -> Result<usize, String> {
    let mut random = Random(13);
    let bytes = random.bytes(2 * 131_073 + 64);
    let mut agreed = 0;
    for video in LENGTHS {
        for audio in LENGTHS.map(Some).into_iter().chain([None]) {
            agreed += check(shaped(&bytes, video, audio, &mut random))?;
        }
    }
    for _ in 0..RANDOM_FILMS {
        let video = length(&mut random);
        let audio = (!random.one_in(4)).then(|| length(&mut random));
        agreed += check(shaped(&bytes, video, audio, &mut random))?;
    }
    Ok(agreed)
}

/// Mostly short, since there are many.
fn length(random: &mut Random) -> usize {
    match random.within(0..32) {
        0 => random.within(65_500..131_073) as usize,
        1..8 => random.pick(&LENGTHS[..19]),
        _ => random.within(0..1500) as usize,
    }
}

/// A film with streams of these lengths, random otherwise.
fn shaped<'a>(bytes: &'a [u8], video: usize, audio: Option<usize>, random: &mut Random) -> Film<'a> {
    let from = random.within(0..64) as usize;
    let keys = [None, Some(0), Some(u64::MAX), Some(random.number())];
    let audio = audio.map(|length| &bytes[131_073 - from..][..length]);
    Film {
        name: random.pick(&NAMES),
        video: &bytes[from..][..video],
        audio,
        video_codec: random.pick(&CODECS),
        audio_codec: audio.and_then(|_| random.pick(&CODECS)),
        key: random.pick(&keys),
    }
}

/// Writes a film into an output of just its size, and has it extracted.
fn check(film: Film) -> Result<usize, String> {
    let measured = write(film, &mut []);
    let mut out = vec![0xEE; measured.size];
    let written = write(film, &mut out);
    let accepted = SizeReply { refused_at: 0, size: measured.size, number: 0, unknown_type: 0 };
    if measured != (SizeReply { number: 16, ..accepted }) || written != accepted {
        return Err(told(&film, &format!("usm_write replies {measured:?}, then {written:?}")));
    }
    match extract(&out, true, film.key, b"fallback") {
        Answer::Accepted(read) => {
            let tracks = &read.header.tracks;
            let same = [
                ("name", read.header.name == film.name),
                ("presence of audio", tracks.has_audio == film.audio.is_some()),
                ("video codec", tracks.video_codec == film.video_codec),
                ("audio codec", tracks.audio_codec == film.audio_codec),
                ("video", read.video == film.video),
                ("audio", read.audio == film.audio.unwrap_or(&[])),
            ];
            match same.iter().find(|(_, is_same)| !is_same) {
                None => Ok(1),
                Some((what, _)) => Err(told(&film, &format!("the original reads another {what}"))),
            }
        }
        Answer::Refused(refusal) => Err(told(&film, &format!("the original refuses it: {} at {}", refusal.number, refusal.place))),
        Answer::Panicked(words, place) => Err(told(&film, &format!("the original panics at {place}: {words}"))),
    }
}

/// What went wrong, with the film's shape.
fn told(film: &Film, what: &str) -> String {
    format!(
        "usm_write: {what}; name {:?}, video {} bytes, audio {:?} bytes, codecs {:?} and {:?}, key {:?}",
        String::from_utf8_lossy(film.name),
        film.video.len(),
        film.audio.map(<[u8]>::len),
        film.video_codec,
        film.audio_codec,
        film.key
    )
}
