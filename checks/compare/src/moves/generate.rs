//! Films for the builder: names of every kind, no audio, one or several, streams around every length that matters.

use super::compare::Made;
use super::exports::Codecs;
use super::original::{Film, PAYLOAD};
use crate::containers::rules::END;
use crate::random::Random;

/// Around every length at which a rule begins: none, padding in both containers, the masks, frames, whole payloads.
pub const LENGTHS: [usize; 40] = [
    0, 1, 3, 4, 5, 12, 13, 14, 27, 28, 29, 31, 32, 33, 35, 36, 37, 59, 60, 61, 63, 64, 65, 0x140, 0x141, 0x23F, 0x240,
    999, 1000, 1999, 2000, 65_499, 65_500, 65_501, 65_535, 65_536, 65_537, 131_071, 131_072, 131_073,
];
/// The first of them, which are short.
const SHORT: usize = 31;

/// Characters at both ends of every length that UTF-8 has, and some between.
const CHARACTERS: [char; 18] = [
    '\0',
    'a',
    'Z',
    ' ',
    '/',
    '\u{7F}',
    '\u{80}',
    'é',
    '\u{7FF}',
    '\u{800}',
    '映',
    '画',
    '\u{D7FF}',
    '\u{E000}',
    '\u{FFFF}',
    '\u{10000}',
    '🎞',
    '\u{10FFFF}',
];

/// A name of any kind.
pub fn name(random: &mut Random) -> String {
    match random.within(0..24) {
        0 => String::new(),
        1 => "ひばりの歌.usm".to_string(),
        2..6 => "a".repeat(random.within(0..97) as usize),
        6 => "long ".repeat(random.within(200..14_000) as usize),
        7 => "映".repeat(random.within(1..4_000) as usize),
        _ => (0..random.within(1..24)).map(|_| random.pick(&CHARACTERS)).collect(),
    }
}

/// Mostly short, since there are many.
fn length(random: &mut Random) -> usize {
    match random.within(0..48) {
        0 => random.within(65_400..140_000) as usize,
        1 => PAYLOAD * random.within(1..4) as usize,
        2..20 => random.pick(&LENGTHS[..SHORT]),
        _ => random.within(0..2100) as usize,
    }
}

/// Random bytes; now and then a payload begins with the end marker, or nearly.
fn stream(length: usize, random: &mut Random) -> Vec<u8> {
    let mut bytes = random.bytes(length);
    if random.one_in(24) {
        let at =
            PAYLOAD * random.within(0..bytes.len() as u64 / PAYLOAD as u64 + 1) as usize + random.pick(&[0, 0, 0, 1]);
        if let Some(begin) = bytes.get_mut(at..at + END.len()) {
            begin.copy_from_slice(END);
        }
    }
    if random.one_in(12) {
        // Zeros at the end look like padding.
        let zeros = bytes.len().min(random.within(0..40) as usize);
        bytes[length - zeros..].fill(0);
    }
    bytes
}

/// A film with streams of these lengths.
pub fn shaped(video: usize, audios: &[usize], random: &mut Random) -> Film {
    Film {
        name: name(random),
        video: stream(video, random),
        audios: audios.iter().map(|&length| stream(length, random)).collect(),
    }
}

/// A film of any shape.
pub fn film(random: &mut Random) -> Film {
    let audios = match random.within(0..32) {
        0..8 => 0,
        8..24 => 1,
        24..28 => 2,
        28..31 => 3,
        _ => random.within(4..49),
    };
    let lengths: Vec<usize> = (0..audios).map(|_| if random.one_in(4) { 0 } else { length(random) }).collect();
    shaped(length(random), &lengths, random)
}

/// A film so small that every byte of it can be changed.
pub fn small(random: &mut Random) -> Film {
    let audios: Vec<usize> = (0..random.within(0..4)).map(|_| random.within(0..80) as usize).collect();
    let mut film = shaped(random.within(0..80) as usize, &audios, random);
    film.name = (0..random.within(0..4)).map(|_| random.pick(&CHARACTERS)).collect();
    film
}

pub fn codec(random: &mut Random) -> u32 {
    let any = random.number() as u32;
    random.pick(&[0, 1, 2, 4, 9, u32::MAX, any])
}

pub fn key(random: &mut Random) -> Option<u64> {
    let any = random.number();
    random.pick(&[None, None, Some(0), Some(u64::MAX), Some(any)])
}

/// A film under every choice of which codecs are given.
pub fn under_all_codecs(film: &Film, random: &mut Random) -> [Made; 4] {
    let (key, video, audio) = (key(random), Some(codec(random)), Some(codec(random)));
    [(None, None), (video, None), (None, audio), (video, audio)].map(|(video, audio)| Made {
        film: film.clone(),
        key,
        codecs: Codecs { video, audio },
    })
}
