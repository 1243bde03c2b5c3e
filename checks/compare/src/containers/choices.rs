//! The choices that the original does not have, by the original on another film that says the same in its own way: one
//! channel of audio, where audio of the other channels has other letters; payloads after their headers, where longer
//! headers are cut to 0x18.

use super::exports::{self, FilmReply, How, KeyBytes, ReadingBytes};
use super::film::{Film, Tables};
use super::original::{self, Answer};
use super::rules::{END, INSIDE, SFA, SFV};
use super::samples;
use crate::hex::input;
use crate::panics;
use crate::random::Random;

/// Films of each kind; each is read in some ways.
const FILMS: u64 = 25_000;
const CHANNELS: u8 = 4;
/// The header size at which both ways to take payloads agree.
const PLAIN: usize = 0x18;

/// How many readings agreed, of one channel and of payloads after their headers.
pub struct Agreed {
    pub channels: u64,
    pub payloads: u64,
}

/// A film, and where its chunks start.
struct Made {
    bytes: Vec<u8>,
    starts: Vec<usize>,
    has_audio: bool,
}

/// Reads every film in each choice; gives the counts, or the first that differs.
pub fn run() -> Result<Agreed, String> {
    panics::silence();
    let mut agreed = Agreed { channels: 0, payloads: 0 };
    let mut random = Random(4);
    for _ in 0..FILMS {
        let key = random.pick(&[None, Some(0), Some(0x0000_1234_5678_9ABC)]);
        let film = made(&mut random, false);
        for channel in 0..CHANNELS {
            one_channel(&film, channel, key).map_err(|what| told(&format!("channel {channel}"), &film, &what))?;
            agreed.channels += 1;
        }
        let [plain, odd] = [made(&mut random, false), made(&mut random, true)];
        for film in [&film, &plain, &odd] {
            for audio in [0, 1] {
                after_header(film, audio, key).map_err(|what| told("payloads after their headers", film, &what))?;
                agreed.payloads += 1;
            }
        }
    }
    Ok(agreed)
}

fn told(choice: &str, film: &Made, what: &str) -> String {
    format!("{choice}: {what}\n{}", input(&film.bytes))
}

/// A film of some chunks. Headers are 0x18 long or longer; where `odd`, one may be shorter.
fn made(random: &mut Random, odd: bool) -> Made {
    let has_audio = !random.one_in(4);
    let tables = if has_audio { samples::with_codec(random.pick(&[2, 4])) } else { Tables::empty() };
    let mut film = Made { bytes: Film::with_header(&tables, || 0).bytes, starts: Vec::new(), has_audio };
    for _ in 0..random.within(0..8) {
        let header = match random.within(0..4) {
            0 if odd => random.within(0..PLAIN as u64) as usize,
            0 | 1 => PLAIN,
            _ => PLAIN + random.within(0..0x50) as usize,
        };
        film.payload_chunk(random, header);
        if random.one_in(8) {
            film.end_chunk(random);
        }
    }
    if random.one_in(8) {
        film.payload_chunk(random, PLAIN + 8);
        let cut = film.bytes.len() - random.within(1..17) as usize;
        film.bytes.truncate(cut);
    } else {
        film.end_chunk(random);
    }
    film
}

impl Made {
    fn payload_chunk(&mut self, random: &mut Random, header: usize) {
        let letters = random.pick(&[SFV, SFV, SFA, SFA, SFA, b"@SBT"]);
        let length = random.pick(&[64, 65, 100, 0x150, 0x240, 0x2A0]);
        let footer = random.within(0..20) as usize;
        let block = header + footer + length;
        // Now and then a footer size by which the block is too small.
        let said = if random.one_in(40) { block - header + 1 } else { footer };
        let start = self.begin(letters, block);
        self.bytes[start + 8..start + 10].copy_from_slice(&(header as u16).to_be_bytes());
        self.bytes[start + 10..start + 12].copy_from_slice(&(said as u16).to_be_bytes());
        self.bytes[start + 12] = random.within(0..u64::from(CHANNELS)) as u8;
        self.bytes[start + 15] = random.pick(&[0, 0, 0, 1]);
        random.fill(&mut self.bytes[start + INSIDE as usize..]);
    }

    fn end_chunk(&mut self, random: &mut Random) {
        let letters = random.pick(&[SFV, SFA]);
        let start = self.begin(letters, 0x38);
        self.bytes[start + 9] = PLAIN as u8;
        self.bytes[start + INSIDE as usize..][..END.len()].copy_from_slice(END);
    }

    fn begin(&mut self, letters: &[u8; 4], block: usize) -> usize {
        let start = self.bytes.len();
        self.starts.push(start);
        self.bytes.resize(start + 8 + block, 0);
        self.bytes[start..start + 4].copy_from_slice(letters);
        self.bytes[start + 4..start + 8].copy_from_slice(&(block as u32).to_be_bytes());
        start
    }

    fn is_end(&self, start: usize) -> bool {
        self.bytes[start + INSIDE as usize..].starts_with(END)
    }

    fn header(&self, start: usize) -> usize {
        usize::from(u16::from_be_bytes([self.bytes[start + 8], self.bytes[start + 9]]))
    }

    /// Whether the payload of a chunk is taken.
    fn takes(&self, start: usize, audio: u8) -> bool {
        let letters = &self.bytes[start..start + 4];
        !self.is_end(start) && (letters == SFV || (letters == SFA && self.has_audio && audio != 0))
    }
}

/// One channel, as the original reads the film in which audio of the others has letters of no stream.
fn one_channel(film: &Made, channel: u8, key: Option<u64>) -> Result<(), String> {
    let mut other = film.bytes.clone();
    for &start in &film.starts {
        if &other[start..start + 4] == SFA && !film.is_end(start) && other[start + 12] != channel {
            other[start..start + 4].copy_from_slice(b"@SFB");
        }
    }
    let reading = ReadingBytes { audio: 2, channel, payloads: 0, tables: 0 };
    same(&ours(&film.bytes, reading, key), &originals(&other, true, key)?, |place| place)
}

/// Payloads after their headers, as the original reads the film whose longer headers are cut to 0x18. At the first
/// payload that is taken and has a shorter one, 17 is expected, unless what stands before it is refused.
fn after_header(film: &Made, audio: u8, key: Option<u64>) -> Result<(), String> {
    let short = film.starts.iter().copied().find(|&start| film.takes(start, audio) && film.header(start) < PLAIN);
    let (cut, starts) = cut_headers(film, short.unwrap_or(film.bytes.len()));
    let reading = ReadingBytes { audio, channel: 0, payloads: 1, tables: 0 };
    let found = ours(&film.bytes, reading, key);
    let mut expected = originals(&cut, audio != 0, key)?;
    if let (Some(start), 0) = (short, expected.0) {
        expected = (17, start, Vec::new(), Vec::new());
        return same(&found, &expected, |place| place);
    }
    same(&found, &expected, |place| starts.iter().find(|pair| pair.1 == place).map_or(place, |pair| pair.0))
}

/// The film up to a place with its longer headers cut, and each chunk's start there and here.
fn cut_headers(film: &Made, end: usize) -> (Vec<u8>, Vec<(usize, usize)>) {
    let first = film.starts.first().copied().unwrap_or(film.bytes.len()).min(end);
    let (mut cut, mut starts) = (film.bytes[..first].to_vec(), Vec::new());
    for (at, &start) in film.starts.iter().enumerate().filter(|(_, start)| **start < end) {
        let next = film.starts.get(at + 1).copied().unwrap_or(film.bytes.len());
        let (header, here) = (film.header(start), cut.len());
        starts.push((start, here));
        if film.is_end(start) || header <= PLAIN {
            cut.extend(&film.bytes[start..next]);
            continue;
        }
        cut.extend(&film.bytes[start..start + INSIDE as usize]);
        cut.extend(&film.bytes[start + 8 + header..next]);
        let block = u32::from_be_bytes(film.bytes[start + 4..start + 8].try_into().expect("four bytes"));
        cut[here + 4..here + 8].copy_from_slice(&(block - (header - PLAIN) as u32).to_be_bytes());
        cut[here + 8..here + 10].copy_from_slice(&(PLAIN as u16).to_be_bytes());
    }
    (cut, starts)
}

/// A number, its place, and both streams.
type Read = (u8, usize, Vec<u8>, Vec<u8>);

fn ours(film: &[u8], reading: ReadingBytes, key: Option<u64>) -> Read {
    let key = KeyBytes { number: key.unwrap_or(7), given: key.is_some().into() };
    let how = How { reading, key, fallback: b"film" };
    let [mut video, mut audio] = [vec![0; film.len()], vec![0; film.len()]];
    let FilmReply { number, refused_at, video_size, audio_size, .. } =
        exports::extract(film, how, &mut video, &mut audio);
    video.truncate(video_size);
    audio.truncate(audio_size);
    (number, refused_at, video, audio)
}

fn originals(film: &[u8], audio: bool, key: Option<u64>) -> Result<Read, String> {
    match original::extract(film, audio, key, b"film") {
        Answer::Accepted(read) => Ok((0, 0, read.video, read.audio)),
        Answer::Refused(refusal) => Ok((refusal.number, refusal.place as usize, Vec::new(), Vec::new())),
        Answer::Panicked(what, block) if what == panics::OVERFLOW => Ok((9, block as usize, Vec::new(), Vec::new())),
        Answer::Panicked(what, _) => Err(format!("the original panics otherwise than at a difference: {what}")),
    }
}

fn same(found: &Read, expected: &Read, place: impl Fn(usize) -> usize) -> Result<(), String> {
    let (number, at) = (expected.0, if expected.0 == 0 { 0 } else { place(expected.1) });
    if (found.0, found.1) != (number, at) {
        return Err(format!("{} at {}, and {number} at {at} is expected", found.0, found.1));
    }
    match (found.2 == expected.2, found.3 == expected.3) {
        (true, true) => Ok(()),
        (false, _) => Err("the video is another".to_string()),
        _ => Err("the audio is another".to_string()),
    }
}
