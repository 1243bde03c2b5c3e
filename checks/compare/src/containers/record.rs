//! Writes the original's answers on containers for the gate's replay: containers and what is asked of them as its
//! input, the answers as its output. Nothing of ours is called here.

use std::path::Path;
use std::{fs, io};

use super::film::{Chunk, Film, Tables};
use super::rules::{self, END, INSIDE, SFA, SFV};
use super::samples::{self, codec_cell};
use super::script::{Ask, Script};
use crate::random::Random;
use crate::tables::columns::{STORED, STRING, UNKNOWN_TYPES};
use crate::tables::header;
use crate::tables::sketch::Sketch;

/// What a replay program takes: bytes of a container and of its whole input.
const MOST_BYTES: usize = 4096;
const MOST_INPUT: usize = 65_536;

/// The last two are equal in the bits that count.
const KEYS: [Option<u64>; 5] =
    [None, Some(0), Some(u64::MAX), Some(0x0012_3456_789A_BCDE), Some(0xFF12_34A6_789A_BCDE)];

/// Writes `stdin` and `stdout` into the folder of the replay program.
pub fn write(folder: &Path) -> io::Result<()> {
    let mut script = Script::default();
    example_f(&mut script);
    small_ones(&mut script);
    masked(&mut script);
    damaged(&mut script);
    assert!(script.input.len() <= MOST_INPUT, "the input has {} bytes", script.input.len());
    fs::write(folder.join("stdin"), script.input)?;
    fs::write(folder.join("stdout"), script.output)
}

fn extract(audio: bool, key: Option<u64>) -> Ask {
    Ask::Extract { audio, key, fallback: "fb" }
}

const LIST: Ask = Ask::List { audio: true };

/// F, F followed by zeros, and every cut of F.
fn example_f(script: &mut Script) {
    let f = samples::f();
    let no_name = Ask::Extract { audio: true, key: Some(0), fallback: "" };
    script.ask(&f, &[LIST, extract(true, None), no_name]);
    for length in [449, 451, 452, 456, 492, 493, 500] {
        let mut followed = f.clone();
        followed.resize(length, 0);
        script.ask(&followed, &[LIST]);
    }
    for length in (0..f.len()).rev() {
        let asks = [LIST, extract(false, None)];
        script.ask(&f[..length], if length % 16 == 0 { &asks } else { &asks[..1] });
    }
}

/// Every hand-made container that is short enough.
fn small_ones(script: &mut Script) {
    let small = samples::all().into_iter().filter(|film| film.len() <= MOST_BYTES);
    for (index, film) in small.enumerate() {
        script.ask(&film, &[extract(true, KEYS[1 + index % 3]), LIST]);
    }
}

/// The lengths at which masks begin, by footers; odd chunks; keys and audio in all ways.
fn masked(script: &mut Script) {
    for footer in 0..3 {
        let film = whole_film(footer, 0).bytes;
        KEYS.iter().for_each(|&key| script.ask(&film, &[extract(true, key)]));
        script.ask(&film, &[extract(false, KEYS[3]), extract(false, None)]);
    }
    for footer in [0, 1, 7, 8, 0x1E, 0x1F, 0x20, 0x21] {
        let asks = [extract(true, KEYS[3]), LIST, Ask::List { audio: false }];
        script.ask(&whole_film(0x200, footer).bytes, &asks);
    }
    let film = whole_film(0x1F0, 0x10);
    for &start in film.starts.iter().rev().take(4) {
        let mut ask =
            |at, bytes: &[u8]| script.ask(&patched(&film.bytes, start + at, bytes), &[extract(true, KEYS[3]), LIST]);
        [1, 3, 4, 0xFF].iter().for_each(|&data_type| ask(15, &[data_type]));
        ask(8, &[0, 0x10, 0, 0x20]);
        ask(0, b"@SBT");
        ask(INSIDE as usize, END);
    }
}

/// A film with all tables, and two chunks of 0x241 and 0x160 bytes, less their footers.
fn whole_film(video_footer: u16, audio_footer: u16) -> Film {
    let payload = Random(14).bytes(0x241);
    let video = Chunk { footer_size: video_footer, ..Chunk::new(SFV, &payload) };
    let audio = Chunk { footer_size: audio_footer, ..Chunk::new(SFA, &payload[..0x160]) };
    let mut name = Sketch::default();
    let text = name.text(b"film.usm");
    name.column(STORED | STRING, b"filename", &[]);
    name.row(&text.to_be_bytes());
    let codec = |number: u64| codec_cell(STORED | 6, &number.to_be_bytes());
    let tables = Tables {
        entry: name.bytes(),
        video: codec(9),
        audio: Some(codec(2)),
        video_metadata: name.bytes(),
        audio_metadata: Some(name.bytes()),
    };
    Film::with_chunks(&tables, &[video, audio, Chunk::end(SFV), Chunk::end(SFA)])
}

/// Each block of three films wrong in every way that the original refuses.
fn damaged(script: &mut Script) {
    let whole = whole_film(0x240, 0x15F);
    for film in [whole.bytes, samples::with_audio(), samples::f()] {
        for start in starts(&film) {
            for damage in damages(&film, start) {
                script.ask(&damage, &[extract(true, None), LIST]);
            }
        }
    }
}

/// The start of every block and chunk, audio read.
fn starts(film: &[u8]) -> Vec<usize> {
    rules::read(film, true).starts.into_iter().map(|start| start as usize).collect()
}

/// Wrong letters, a wrong table or marker, unknown types, and sizes that lead past the end.
fn damages(film: &[u8], start: usize) -> Vec<Vec<u8>> {
    let inside = start + INSIDE as usize;
    let mut copies: Vec<Vec<u8>> = [*SFV, *SFA, *b"XXXX"].iter().map(|letters| patched(film, start, letters)).collect();
    copies.push(patched(film, inside, b"X"));
    copies.push(patched(film, start + 4, &0x7FFF_u32.to_be_bytes()));
    if film[inside..].starts_with(header::SIGNATURE) {
        copies.push(patched(film, inside + header::SIZE.at, &0x7FFF_FFFF_u32.to_be_bytes()));
        copies.push(patched(film, inside + header::STRING_OFFSET.at, &u32::MAX.to_be_bytes()));
        if header::COLUMNS.get(&film[inside..]) > 0 {
            copies.extend(UNKNOWN_TYPES.map(|unknown| patched(film, inside + header::LENGTH, &[STORED | unknown])));
        }
    }
    copies.retain(|copy| copy != film);
    copies
}

fn patched(film: &[u8], at: usize, bytes: &[u8]) -> Vec<u8> {
    let mut copy = film.to_vec();
    copy[at..at + bytes.len()].copy_from_slice(bytes);
    copy
}
