//! The bits of a key that a film shows, and where and why two keys part, beside the original's streams under two keys.

use super::exports::{self, ApartReply};
use super::tally::Tally;
use crate::containers::answer::{Kind, Refusal};
use crate::containers::call::Call;
use crate::containers::case::Case;
use crate::containers::expected::Expected;
use crate::containers::original::{self, Answer, Film};
use crate::random::Random;
use crate::reply::same;

/// So many keys differ from the first in one bit; as many agree with it in the bits, or do not.
const SINGLE: usize = 6;
const OTHERS: usize = 2;

/// Both streams.
type Streams = (Vec<u8>, Vec<u8>);

/// The bits of a key that change no film.
const IDLE: u64 = 0xFF00_00F0_0000_0000;

/// Of which stream the first byte is that differs.
const VIDEO: u8 = 1;
const AUDIO: u8 = 2;

/// The refusal is the original's; where it accepts, two keys agree in the bits exactly where their streams are one.
pub fn compare(case: &Case, call: &Call, expected: &Expected, seen: &mut Tally) -> Result<(), String> {
    let reply = exports::key_bits(case.container(), call.reading());
    let found = exports::refusal(reply.number, reply.refused_at, reply.unknown_type);
    match (expected, found) {
        (Expected::Refused(refusal), Some(found)) if *refusal == found && reply.bits == 0 => {
            refused(case, call, refusal)
        }
        (Expected::Refused(refusal), _) => {
            Err(format!("usm_key_bits: the reply is {reply:?}, and the original {refusal}"))
        }
        (_, Some(found)) => Err(format!("usm_key_bits: it says {found}, and the original accepts")),
        (Expected::PastTheEnd(_), None) if reply.bits == 0 => Ok(()),
        (Expected::PastTheEnd(_), None) => Err(format!("usm_key_bits: {:016X} of a film without chunks", reply.bits)),
        (Expected::Accepted(film), None) => pairs(case, call, film, reply.bits, seen),
    }
}

/// Two keys part nowhere in a film that is refused.
fn refused(case: &Case, call: &Call, refusal: &Refusal) -> Result<(), String> {
    let Refusal { number, place, column_type } = *refusal;
    let expected =
        ApartReply { refused_at: place as usize, number, unknown_type: column_type, ..ApartReply::default() };
    same(exports::apart(case.container(), call.reading(), call.key, !call.key), expected)
        .map_err(|what| format!("usm_apart: {what}"))
}

fn pairs(case: &Case, call: &Call, film: &Film, bits: u64, seen: &mut Tally) -> Result<(), String> {
    let mut random = Random(case.length as u64 ^ call.key);
    let key = call.key;
    let first = streams(case, call, key)?;
    for other in others(key, bits, &mut random) {
        let second = streams(case, call, other)?;
        let (agree, is_one_copy) = (key & bits == other & bits, second == first);
        if agree != is_one_copy {
            let have = if is_one_copy { "one copy" } else { "two copies" };
            return Err(format!("usm_key_bits: the bits are {bits:016X}, and {key:016X} and {other:016X} have {have}"));
        }
        let parting = parting(film, &first, &second);
        same(exports::apart(case.container(), call.reading(), key, other), parting)
            .map_err(|what| format!("usm_apart: {what}, of {key:016X} and {other:016X}"))?;
        let reason = if is_one_copy { reason(key, other) } else { 0 };
        same(exports::why(bits, key, other), reason)
            .map_err(|what| format!("usm_why: {what}, of {bits:016X}, {key:016X} and {other:016X}"))?;
        seen.pairs += 1;
        seen.in_video += u64::from(parting.stream == VIDEO);
        seen.in_audio += u64::from(parting.stream == AUDIO);
        seen.agreeing += u64::from(agree);
    }
    Ok(())
}

/// Where the original's streams part under two keys: the first byte of the video that differs, else of the audio.
fn parting(film: &Film, first: &Streams, second: &Streams) -> ApartReply {
    let differs = |one: &[u8], other: &[u8]| one.iter().zip(other).position(|(one, other)| one != other);
    match (differs(&first.0, &second.0), differs(&first.1, &second.1)) {
        (Some(byte), _) => parted_at(film, VIDEO, Kind::Video, byte),
        (None, Some(byte)) => parted_at(film, AUDIO, Kind::Audio, byte),
        (None, None) => ApartReply::default(),
    }
}

/// The chunk of the original's walk that holds a byte of a stream.
fn parted_at(film: &Film, stream: u8, kind: Kind, byte: usize) -> ApartReply {
    let mut offset = byte;
    for chunk in film.chunks.iter().filter(|chunk| chunk.kind == kind) {
        if offset < chunk.length as usize {
            return ApartReply { byte, chunk: chunk.start as usize, offset, stream, ..ApartReply::default() };
        }
        offset -= chunk.length as usize;
    }
    panic!("the original's stream is longer than its chunks");
}

/// Why two keys that agree in what a film shows have one copy, by the numbers of usm.h.
fn reason(key: u64, other: u64) -> u8 {
    match key ^ other {
        0 => 1,
        different if different & !IDLE == 0 => 2,
        _ => 3,
    }
}

/// Keys that differ from one in a single bit; that agree with it in the bits that are shown; any.
fn others(key: u64, bits: u64, random: &mut Random) -> Vec<u64> {
    let mut others: Vec<u64> = (0..SINGLE).map(|_| key ^ 1 << random.within(0..64)).collect();
    others.push(key & bits);
    for _ in 0..OTHERS {
        others.push(key ^ random.number() & !bits);
        others.push(key ^ random.number() & random.number() & random.number());
    }
    others
}

fn streams(case: &Case, call: &Call, key: u64) -> Result<Streams, String> {
    match original::extract(case.container(), call.takes_audio(), Some(key), &call.fallback) {
        Answer::Accepted(film) => Ok((film.video, film.audio)),
        _ => Err("the original refuses a film under another key".to_string()),
    }
}
