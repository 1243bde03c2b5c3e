//! One container on both sides: put together of its pieces, and unpacked by the original.

use super::bits;
use super::exports::{self, ApartReply, FilmAudio};
use super::reader::{Found, Reader};
use super::tally::Tally;
use crate::containers::answer::Refusal;
use crate::containers::call::Call;
use crate::containers::case::Case;
use crate::containers::compare::{Difference, success};
use crate::containers::domain::{Domain, domain};
use crate::containers::expected::{Expected, expected};
use crate::containers::exports::{FilmReply, IN_FALLBACK, Record, record};
use crate::containers::original::Film;
use crate::containers::rules;
use crate::containers::work::Counts;
use crate::hex::hex;
use crate::reply::same;

const VIDEO: u8 = 0;
const AUDIO: u8 = 1;

/// Compares one case; gives what was seen, or the first difference.
pub fn compare(case: &Case) -> Result<Tally, Difference> {
    let mut seen = Tally { containers: 1, ..Tally::default() };
    for call in &case.calls {
        let reading = rules::read(case.container(), call.takes_audio());
        let domain = domain(case.container(), &reading);
        let expected = expected(case, call, &reading, domain).map_err(Difference::Original)?;
        bits::compare(case, call, &expected, &mut seen).map_err(Difference::Ours)?;
        by_pieces(case, call, &expected, &mut seen).map_err(Difference::Ours)?;
        match expected {
            _ if domain != Domain::Inside => seen.by_the_rules += 1,
            Expected::Refused(_) => seen.refused += 1,
            _ => seen.accepted += 1,
        }
    }
    Ok(seen)
}

/// The header by a beginning, the chunks by windows, the streams by payloads.
fn by_pieces(case: &Case, call: &Call, expected: &Expected, seen: &mut Tally) -> Result<(), String> {
    let mut reader = Reader::new(case.container(), call.reading());
    let (opened, beginning) = reader.open()?;
    if let Some(refusal) = exports::refusal(opened.film.number, opened.film.refused_at, opened.film.unknown_type) {
        return refused(expected, refusal).map_err(|what| format!("usm_open: {what}"));
    }
    let found = match reader.walk(opened.chunks, FilmAudio::of(opened.film))? {
        Err(refusal) => return refused(expected, refusal).map_err(|what| format!("usm_step: {what}")),
        Ok(found) => found,
    };
    let (Expected::Accepted(film) | Expected::PastTheEnd(film)) = expected else {
        return Err("usm_step: no step refuses the film".to_string());
    };
    header(call, opened.film, beginning, film).map_err(|what| format!("usm_open: {what}"))?;
    chunks(&found, film).map_err(|what| format!("usm_step: {what}"))?;
    bits_of_payloads(case, call, &found).map_err(|what| format!("usm_payload_bits: {what}"))?;
    seen.parted +=
        u64::from(part_of_payloads(case, call, &found).map_err(|what| format!("usm_payload_apart: {what}"))?);
    for (kind, stream) in [(VIDEO, &film.video), (AUDIO, &film.audio)] {
        if reader.stream(&found, kind, call.key())? != *stream {
            return Err(format!("usm_clear: the stream of kind {kind} is another"));
        }
        seen.bytes += stream.len() as u64;
    }
    reader.asked.chunks = found.len() as u64;
    reader.asked.whole = case.container().len() as u64;
    seen.join(&reader.asked);
    Ok(())
}

fn refused(expected: &Expected, found: Refusal) -> Result<(), String> {
    match expected {
        Expected::Refused(refusal) if *refusal == found => Ok(()),
        Expected::Refused(refusal) => Err(format!("it says {found}, and the original {refusal}")),
        _ => Err(format!("it says {found}, and the original accepts")),
    }
}

/// What the header says, but for the sizes, which are 0; and the name, which is a part of the beginning.
fn header(call: &Call, found: FilmReply, beginning: &[u8], film: &Film) -> Result<(), String> {
    let expected = FilmReply { video_size: 0, audio_size: 0, ..success(film).reply() };
    same(found.without_name(), expected)?;
    let name = match found.name_source {
        IN_FALLBACK if found.name_length == 0 => &call.fallback,
        _ => beginning.get(found.name_start..).and_then(|rest| rest.get(..found.name_length)).unwrap_or_default(),
    };
    if name != film.header.name {
        return Err(format!("the name is {}, and the original's is {}", hex(name), hex(&film.header.name)));
    }
    Ok(())
}

fn chunks(found: &[Found], film: &Film) -> Result<(), String> {
    let ours: Vec<Record> = found.iter().map(|(start, step)| record_of(*start, step)).collect();
    let theirs: Vec<Record> = film.chunks.iter().map(record).collect();
    match ours.iter().zip(&theirs).find(|(ours, theirs)| ours != theirs) {
        Some((ours, theirs)) => Err(format!("a chunk is {ours:?}, and {theirs:?} is expected")),
        None => same(ours.len(), theirs.len()),
    }
}

/// The most that a payload shows is what the film shows.
fn bits_of_payloads(case: &Case, call: &Call, found: &[Found]) -> Result<(), String> {
    let most = found.iter().map(|(_, step)| exports::payload_bits(step.mask, step.length)).max();
    same(most.unwrap_or(0), exports::key_bits(case.container(), call.reading()).bits)
}

/// Two keys part where the first payload that differs does, of the video or else of the audio. Gives whether they do.
fn part_of_payloads(case: &Case, call: &Call, found: &[Found]) -> Result<bool, String> {
    let (key, other) = (call.key, call.key.rotate_left(8) ^ 1);
    let first = |kind: u8| {
        let mut before = 0;
        let mut payloads = found.iter().filter(|(_, step)| step.kind == kind);
        payloads.find_map(|(start, step)| {
            let offset = exports::payload_apart(step.mask, step.length, key, other);
            let byte = before + offset;
            before += step.length;
            let stream = kind + 1;
            (offset < step.length).then(|| ApartReply { byte, chunk: *start, offset, stream, ..ApartReply::default() })
        })
    };
    let parting = first(VIDEO).or_else(|| first(AUDIO)).unwrap_or_default();
    same(parting, exports::apart(case.container(), call.reading(), key, other))?;
    Ok(parting.stream != 0)
}

/// A step as the record that a listing has.
fn record_of(start: usize, step: &exports::StepReply) -> Record {
    Record {
        start: start as u64,
        kind: step.kind,
        data_type: step.data_type,
        channel: step.channel,
        padding: 0,
        offset: step.payload.wrapping_sub(start) as u32,
        length: step.length as u64,
    }
}
