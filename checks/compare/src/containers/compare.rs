//! One container on both sides: replies, streams and lists.

use std::fmt;

use super::answer::Refusal;
use super::call::Call;
use super::case::Case;
use super::domain::{Domain, domain};
use super::expected::{Expected, expected, same_by_the_rules};
use super::exports::{self, FilmReply, How, IN_FALLBACK, ListReply, NamePart, Record, Success};
use super::original::Film;
use super::outputs::{List, Output};
use super::rules::{self, Name, Reading};
use super::tally::{Outcome, Seen, Sums};
use crate::hex::hex;
use crate::reply::same;

/// The room that counts as needed where a container is refused, so that there is something that must stay.
const REFUSED_BYTES: usize = 40;
const REFUSED_RECORDS: usize = 3;

pub enum Difference {
    /// One of our calls does not do what is expected.
    Ours(String),
    /// The original does not do what the rules say.
    Original(String),
}

impl fmt::Display for Difference {
    fn fmt(&self, f: &mut fmt::Formatter) -> fmt::Result {
        let (Difference::Ours(what) | Difference::Original(what)) = self;
        f.write_str(what)
    }
}

/// Compares one case; gives what was seen, or the first difference. Our calls come first: that the rules say the same
/// as the original is looked at after them.
pub fn compare(case: &Case) -> Result<Seen, Difference> {
    let mut seen = Seen::default();
    for audio in [true, false] {
        let calls: Vec<&Call> = case.calls.iter().filter(|call| call.takes_audio() == audio).collect();
        if calls.is_empty() {
            continue;
        }
        let reading = rules::read(case.container(), audio);
        let domain = domain(case.container(), &reading);
        for call in calls {
            let expected = expected(case, call, &reading, domain).map_err(Difference::Original)?;
            extraction(case, call, &expected, &reading, &mut seen.sums).map_err(Difference::Ours)?;
            listing(case, call, &expected, &mut seen.sums).map_err(Difference::Ours)?;
            same_by_the_rules(case, call, &expected, &reading).map_err(Difference::Original)?;
            seen.sums.calls += 1;
        }
        seen.outcomes.push(outcome(case, &reading, domain));
    }
    Ok(seen)
}

fn outcome(case: &Case, reading: &Reading, domain: Domain) -> Outcome {
    match (domain, &reading.answer) {
        (Domain::Outside(rule), _) => Outcome::Outside(rule),
        (Domain::Costly, _) if case.in_child => Outcome::InChild,
        (Domain::Costly, _) => Outcome::LeftOut,
        (Domain::Inside, Ok(_)) => Outcome::Accepted,
        (Domain::Inside, Err(refusal)) => Outcome::Refused(refusal.number),
    }
}

/// The reply and both outputs of an extraction, for each way to make the call.
fn extraction(case: &Case, call: &Call, expected: &Expected, reading: &Reading, sums: &mut Sums) -> Result<(), String> {
    let expected = match expected {
        Expected::Refused(refusal) => refused_extraction(call, *refusal),
        Expected::Accepted(film) | Expected::PastTheEnd(film) => accepted_extraction(call, film, reading, sums),
    };
    for how in call.ways() {
        extract(case, call, how, &expected).map_err(|what| match how.key.number == call.key {
            true => format!("usm_extract: {what}"),
            false => format!("usm_extract, with bits of the key turned that do not count: {what}"),
        })?;
        sums.extractions += 1;
    }
    Ok(())
}

/// What one extraction must leave: the reply, and what stands in the outputs, each of so much room.
struct Extraction<'a> {
    reply: FilmReply,
    /// Where there is one, its fields above are 0.
    name: Option<ExpectedName<'a>>,
    rooms: [usize; 2],
    streams: [&'a [u8]; 2],
}

/// The original gives the bytes of a name, and the rules, where they accept, its fields in the reply.
struct ExpectedName<'a> {
    bytes: &'a [u8],
    part: Option<NamePart>,
}

fn refused_extraction(call: &Call, refusal: Refusal) -> Extraction<'static> {
    let rooms = [call.video_room, call.audio_room].map(|room| room.of(REFUSED_BYTES));
    Extraction { reply: FilmReply::refused(refusal), name: None, rooms, streams: [&[], &[]] }
}

fn accepted_extraction<'a>(call: &Call, film: &'a Film, reading: &Reading, sums: &mut Sums) -> Extraction<'a> {
    let Film { header, video, audio, .. } = film;
    let rooms = [call.video_room.of(video.len()), call.audio_room.of(audio.len())];
    if rooms[0] < video.len() || rooms[1] < audio.len() {
        sums.outputs_too_short += 1;
        let reply = FilmReply::outputs_too_short(video.len(), audio.len());
        return Extraction { reply, name: None, rooms, streams: [&[], &[]] };
    }
    sums.bytes += (video.len() + audio.len()) as u64;
    let name = ExpectedName { bytes: &header.name, part: name_part(call, reading) };
    Extraction { reply: success(film).reply(), name: Some(name), rooms, streams: [video, audio] }
}

/// What is known of a film of the original's.
pub fn success(film: &Film) -> Success {
    Success {
        tracks: film.header.tracks,
        is_ivf: film.video_kind == "ivf",
        is_hca: film.audio_kind == "hca",
        video_size: film.video.len(),
        audio_size: film.audio.len(),
    }
}

fn name_part(call: &Call, reading: &Reading) -> Option<NamePart> {
    Some(match reading.answer.as_ref().ok()?.name {
        Name::Part { start, length } => NamePart { source: 0, start: start as usize, length: length as usize },
        Name::Fallback => NamePart { source: IN_FALLBACK, start: 0, length: call.fallback.len() },
    })
}

fn extract(case: &Case, call: &Call, how: How, expected: &Extraction) -> Result<(), String> {
    let [mut video, mut audio] = expected.rooms.map(Output::new);
    let found = exports::extract(case.container(), how, video.lent(), audio.lent());
    match &expected.name {
        None => same(found, expected.reply)?,
        Some(name) => {
            same(found.without_name(), expected.reply)?;
            same_name(case, call, found.name(), name)?;
        }
    }
    video.holds(expected.streams[0]).map_err(|what| format!("video: {what}"))?;
    audio.holds(expected.streams[1]).map_err(|what| format!("audio: {what}"))
}

fn same_name(case: &Case, call: &Call, found: NamePart, expected: &ExpectedName) -> Result<(), String> {
    if name(case, call, found) != Some(expected.bytes) {
        return Err(format!("the name is {found:?}, and the original's is {}", hex(expected.bytes)));
    }
    match expected.part {
        Some(by_the_rules) if found != by_the_rules => {
            Err(format!("the name is {found:?}, and {by_the_rules:?} is expected"))
        }
        _ => Ok(()),
    }
}

/// The bytes of a name: a part of the fallback name or of the container.
fn name<'a>(case: &'a Case, call: &'a Call, part: NamePart) -> Option<&'a [u8]> {
    let whole = if part.source == IN_FALLBACK { &call.fallback } else { case.container() };
    whole.get(part.start..)?.get(..part.length)
}

/// The reply and the list of a listing.
fn listing(case: &Case, call: &Call, expected: &Expected, sums: &mut Sums) -> Result<(), String> {
    let (room, reply, records) = match expected {
        Expected::Refused(refusal) => (call.list_room.of(REFUSED_RECORDS), ListReply::refused(*refusal), Vec::new()),
        Expected::Accepted(film) | Expected::PastTheEnd(film) => {
            let (count, room) = (film.chunks.len(), call.list_room.of(film.chunks.len()));
            if room < count {
                sums.lists_too_short += 1;
                (room, ListReply::too_short(count), Vec::new())
            } else {
                sums.chunks += count as u64;
                (room, ListReply::counted(count), film.chunks.iter().map(exports::record).collect())
            }
        }
    };
    list(case, call, room, reply, &records).map_err(|what| format!("usm_list, room for {room}: {what}"))
}

fn list(case: &Case, call: &Call, room: usize, expected: ListReply, records: &[Record]) -> Result<(), String> {
    let mut list = List::new(room);
    same(exports::list(case.container(), call.reading(), list.lent()), expected)?;
    list.holds(records)
}
