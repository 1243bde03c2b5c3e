//! A film read piece by piece, as a program reads it that holds none of it: beginnings and windows of any length.

use super::exports::{self, CHUNK, FilmAudio, MORE, OVER, OpenReply, StepReply};
use super::tally::Tally;
use crate::containers::answer::Refusal;
use crate::containers::exports::ReadingBytes;
use crate::random::Random;

/// The bytes of a window that always suffice, and the most that are tried.
const ENOUGH: usize = 45;
const MOST: u64 = 61;
/// The first beginning is shorter than this.
const FIRST: u64 = 300;

/// Where a payload can be cut: between two rows, from there on; and the most rows that are taken at once, with the first.
const ROW: usize = 32;
const FIRST_PIECE: usize = 0x240;
const ROWS: u64 = 24;

/// A film, how it is read, and what has been asked of it.
pub struct Reader<'a> {
    film: &'a [u8],
    reading: ReadingBytes,
    random: Random,
    pub asked: Tally,
}

/// A chunk's start, and the step that found it.
pub type Found = (usize, StepReply);

impl<'a> Reader<'a> {
    /// The pieces are chosen by the film's length, the same in every run.
    pub fn new(film: &'a [u8], reading: ReadingBytes) -> Reader<'a> {
        Reader { film, reading, random: Random(film.len() as u64), asked: Tally::default() }
    }

    /// The header, by a beginning of any length that is made longer until it is known; and this beginning.
    pub fn open(&mut self) -> Result<(OpenReply, &'a [u8]), String> {
        let mut length = self.random.within(0..FIRST) as usize;
        loop {
            let beginning = &self.film[..length.min(self.film.len())];
            let reply = exports::open(&beginning.to_vec(), self.film.len(), self.reading);
            self.asked.opens += 1;
            if reply.more == 0 {
                self.asked.opened += beginning.len() as u64;
                return Ok((reply, beginning));
            }
            if beginning.len() == self.film.len() {
                return Err("usm_open: all bytes are not enough".to_string());
            }
            length = 2 * length + self.random.within(1..40) as usize;
        }
    }

    /// All steps from a place on: the chunks, or the refusal of the first that is refused.
    pub fn walk(&mut self, first: usize, audio: FilmAudio) -> Result<Result<Vec<Found>, Refusal>, String> {
        let (mut place, mut found) = (first, Vec::new());
        loop {
            let step = self.step(place, audio)?;
            if let Some(refusal) = exports::refusal(step.number, step.refused_at, step.unknown_type) {
                return Ok(Err(refusal));
            }
            match step.found {
                OVER => return Ok(Ok(found)),
                CHUNK if step.next > place => found.push((place, step)),
                _ => return Err(format!("usm_step: at {place} the reply is {step:?}")),
            }
            place = step.next;
        }
    }

    /// A step by a window of any length, and where that is too short by one of 45 bytes.
    fn step(&mut self, place: usize, audio: FilmAudio) -> Result<StepReply, String> {
        let length = self.random.within(0..MOST) as usize;
        let step = self.step_by(length, place, audio);
        if step.found != MORE {
            return Ok(step);
        }
        self.asked.short_windows += 1;
        if length >= ENOUGH {
            return Err(format!("usm_step: at {place} {length} bytes are not enough"));
        }
        Ok(self.step_by(ENOUGH, place, audio))
    }

    fn step_by(&mut self, length: usize, place: usize, audio: FilmAudio) -> StepReply {
        let rest = self.film.get(place..).unwrap_or_default();
        let window = rest[..length.min(rest.len())].to_vec();
        self.asked.steps += 1;
        exports::step(&window, place, self.film.len(), self.reading, audio)
    }

    /// The payloads of one kind, each unmasked under a key, one after the other.
    pub fn stream(&mut self, found: &[Found], kind: u8, key: Option<u64>) -> Result<Vec<u8>, String> {
        let mut stream = Vec::new();
        for (start, step) in found.iter().filter(|(_, step)| step.kind == kind) {
            let payload = self.film.get(step.payload..).and_then(|rest| rest.get(..step.length));
            let mut payload =
                payload.ok_or_else(|| format!("usm_step: the payload of {start} lies past the film"))?.to_vec();
            if let Some(key) = key {
                let pieces = self.clear_in_pieces(key, step.mask, &payload)?;
                exports::clear(key, step.mask, &mut payload);
                if pieces != payload {
                    return Err(format!("usm_clear_piece: the payload of {start} is another than usm_clear's"));
                }
            }
            stream.extend(payload);
        }
        Ok(stream)
    }

    /// A payload unmasked piece by piece, cut at random where it can be.
    fn clear_in_pieces(&mut self, key: u64, mask: u8, payload: &[u8]) -> Result<Vec<u8>, String> {
        let mut clear = payload.to_vec();
        let mut place = 0;
        while place < clear.len() {
            let least = if place == 0 { FIRST_PIECE } else { ROW };
            let length = least + ROW * self.random.within(0..ROWS) as usize;
            let (before, rest) = clear.split_at_mut(place);
            let piece = &mut rest[..length.min(payload.len() - place)];
            let row = &before[place.saturating_sub(ROW)..];
            if !exports::clear_piece(key, mask, payload.len(), place, row, piece) {
                return Err(format!("usm_clear_piece: {} bytes at {place} are refused", piece.len()));
            }
            place += piece.len();
            self.asked.pieces += 1;
        }
        Ok(clear)
    }
}
