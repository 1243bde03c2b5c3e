//! One container on both sides.

use std::fmt;
use std::io::{Cursor, ErrorKind};

use oracle::usm::extractor as original;
use usm::Refusal;
use usm::cridecoder as ours;

use crate::asked::largest;
use crate::call::Call;
use crate::containers::case::Case;
use crate::containers::domain::{Domain, Rule, domain};
use crate::containers::rules;
use crate::panics::caught;

/// How many calls were compared, by what is expected.
#[derive(Default)]
pub struct Tally {
    accepted: usize,
    refused: usize,
    costly: usize,
    too_small: usize,
    too_many: usize,
    too_long: usize,
    past_the_end: usize,
}

impl Tally {
    pub fn is_lacking(&self) -> bool {
        let counts = [self.accepted, self.refused, self.costly, self.too_small, self.too_many, self.too_long];
        counts.contains(&0) || self.past_the_end == 0
    }
}

impl fmt::Display for Tally {
    fn fmt(&self, f: &mut fmt::Formatter) -> fmt::Result {
        let Tally { accepted, refused, costly, too_small, too_many, too_long, past_the_end } = self;
        write!(
            f,
            "beside the original: {accepted} calls accepted and {refused} refused as by it; outside its domain \
             {too_small} were 9, {too_many} were 10, {too_long} were 11, {past_the_end} had no chunk; \
             {costly} it would have filled memory for"
        )
    }
}

/// A stream or an error, in words that both sides can be put in.
#[derive(PartialEq, Debug)]
enum Answer {
    Streams(Vec<(String, String, Vec<u8>)>),
    Refused(String),
    Panicked,
}

/// Compares all calls of a case.
pub fn compare(case: &Case, tally: &mut Tally) -> Result<(), String> {
    case.calls.iter().try_for_each(|call| {
        compare_call(case.container(), call, tally).map_err(|what| {
            let hex: String = case.container().iter().take(4096).map(|byte| format!("{byte:02x}")).collect();
            format!("{what}\ncall: {call:?}\n{} bytes: {hex}", case.length)
        })
    })
}

fn compare_call(container: &[u8], call: &Call, tally: &mut Tally) -> Result<(), String> {
    let (ours, asked) = largest(|| by_ours(container, call));
    // The film is read into memory of its own; names and words take a little.
    let most = container.len() + 3 * call.fallback.len() + 4096;
    if asked > most {
        return Err(format!("{asked} bytes were asked for at once, over {most}"));
    }
    let reading = rules::read(container, call.audio);
    let refused = |number: u8| {
        let place = reading.answer.as_ref().err().map_or(0, |refusal| refusal.place);
        Answer::Refused(format!("Io InvalidData: number {number} at {place}"))
    };
    let (expected, count) = match domain(container, &reading) {
        Domain::Inside => {
            let expected = by_original(container, call);
            let count = if matches!(expected, Answer::Streams(_)) { &mut tally.accepted } else { &mut tally.refused };
            (expected, count)
        }
        Domain::Costly => (Answer::Refused("Io UnexpectedEof".to_string()), &mut tally.costly),
        Domain::Outside(Rule::TooSmall) => (refused(9), &mut tally.too_small),
        Domain::Outside(Rule::TooMany) => (refused(10), &mut tally.too_many),
        Domain::Outside(Rule::TooLong) => (refused(11), &mut tally.too_long),
        Domain::Outside(Rule::PastTheEnd) => {
            let first = reading.answer.as_ref().map_or(0, |film| film.first as usize);
            (by_original(&padded(container, first), call), &mut tally.past_the_end)
        }
    };
    *count += 1;
    if ours == expected { Ok(()) } else { Err(format!("ours is {ours:?}, and {expected:?} is expected")) }
}

/// The container with zeros up to where its first chunk would begin. That is inside the domain, and has no chunk either.
fn padded(container: &[u8], length: usize) -> Vec<u8> {
    let mut padded = container.to_vec();
    padded.resize(length, 0);
    padded
}

fn by_ours(container: &[u8], call: &Call) -> Answer {
    let answer = caught(|| ours::extract_usm_to_memory(Cursor::new(container), &call.fallback, call.key, call.audio));
    match answer {
        Ok(Ok(streams)) => {
            Answer::Streams(streams.into_iter().map(|stream| (stream.name, stream.extension, stream.data)).collect())
        }
        Ok(Err(ours::UsmError::Io(error))) => Answer::Refused(match error.kind() {
            ErrorKind::InvalidData => {
                let refusal = error.get_ref().and_then(|inside| inside.downcast_ref::<Refusal>()).expect("a refusal");
                format!("Io InvalidData: number {} at {}", refusal.number, refusal.place)
            }
            kind => format!("Io {kind:?}"),
        }),
        Ok(Err(error)) => Answer::Refused(format!("{error:?}: {error}")),
        Err(_) => Answer::Panicked,
    }
}

fn by_original(container: &[u8], call: &Call) -> Answer {
    let answer =
        caught(|| original::extract_usm_to_memory(Cursor::new(container), &call.fallback, call.key, call.audio));
    match answer {
        Ok(Ok(streams)) => {
            Answer::Streams(streams.into_iter().map(|stream| (stream.name, stream.extension, stream.data)).collect())
        }
        Ok(Err(original::UsmError::Io(error))) => Answer::Refused(format!("Io {:?}", error.kind())),
        Ok(Err(error)) => Answer::Refused(format!("{error:?}: {error}")),
        Err(_) => Answer::Panicked,
    }
}
