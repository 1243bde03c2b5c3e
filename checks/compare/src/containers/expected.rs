//! What is expected of a call: the original's answer, or that of the rules where the original can't be asked.

use super::answer::{Kind, Refusal};
use super::call::Call;
use super::case::Case;
use super::child;
use super::domain::{Domain, Rule};
use super::original::{self, Answer, Film, Header};
use super::rules::{self, Name, Reading};
use crate::hex::hex;
use crate::panics::OVERFLOW;

pub enum Expected {
    Refused(Refusal),
    Accepted(Film),
    /// A film without a chunk, since the first would begin past the end: the original panics.
    PastTheEnd(Film),
}

/// Asks the original where it can be asked.
pub fn expected(case: &Case, call: &Call, reading: &Reading, domain: Domain) -> Result<Expected, String> {
    match (domain, &reading.answer) {
        (Domain::Costly, _) if case.in_child => in_child(case, call),
        (Domain::Costly | Domain::Outside(Rule::TooMany | Rule::TooLong), Err(refusal)) => Ok(Expected::Refused(*refusal)),
        _ => original(case, call),
    }
}

/// Where the original does not refuse after all, it fills no more than the container has, and can be asked here.
fn in_child(case: &Case, call: &Call) -> Result<Expected, String> {
    match child::ask(case.container(), call.takes_audio())? {
        Some(refusal) => Ok(Expected::Refused(refusal)),
        None => original(case, call),
    }
}

/// The original's own answer. The rules have refusal 9 for its panics, except those at a first chunk past the end.
fn original(case: &Case, call: &Call) -> Result<Expected, String> {
    let container = case.container();
    match original::extract(container, call.takes_audio(), call.key(), &call.fallback) {
        Answer::Accepted(film) => Ok(Expected::Accepted(film)),
        Answer::Refused(refusal) => Ok(Expected::Refused(refusal)),
        Answer::Panicked(what, _) if what != OVERFLOW => {
            Err(format!("the original panics otherwise than at a difference: {what}"))
        }
        Answer::Panicked(_, block) if block > container.len() as u64 => {
            let film = original::without_chunks(container, &call.fallback);
            film.map(Expected::PastTheEnd).map_err(|refusal| format!("the original's header walk says {refusal}"))
        }
        Answer::Panicked(_, block) => Ok(Expected::Refused(Refusal::new(9, block))),
    }
}

/// The rules must say what is expected.
pub fn same_by_the_rules(case: &Case, call: &Call, expected: &Expected, reading: &Reading) -> Result<(), String> {
    match (expected, &reading.answer) {
        (Expected::Refused(original), Err(refusal)) if original == refusal => Ok(()),
        (Expected::Refused(original), Err(refusal)) => {
            Err(format!("the original says {original}, and the rules {refusal}"))
        }
        (Expected::Refused(original), Ok(_)) => Err(format!("the original says {original}, and the rules accept")),
        (Expected::Accepted(original), Ok(film)) if film.first <= case.length as u64 => {
            same_film(case, call, original, film)
        }
        (Expected::PastTheEnd(original), Ok(film)) if film.first > case.length as u64 => {
            same_film(case, call, original, film)
        }
        (_, Ok(film)) => Err(format!("the first chunk is at {} by the rules, and not so in the original", film.first)),
        (_, Err(refusal)) => Err(format!("the original does not refuse, and the rules say {refusal}")),
    }
}

fn same_film(case: &Case, call: &Call, original: &Film, film: &rules::Film) -> Result<(), String> {
    same_header(case, call, &original.header, film)?;
    let sizes = [film.size(Kind::Video), film.size(Kind::Audio)];
    if original.chunks != film.chunks || sizes != [original.video.len() as u64, original.audio.len() as u64] {
        return Err("the chunks or sizes of the original are not those of the rules".to_string());
    }
    Ok(())
}

fn same_header(case: &Case, call: &Call, original: &Header, film: &rules::Film) -> Result<(), String> {
    let name = match film.name {
        Name::Part { start, length } => &case.container()[start as usize..][..length as usize],
        Name::Fallback => &call.fallback,
    };
    if original.name != name {
        return Err(format!("the original's name is {}, that of the rules {}", hex(&original.name), hex(name)));
    }
    if original.tracks != film.tracks {
        return Err(format!("the original has {:?}, and the rules {:?}", original.tracks, film.tracks));
    }
    Ok(())
}
