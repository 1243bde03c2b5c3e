//! What the original can be asked: the domain of demand 2, and what costs gigabytes.

use super::rules::Reading;

/// A payload that claims more makes the original fill as many bytes before it finds them missing.
const MOST_FILLED: u64 = 1 << 24;

#[derive(Clone, Copy, PartialEq, Eq)]
pub enum Domain {
    Inside,
    /// Inside, but the original fills too much memory to be asked in this process.
    Costly,
    Outside(Rule),
}

/// The rule that takes a container out of the domain.
#[derive(Clone, Copy, PartialEq, Eq)]
pub enum Rule {
    /// Refusal 9: the original panics.
    TooSmall,
    /// Refusal 10: the original has no limit, and may reserve 200 GB.
    TooMany,
    /// Refusal 11: the original has no limit.
    TooLong,
    /// Accepted without a chunk: the original panics.
    PastTheEnd,
}

pub fn domain(container: &[u8], reading: &Reading) -> Domain {
    match &reading.answer {
        Err(refusal) if refusal.number == 9 => Domain::Outside(Rule::TooSmall),
        Err(refusal) if refusal.number == 10 => Domain::Outside(Rule::TooMany),
        Err(refusal) if refusal.number == 11 => Domain::Outside(Rule::TooLong),
        Err(_) if reading.claimed > MOST_FILLED => Domain::Costly,
        Ok(film) if film.first > container.len() as u64 => Domain::Outside(Rule::PastTheEnd),
        _ => Domain::Inside,
    }
}
