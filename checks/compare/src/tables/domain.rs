//! Refusals 9 and 10, which the original does not have: decided here, in the order of the rules.

use super::answer::Refusal;
use super::header;

pub const MOST_COLUMNS: u32 = 64;
pub const MOST_ROWS: u32 = 256;

/// The refusal that takes a table out of the domain. Where the header is cut or the body is not
/// there, or the signature is wrong, the answer is the original's.
pub fn refusal(bytes: &[u8], place: usize) -> Option<Refusal> {
    let table = bytes.get(place..)?;
    if table.len() < header::LENGTH || !table.starts_with(header::SIGNATURE) {
        return None;
    }
    let Some(body) = u64::from(header::SIZE.get(table)).checked_sub(header::BODY) else {
        return Some(Refusal::SizeTooSmall);
    };
    if ((table.len() - header::LENGTH) as u64) < body {
        return None;
    }
    let over = header::COLUMNS.get(table) > MOST_COLUMNS || header::ROWS.get(table) > MOST_ROWS;
    over.then_some(Refusal::OverLimit)
}
