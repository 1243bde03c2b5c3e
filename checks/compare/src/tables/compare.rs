//! One table on both sides: the reply, the cells and the bytes of their parts.

use std::ops::Range;

use super::answer::{Cell, Refusal};
use super::case::Case;
use super::exports::{self, CellReply, TableReply};
use super::original::{self, Answer, Table};
use super::queries::{self, Query};
use super::tally::{Outcome, Seen};
use super::{domain, header, numbers};
use crate::hex::hex;
use crate::panics::OVERFLOW;
use crate::reply::same;

/// Compares one case; gives what was seen, or the first difference.
pub fn compare(case: &Case) -> Result<Seen, String> {
    match domain::refusal(case.slice(), case.place) {
        Some(Refusal::OverLimit) => refused(case, Refusal::OverLimit, Outcome::Outside(Refusal::OverLimit)),
        outside => asked(case, outside.is_some()),
    }
}

/// The original's answer is expected, and 9 where it panics. That it panics where the size is below 24, and nowhere else,
/// is looked at after our calls.
fn asked(case: &Case, is_too_small: bool) -> Result<Seen, String> {
    let seen = match original::read(case.slice(), case.place) {
        Answer::Accepted(table) => accepted(case, &table)?,
        Answer::Refused(refusal) => refused(case, refusal, Outcome::Refused(refusal))?,
        Answer::Panicked(what) if what == OVERFLOW => {
            refused(case, Refusal::SizeTooSmall, Outcome::Outside(Refusal::SizeTooSmall))?
        }
        Answer::Panicked(what) => return Err(format!("the original panics otherwise than at a difference: {what}")),
    };
    match (is_too_small, matches!(seen.outcome, Outcome::Outside(_))) {
        (true, false) => Err("the size is below 24, and the original does not panic".to_string()),
        (false, true) => Err("the original panics inside the domain".to_string()),
        _ => Ok(seen),
    }
}

/// A refusal is expected, of the table and of every cell.
fn refused(case: &Case, refusal: Refusal, outcome: Outcome) -> Result<Seen, String> {
    let (refused_at, number, unknown_type) = (case.place, refusal.number(), refusal.column_type());
    same_table(case, TableReply { refused_at, number, unknown_type, ..TableReply::default() })?;
    let mut seen = Seen::new(outcome);
    for query in queries::of_refused(case) {
        let expected = CellReply { refused_at, number, unknown_type, ..CellReply::default() };
        same(cell(case, &query), expected).map_err(|what| in_cell(&query, what))?;
        seen.refused_cells += 1;
    }
    Ok(seen)
}

/// The original accepts. Its table has no columns, so their count is the header's.
fn accepted(case: &Case, table: &Table) -> Result<Seen, String> {
    let columns = header::COLUMNS.get(case.table()) as usize;
    same_table(case, TableReply { columns, rows: table.rows(), ..TableReply::default() })?;
    let mut seen = Seen::new(Outcome::Accepted);
    for query in queries::of_accepted(case, table) {
        let found = cell(case, &query);
        match original::kept(&query.name) {
            Some(name) => {
                let cell = table.cell(name, query.row);
                same_cell(case, found, &cell).map_err(|what| in_cell(&query, what))?;
                seen.count(&cell);
            }
            None => seen.left_out += 1,
        }
    }
    numbers::compare(case, table, &mut seen)?;
    Ok(seen)
}

fn in_cell(query: &Query, what: String) -> String {
    format!("usm_cell, name \"{}\" (hex), row {}: {what}", hex(&query.name), query.row)
}

fn same_table(case: &Case, expected: TableReply) -> Result<(), String> {
    same(exports::table(case.slice(), case.place), expected).map_err(|what| format!("usm_table: {what}"))
}

fn cell(case: &Case, query: &Query) -> CellReply {
    exports::cell(case.slice(), case.place, &query.name, query.row)
}

/// The reply on a cell; where it has a part, its bytes and that it lies in the body.
pub fn same_cell(case: &Case, found: CellReply, expected: &Cell) -> Result<(), String> {
    let number = |kind, value| CellReply { kind, value, ..CellReply::default() };
    let part = |kind, length| CellReply { kind, value: found.value, length, ..CellReply::default() };
    match expected {
        Cell::Nothing => same(found, CellReply::default()),
        Cell::Unsigned(value) => same(found, number(1, *value)),
        Cell::Signed(value) => same(found, number(2, *value as u64)),
        Cell::Float(bits) => same(found, number(3, (*bits).into())),
        Cell::String(bytes) => {
            let terminated = [bytes, &b"\0"[..]].concat();
            same(found, part(4, bytes.len()))
                .and_then(|()| same_part(case, found.value, &terminated))
                .map_err(|what| format!("{what} ({expected})"))
        }
        Cell::Data(bytes) if bytes.is_empty() => same(found, number(5, 0)),
        Cell::Data(bytes) => same(found, part(5, bytes.len()))
            .and_then(|()| same_part(case, found.value, bytes))
            .map_err(|what| format!("{what} ({expected})")),
    }
}

fn same_part(case: &Case, start: u64, expected: &[u8]) -> Result<(), String> {
    let body = body(case);
    let start = start as usize;
    let part = start.checked_add(expected.len()).map(|end| start..end);
    match part {
        Some(part) if part.start >= body.start && part.end <= body.end => {
            let found = &case.slice()[part];
            if found == expected { Ok(()) } else { Err(format!("at {start} stands {}", hex(found))) }
        }
        _ => Err(format!("{} bytes at {start} are not in the body, {body:?}", expected.len())),
    }
}

/// Where the body of an accepted table lies in the slice.
fn body(case: &Case) -> Range<usize> {
    let start = case.place + header::LENGTH;
    start..start + header::SIZE.get(case.table()) as usize - header::BODY as usize
}
