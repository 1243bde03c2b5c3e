//! Columns and cells by their numbers, where the original accepts. Its table has names and rows, and no columns: what is
//! expected of a column is the name and the value that the original has under it.

use std::collections::BTreeSet;

use super::case::Case;
use super::compare::same_cell;
use super::exports::{self, CellReply, ColumnReply};
use super::original::{self, Answer, Table};
use super::tally::Seen;
use super::{columns, header};
use crate::hex::hex;
use crate::reply::same;

/// Of the columns that a later one of their name hides, at most so many of a table, lest large tables take all the time.
const MOST_HIDDEN: usize = 4;

/// Where a column has its values.
const CONSTANT: u8 = 1;
const ROWS: u8 = 2;

/// Every column, every cell of the last column of a name, and numbers that the table does not have.
pub fn compare(case: &Case, table: &Table, seen: &mut Seen) -> Result<(), String> {
    let names = names(case)?;
    same_names(&names, table)?;
    past_the_last(case, names.len(), table.rows())?;
    let mut hidden = 0;
    for (number, name) in names.iter().enumerate() {
        match original::kept(name) {
            None => seen.left_out += table.rows() as u64,
            Some(name) if !names[number + 1..].contains(&name.as_bytes()) => {
                last_of_its_name(case, table, number, name, seen)?;
            }
            Some(name) if hidden < MOST_HIDDEN && table.rows() > 0 => {
                hidden_by_another(case, number, name, seen)?;
                hidden += 1;
            }
            Some(_) => {}
        }
    }
    seen.columns += names.len() as u64;
    Ok(())
}

/// The names of the columns by their numbers. Type byte and storage are those of the records, one after the other.
fn names(case: &Case) -> Result<Vec<&[u8]>, String> {
    let mut record = case.place + header::LENGTH;
    let mut names = Vec::new();
    for number in 0..header::COLUMNS.get(case.table()) as usize {
        let reply = exports::column(case.slice(), case.place, number);
        let type_byte = case.slice()[record];
        let is_constant = columns::is_constant(type_byte);
        let storage = if is_constant { CONSTANT } else { ROWS };
        let ColumnReply { name_start, name_length, .. } = reply;
        same(reply, ColumnReply { name_start, name_length, storage, type_byte, ..ColumnReply::default() })
            .map_err(|what| format!("usm_column {number}: {what}"))?;
        let name = case.slice().get(name_start..).and_then(|rest| rest.get(..name_length));
        names.push(name.ok_or_else(|| format!("usm_column {number}: the name lies outside, {reply:?}"))?);
        record += 5 + if is_constant { columns::width(type_byte) } else { 0 };
    }
    Ok(names)
}

/// The original has the same names, where it has a row and keeps them as they are.
fn same_names(names: &[&[u8]], table: &Table) -> Result<(), String> {
    if table.rows() == 0 {
        return Ok(());
    }
    let ours: BTreeSet<&str> = names.iter().filter_map(|name| original::kept(name)).collect();
    let theirs: BTreeSet<&str> = table.names().filter(|name| original::kept(name.as_bytes()).is_some()).collect();
    same(ours, theirs).map_err(|what| format!("usm_column, all names: {what}"))
}

fn past_the_last(case: &Case, columns: usize, rows: usize) -> Result<(), String> {
    for number in [columns, columns + 1, 1 << 32, usize::MAX] {
        same(exports::column(case.slice(), case.place, number), ColumnReply::default())
            .map_err(|what| format!("usm_column {number}: {what}"))?;
        same(exports::cell_at(case.slice(), case.place, number, 0), CellReply::default())
            .map_err(|what| in_cell(number, 0, what))?;
    }
    for row in [rows, rows + 1, 1 << 32, usize::MAX] {
        same(exports::cell_at(case.slice(), case.place, 0, row), CellReply::default())
            .map_err(|what| in_cell(0, row, what))?;
    }
    Ok(())
}

/// The original has the cells of the last column of a name.
fn last_of_its_name(case: &Case, table: &Table, number: usize, name: &str, seen: &mut Seen) -> Result<(), String> {
    for row in 0..table.rows() {
        let found = exports::cell_at(case.slice(), case.place, number, row);
        same_cell(case, found, &table.cell(name, row)).map_err(|what| in_cell(number, row, what))?;
        seen.numbered += 1;
    }
    Ok(())
}

/// A column that a later one of its name hides: in the table without the columns after it the original shows it, in the
/// first row, which begins at the same place.
fn hidden_by_another(case: &Case, number: usize, name: &str, seen: &mut Seen) -> Result<(), String> {
    let mut shorter = case.clone();
    header::COLUMNS.set(shorter.table_mut(), number as u32 + 1);
    header::ROWS.set(shorter.table_mut(), 1);
    let Answer::Accepted(table) = original::read(shorter.slice(), shorter.place) else {
        return Err(format!("the original refuses the first {} columns: {}", number + 1, hex(shorter.slice())));
    };
    let found = exports::cell_at(case.slice(), case.place, number, 0);
    same_cell(case, found, &table.cell(name, 0)).map_err(|what| in_cell(number, 0, what))?;
    seen.hidden += 1;
    Ok(())
}

fn in_cell(number: usize, row: usize, what: String) -> String {
    format!("usm_cell_at, column {number}, row {row}: {what}")
}
