//! Which cells of a table are asked for.

use super::case::Case;
use super::original::{Table, kept};
use crate::random::Random;

pub struct Query {
    pub name: Vec<u8>,
    pub row: usize,
}

/// Of a table's cells at most so many, lest large tables take all the time.
const MOST_CELLS: usize = 64;

/// Two of a table that is refused: each gives the refusal.
pub fn of_refused(case: &Case) -> Vec<Query> {
    let name = case.names.first().cloned().unwrap_or_default();
    vec![Query { name, row: 0 }, Query { name: b"absent".to_vec(), row: usize::MAX }]
}

/// Cells of a table that is accepted, rows at and past its end, and names that may be absent.
pub fn of_accepted(case: &Case, table: &Table) -> Vec<Query> {
    let names = names(case, table);
    let mut queries = cells(&names, table.rows());
    for row in [table.rows(), table.rows() + 1, 1 << 32, usize::MAX] {
        queries.extend(names.first().map(|name| Query { name: name.clone(), row }));
        queries.extend(names.last().map(|name| Query { name: name.clone(), row }));
    }
    queries.extend(beside(&names).into_iter().map(|name| Query { name, row: 0 }));
    queries
}

/// The names that the generator knows and those that the original has as they are.
fn names(case: &Case, table: &Table) -> Vec<Vec<u8>> {
    let mut names = case.names.clone();
    names.extend(table.names().filter(|name| kept(name.as_bytes()).is_some()).map(|name| name.as_bytes().to_vec()));
    names.sort();
    names.dedup();
    names
}

/// Every name in every row, or as many of them as are asked for.
fn cells(names: &[Vec<u8>], rows: usize) -> Vec<Query> {
    let count = names.len() * rows;
    let cell = |index: usize| Query { name: names[index / rows].clone(), row: index % rows };
    if count <= MOST_CELLS {
        return (0..count).map(cell).collect();
    }
    let mut random = Random(count as u64);
    (0..MOST_CELLS).map(|_| cell(random.within(0..count as u64) as usize)).collect()
}

/// Names a byte longer or shorter than one of these, a zero byte among them, and one like none.
fn beside(names: &[Vec<u8>]) -> Vec<Vec<u8>> {
    let mut beside = vec![b"absent".to_vec()];
    for name in names {
        beside.push([name, &b"\0"[..]].concat());
        beside.push([name, &b"x"[..]].concat());
        beside.extend(name.split_last().map(|(_, shorter)| shorter.to_vec()));
    }
    beside
}
