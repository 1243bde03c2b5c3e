//! Tables that cost a reader dear who measures every text: many strings or names on one long text.

use super::columns::{CONSTANT, STORED, STRING};
use super::header;

const COLUMNS: usize = 64;

/// A table of so many bytes in all, and the same with empty texts.
pub struct Pair {
    pub name: &'static str,
    pub bytes: usize,
    pub hostile: Vec<u8>,
    pub plain: Vec<u8>,
}

/// A table of 64 equal columns in equal rows. `text` leads to the long text, `empty` to the zero at its end.
struct Plan {
    name: &'static str,
    column: fn(text: u32, empty: u32) -> Vec<u8>,
    cell: fn(text: u32) -> Vec<u8>,
    rows: usize,
}

/// String cells in so many rows and 64 columns; 64 column names; 64 constant strings.
pub fn pairs(bytes: usize, rows: usize) -> [Pair; 3] {
    let cells = Plan {
        name: "cells",
        column: |_, empty| column(STORED | STRING, empty),
        cell: |text| text.to_be_bytes().to_vec(),
        rows,
    };
    let names = Plan { name: "names", column: |text, _| column(STORED, text), cell: |_| vec![0], rows: 1 };
    let constants = Plan {
        name: "constants",
        column: |text, empty| [column(CONSTANT | STRING, empty), text.to_be_bytes().to_vec()].concat(),
        cell: |_| Vec::new(),
        rows: 1,
    };
    [cells, names, constants].map(|plan| pair(&plan, bytes))
}

fn column(type_byte: u8, name: u32) -> Vec<u8> {
    [&[type_byte][..], &name.to_be_bytes()].concat()
}

/// The two tables differ in one byte: the text's first, with which an empty text ends.
fn pair(plan: &Plan, bytes: usize) -> Pair {
    let (hostile, text) = table(plan, bytes);
    let mut plain = hostile.clone();
    plain[text] = 0;
    Pair { name: plan.name, bytes, hostile, plain }
}

/// A table whose text fills all that columns and rows leave of the body; and where it begins.
fn table(plan: &Plan, bytes: usize) -> (Vec<u8>, usize) {
    let before_body = header::LENGTH - header::BODY as usize;
    let size = bytes - before_body;
    let row_offset = header::BODY as usize + COLUMNS * (plan.column)(0, 0).len();
    let text = row_offset + plan.rows * COLUMNS * (plan.cell)(0).len();

    let mut table = header::blank();
    header::SIZE.set(&mut table, size as u32);
    header::ROW_OFFSET.set(&mut table, row_offset as u32);
    header::COLUMNS.set(&mut table, COLUMNS as u32);
    header::ROWS.set(&mut table, plan.rows as u32);
    table.extend((plan.column)(text as u32, size as u32 - 1).repeat(COLUMNS));
    table.extend((plan.cell)(text as u32).repeat(COLUMNS * plan.rows));
    table.resize(bytes - 1, b'x');
    table.push(0);
    (table, before_body + text)
}
