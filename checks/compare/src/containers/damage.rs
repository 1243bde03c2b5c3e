//! Damaged copies of a container: bytes changed, every cut, each size, offset and count at its edges.

use std::collections::BTreeSet;

use super::call::Call;
use super::case::Case;
use super::rules::{self, INSIDE};
use super::table_rules;
use crate::damage::{changed_byte, changed_bytes, cut};
use crate::random::Random;
use crate::tables::columns::{DATA, STRING, is_constant, width};
use crate::tables::header::{self, Field};

/// Every damaged copy of a case, each with calls of its own.
pub fn copies(case: &Case, random: &mut Random) -> Vec<Case> {
    let mut copies: Vec<Case> = (0..case.length).flat_map(|at| changed_bytes(case, at, random)).collect();
    copies.extend((0..case.length).map(|length| cut(case, length)));
    copies.extend(fields(case).into_iter().flat_map(|(from, field)| edges(case, from, field)));
    with_calls(copies, random)
}

/// One byte at all its other values.
pub fn every_value(case: &Case, at: usize, random: &mut Random) -> Vec<Case> {
    let others = (0..=u8::MAX).filter(|&byte| byte != case.whole[at]);
    with_calls(others.map(|byte| changed_byte(case, at, byte)).collect(), random)
}

fn with_calls(mut cases: Vec<Case>, random: &mut Random) -> Vec<Case> {
    for case in &mut cases {
        case.calls = Call::some(random);
    }
    cases
}

/// The size of a block, and of a chunk those of header and footer and its data type.
pub const SIZE: Field = Field { at: 4, width: 4 };
const HEADER_SIZE: Field = Field { at: 8, width: 2 };
const FOOTER_SIZE: Field = Field { at: 10, width: 2 };
const DATA_TYPE: Field = Field { at: 15, width: 1 };

/// The numbers of every block that is read, of the tables' headers and of their columns and cells, each with the place
/// from which it counts.
fn fields(case: &Case) -> Vec<(usize, Field)> {
    let mut fields = Vec::new();
    for start in rules::read(case.container(), true).starts.into_iter().map(|start| start as usize) {
        fields.extend([SIZE, HEADER_SIZE, FOOTER_SIZE, DATA_TYPE].map(|field| (start, field)));
        let table = start + INSIDE as usize;
        if case.container().get(table..).is_some_and(|rest| rest.starts_with(header::SIGNATURE)) {
            fields.extend(header::FIELDS.map(|field| (table, field)));
        }
        if table_rules::read(case.container(), table as u64).is_ok() {
            fields.extend(pointers(&case.whole[table..]).into_iter().map(|field| (table, field)));
        }
    }
    fields.retain(|(from, field)| from + field.at + field.width <= case.length);
    fields
}

/// The pointers of a table that is accepted, and the sizes of its data: in its columns, then in its rows.
fn pointers(table: &[u8]) -> Vec<Field> {
    let mut pointers = Vec::new();
    let mut stored = Vec::new();
    let mut at = header::LENGTH;
    for _ in 0..header::COLUMNS.get(table) {
        let type_byte = table[at];
        pointers.push(Field { at: at + 1, width: 4 });
        at += 5;
        if is_constant(type_byte) {
            pointers.extend(cell_pointers(type_byte, at));
            at += width(type_byte);
        } else {
            stored.push(type_byte);
        }
    }
    at = header::LENGTH - header::BODY as usize + header::ROW_OFFSET.get(table) as usize;
    for _ in 0..header::ROWS.get(table) {
        for &type_byte in &stored {
            pointers.extend(cell_pointers(type_byte, at));
            at += width(type_byte);
        }
    }
    pointers
}

fn cell_pointers(type_byte: u8, at: usize) -> Vec<Field> {
    match type_byte & 0xF {
        STRING => vec![Field { at, width: 4 }],
        DATA => vec![Field { at, width: 4 }, Field { at: at + 4, width: 4 }],
        _ => Vec::new(),
    }
}

/// A number at each of its edges, as far as they are others than its own.
fn edges(case: &Case, from: usize, field: Field) -> Vec<Case> {
    let own = field.get(&case.whole[from..]);
    let near = [1, 8].into_iter().flat_map(|step| [own.wrapping_sub(step), own.wrapping_add(step)]);
    let stored: BTreeSet<u32> = near.chain(EDGES).map(|number| number & field.max()).collect();
    let others = stored.into_iter().filter(|&number| number != own);
    others.map(|number| with_field(case, from, field, number)).collect()
}

const EDGES: [u32; 15] =
    [0, 1, 0x17, 0x18, 0x19, 0x20, 64, 65, 256, 257, 0xFFFF, 0x7FFF_FFFF, 0x8000_0000, u32::MAX - 8, u32::MAX];

pub fn with_field(case: &Case, from: usize, field: Field, number: u32) -> Case {
    let mut copy = case.clone();
    field.set(&mut copy.whole[from..], number);
    copy
}
