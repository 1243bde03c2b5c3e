//! Zero columns, which the original does not have: our mode for them on one table, and the original on the same table with
//! each zero column written out as a constant of value zero, an empty text or empty data. Cell by cell they are one.

use super::answer::Cell;
use super::columns::{self, CONSTANT, DATA, KNOWN_TYPES, STORED, STRING};
use super::exports::{self, CellReply, ColumnReply, TableReply};
use super::header;
use super::original::{self, Answer, Table};
use crate::hex::hex;
use crate::random::Random;
use crate::reply::same;

const TABLES: u64 = 50_000;

/// Nothing is stored.
const ZERO: u8 = 0x10;

/// Names and texts, the first of which is empty; and the data.
const TEXTS: [&str; 5] = ["", "a", "b", "filename", "long enough"];
const BLOB: &[u8; 8] = b"\0\x01datas!";

/// What has agreed.
#[derive(Default)]
pub struct Counts {
    tables: u64,
    cells: u64,
    zeros: u64,
    numbered: u64,
}

impl Counts {
    pub fn print(&self) {
        println!(
            "zero columns              {:>9}  tables, {} cells, {} of them zero; {} by number; as the original has them",
            self.tables, self.cells, self.zeros, self.numbered
        );
    }
}

struct Column {
    storage: u8,
    kind: u8,
    name: &'static str,
    constant: Vec<u8>,
}

struct Plan {
    columns: Vec<Column>,
    rows: Vec<Vec<u8>>,
}

/// Every comparison; gives the counts, or the first that differs.
pub fn run() -> Result<Counts, String> {
    let mut random = Random(18);
    let mut counts = Counts::default();
    for _ in 0..TABLES {
        let plan = plan(&mut random);
        agree(&plan, &mut counts)
            .map_err(|what| format!("zero columns: {what}, in {}", hex(&laid_out(&plan, false))))?;
    }
    Ok(counts)
}

fn plan(random: &mut Random) -> Plan {
    let count = random.pick(&[0, 1, 2, 3, 5, 64]);
    let columns: Vec<Column> = (0..count).map(|_| column(random)).collect();
    let count = if random.one_in(200) { 256 } else { random.pick(&[0, 1, 2, 3, 8]) };
    let rows = (0..count).map(|_| row(&columns, random)).collect();
    Plan { columns, rows }
}

fn row(columns: &[Column], random: &mut Random) -> Vec<u8> {
    let stored = columns.iter().filter(|column| column.storage == STORED);
    stored.flat_map(|column| value(column.kind, random)).collect()
}

fn column(random: &mut Random) -> Column {
    let kind = random.pick(&KNOWN_TYPES);
    let storage = random.pick(&[ZERO, ZERO, CONSTANT, 0x70, STORED]);
    let constant = if columns::is_constant(storage) { value(kind, random) } else { Vec::new() };
    Column { storage, kind, name: random.pick(&TEXTS), constant }
}

/// The bytes of a value of this type.
fn value(kind: u8, random: &mut Random) -> Vec<u8> {
    match kind {
        STRING => place_of(random.pick(&TEXTS)).to_be_bytes().to_vec(),
        DATA => {
            let start = random.within(0..BLOB.len() as u64 + 1) as u32;
            let size = random.within(0..BLOB.len() as u64 - u64::from(start) + 1) as u32;
            [start.to_be_bytes(), size.to_be_bytes()].concat()
        }
        _ => columns::number(kind, random),
    }
}

/// Where a text stands among the texts.
fn place_of(text: &str) -> u32 {
    TEXTS.iter().take_while(|other| **other != text).map(|other| other.len() as u32 + 1).sum()
}

/// The table: zero columns as they are, or written out as constants.
fn laid_out(plan: &Plan, written_out: bool) -> Vec<u8> {
    let records: Vec<u8> = plan.columns.iter().flat_map(|column| record(column, written_out)).collect();
    let rows = plan.rows.concat();
    let texts: Vec<u8> = TEXTS.iter().flat_map(|text| [text.as_bytes(), b"\0"].concat()).collect();
    let places = [header::BODY as usize + records.len(), rows.len(), texts.len(), BLOB.len()];

    let mut table = header::blank();
    header::ROW_OFFSET.set(&mut table, places[0] as u32);
    header::STRING_OFFSET.set(&mut table, places[..2].iter().sum::<usize>() as u32);
    header::DATA_OFFSET.set(&mut table, places[..3].iter().sum::<usize>() as u32);
    header::SIZE.set(&mut table, places.iter().sum::<usize>() as u32);
    header::COLUMNS.set(&mut table, plan.columns.len() as u32);
    header::ROWS.set(&mut table, plan.rows.len() as u32);
    table.extend([records, rows, texts, BLOB.to_vec()].concat());
    table
}

/// A constant zero is zero bytes: a text's offset leads to the empty one, and data has size 0.
fn record(column: &Column, written_out: bool) -> Vec<u8> {
    let name = place_of(column.name).to_be_bytes();
    match column.storage {
        ZERO if written_out => [&[CONSTANT | column.kind][..], &name, &vec![0; columns::width(column.kind)]].concat(),
        storage => [&[storage | column.kind][..], &name, &column.constant].concat(),
    }
}

fn agree(plan: &Plan, counts: &mut Counts) -> Result<(), String> {
    let Answer::Accepted(table) = original::read(&laid_out(plan, true), 0) else {
        return Err("the original refuses the table with constants".to_string());
    };
    let ours = laid_out(plan, false);
    let expected = TableReply { columns: plan.columns.len(), rows: table.rows(), ..TableReply::default() };
    same(exports::table_with_zero_columns(&ours), expected)?;
    for name in TEXTS {
        for row in 0..table.rows() + 1 {
            let zero = is_zero(plan, name, row);
            let found = exports::cell_with_zero_columns(&ours, name.as_bytes(), row);
            same_cell(&ours, &table, name, row, zero, found)
                .map_err(|what| format!("name {name:?}, row {row}: {what}"))?;
            counts.cells += 1;
            counts.zeros += u64::from(zero);
        }
    }
    by_numbers(plan, &ours, &table, counts)?;
    counts.tables += 1;
    Ok(())
}

/// Every column by its number is the one of the plan, and every cell of the last one of a name is the original's.
fn by_numbers(plan: &Plan, ours: &[u8], table: &Table, counts: &mut Counts) -> Result<(), String> {
    for (number, column) in plan.columns.iter().enumerate() {
        same_column(ours, number, column).map_err(|what| format!("column {number}: {what}"))?;
        if plan.columns[number + 1..].iter().any(|later| later.name == column.name) {
            continue;
        }
        for row in 0..table.rows() + 1 {
            let zero = is_zero(plan, column.name, row);
            let found = exports::cell_at_with_zero_columns(ours, number, row);
            same_cell(ours, table, column.name, row, zero, found)
                .map_err(|what| format!("column {number}, row {row}: {what}"))?;
            counts.numbered += 1;
        }
    }
    Ok(())
}

fn same_column(ours: &[u8], number: usize, column: &Column) -> Result<(), String> {
    let found = exports::column_with_zero_columns(ours, number);
    let ColumnReply { name_start, name_length, .. } = found;
    let storage = match column.storage {
        ZERO => 3,
        STORED => 2,
        _ => 1,
    };
    let type_byte = column.storage | column.kind;
    same(found, ColumnReply { name_start, name_length, storage, type_byte, ..ColumnReply::default() })?;
    let name = ours.get(name_start..).and_then(|rest| rest.get(..name_length));
    same(name, Some(column.name.as_bytes()))
}

/// Whether the cell is one for which nothing is stored: the last column of the name counts.
fn is_zero(plan: &Plan, name: &str, row: usize) -> bool {
    row < plan.rows.len()
        && plan.columns.iter().rfind(|column| column.name == name).is_some_and(|column| column.storage == ZERO)
}

/// A cell on both sides. A part that is empty since nothing is stored starts at 0.
fn same_cell(ours: &[u8], table: &Table, name: &str, row: usize, zero: bool, found: CellReply) -> Result<(), String> {
    let reply = |kind, value, length| CellReply { kind, value, length, ..CellReply::default() };
    let part = |kind, bytes: &[u8]| {
        let start = if zero || kind == 5 && bytes.is_empty() { 0 } else { found.value };
        same(found, reply(kind, start, bytes.len()))?;
        let stands = ours.get(start as usize..start as usize + bytes.len());
        if stands == Some(bytes) { Ok(()) } else { Err(format!("at {start} stands {stands:?}")) }
    };
    match table.cell(name, row) {
        Cell::Nothing => same(found, CellReply::default()),
        Cell::Unsigned(number) => same(found, reply(1, number, 0)),
        Cell::Signed(number) => same(found, reply(2, number as u64, 0)),
        Cell::Float(bits) => same(found, reply(3, bits.into(), 0)),
        Cell::String(bytes) => part(4, &bytes),
        Cell::Data(bytes) => part(5, &bytes),
    }
}
