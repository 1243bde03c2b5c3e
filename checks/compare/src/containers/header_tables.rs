//! Random tables for the blocks of a header.

use super::film::empty_table;
use crate::random::Random;
use crate::tables::columns::{self, DATA, FLOAT, KNOWN_TYPES, STRING, is_constant};
use crate::tables::layout::lay_out;
use crate::tables::shape::{Shape, type_byte};
use crate::tables::sketch::Sketch;

/// A table in which a column has this name, or may have.
pub fn table(name: &[u8], random: &mut Random) -> Vec<u8> {
    match random.within(0..24) {
        0 => lay_out(&Shape::any(random), random),
        1..4 => lay_out(&small_shape(name, random), random),
        4..7 => empty_table(),
        7 => with_columns(name, random.within(60..66), random),
        _ => {
            let others = random.within(0..4);
            with_columns(name, others, random)
        }
    }
}

fn small_shape(name: &[u8], random: &mut Random) -> Shape {
    let count = random.within(1..5);
    let columns = (0..count).map(|_| type_byte(false, random)).collect();
    Shape { columns, rows: random.within(0..4) as u32, texts: vec![name.to_vec(), b"a".to_vec(), Vec::new()] }
}

/// A sound table, but for its limits: so many other columns, and the one asked for, once, twice or not at all.
fn with_columns(name: &[u8], others: u64, random: &mut Random) -> Vec<u8> {
    let mut table = Sketch::default();
    let mut stored = Vec::new();
    let wanted = random.pick(&[0, 1, 1, 1, 1, 1, 2]);
    let mut names = vec![&b"other"[..]; others as usize];
    for _ in 0..wanted {
        names.insert(random.within(0..names.len() as u64 + 1) as usize, name);
    }
    for name in names {
        let type_byte = storage(random) << 4 | random.pick(&KNOWN_TYPES);
        let constant = if is_constant(type_byte) { value(type_byte, &mut table, random) } else { Vec::new() };
        table.column(type_byte, name, &constant);
        if !is_constant(type_byte) {
            stored.push(type_byte);
        }
    }
    for _ in 0..rows(random) {
        let row: Vec<u8> = stored.iter().flat_map(|&type_byte| value(type_byte, &mut table, random)).collect();
        table.row(&row);
    }
    table.bytes()
}

fn storage(random: &mut Random) -> u8 {
    random.pick(&[5, 5, 5, 3, 7, 1, 0, 0xF])
}

fn rows(random: &mut Random) -> u64 {
    match random.within(0..200) {
        0..15 => 0,
        15..130 => 1,
        130..198 => random.within(2..6),
        _ => random.within(255..258),
    }
}

/// A cell: codecs that mean something among the numbers, texts and data, empty data that points anywhere.
fn value(type_byte: u8, table: &mut Sketch, random: &mut Random) -> Vec<u8> {
    match type_byte & 0xF {
        STRING => {
            let text: &[u8] = random.pick(&[&b"film.usm"[..], b"", b"a", b"\x83\x81\x83C\x83\x93"]);
            table.text(text).to_be_bytes().to_vec()
        }
        DATA if random.one_in(3) => [random.number() as u32, 0].map(u32::to_be_bytes).concat(),
        DATA => table.data(random.pick(&[&b"name\0as data"[..], b"x", b"\0"])).to_vec(),
        FLOAT => columns::number(type_byte, random),
        _ => codec(columns::width(type_byte), random),
    }
}

/// 2, 4, 9 or another number, in so many bytes; those of 8 may have more above the low 32 bits.
fn codec(width: usize, random: &mut Random) -> Vec<u8> {
    let number = random.pick(&[2, 2, 2, 4, 4, 9, 9, 0, 1, 3, 0x82, u64::MAX, 0x8000, 0x1_0000_0002, 0x1_0000_0009]);
    number.to_be_bytes()[8 - width..].to_vec()
}
