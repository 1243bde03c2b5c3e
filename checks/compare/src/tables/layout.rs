//! Lays a random table out: header, columns, then rows, texts and data in any order.

use super::columns;
use super::header;
use super::pointers::Pointers;
use super::shape::Shape;
use crate::random::Random;

/// Where the parts of a body stand, as the header's offsets count.
struct Places {
    rows: u64,
    texts: u64,
    data: u64,
    end: u64,
}

const DATA_LENGTH: usize = 12;

/// A table's header and body.
pub fn lay_out(shape: &Shape, random: &mut Random) -> Vec<u8> {
    let mut texts = terminated(&shape.texts);
    let order = random.pick(&[[0, 1, 2], [0, 2, 1], [1, 0, 2], [2, 1, 0]]);
    if order[2] == 1 && random.one_in(12) {
        texts.pop();
    }
    let gaps = [(); 3].map(|()| gap(random));
    let lengths = [shape.rows_length(), texts.len(), DATA_LENGTH];
    let places = places(shape.columns_length(), order, &gaps, lengths);
    let pointers = pointers(shape, &places, random);

    let parts = [row_bytes(shape, &pointers, random), texts, random.bytes(DATA_LENGTH)];
    let mut table = head(shape, &places, &pointers, random);
    table.extend(column_bytes(shape, &pointers, random));
    for (gap, part) in gaps.iter().zip(order) {
        table.extend(gap);
        table.extend(&parts[part]);
    }
    table
}

fn gap(random: &mut Random) -> Vec<u8> {
    let length = if random.one_in(3) { random.within(1..4) } else { 0 };
    random.bytes(length as usize)
}

fn terminated(texts: &[Vec<u8>]) -> Vec<u8> {
    texts.iter().flat_map(|text| text.iter().copied().chain([0])).collect()
}

/// Rows, texts and data in the order given, after the columns, with a gap before each.
fn places(columns: usize, order: [usize; 3], gaps: &[Vec<u8>; 3], lengths: [usize; 3]) -> Places {
    let mut next = header::BODY + columns as u64;
    let mut starts = [0; 3];
    for (gap, part) in gaps.iter().zip(order) {
        starts[part] = next + gap.len() as u64;
        next = starts[part] + lengths[part] as u64;
    }
    let [rows, texts, data] = starts;
    Places { rows, texts, data, end: next }
}

fn pointers(shape: &Shape, places: &Places, random: &mut Random) -> Pointers {
    let mut next = places.texts;
    let mut texts = Vec::new();
    for text in &shape.texts {
        texts.push(next);
        next += text.len() as u64 + 1;
    }
    Pointers {
        texts,
        data: places.data..places.data + DATA_LENGTH as u64,
        end: places.end,
        string_offset: offset_before(places.texts, places.end, random),
        data_offset: offset_before(places.data, places.end, random),
        strays: random.one_in(3),
    }
}

/// An offset from which a part can be pointed at; now and then one from which nothing can.
fn offset_before(part: u64, end: u64, random: &mut Random) -> u64 {
    match random.within(0..60) {
        0 => end,
        1 => u64::from(u32::MAX),
        2..9 => 0,
        9..16 => header::BODY,
        16..23 => random.within(0..part + 1),
        _ => part,
    }
}

fn head(shape: &Shape, places: &Places, pointers: &Pointers, random: &mut Random) -> Vec<u8> {
    let mut head = header::blank();
    for unread in [header::VERSION, header::TABLE_NAME, header::ROW_SIZE] {
        unread.set(&mut head, random.number() as u32);
    }
    header::SIZE.set(&mut head, places.end as u32);
    header::ROW_OFFSET.set(&mut head, row_offset(shape, places, random) as u32);
    header::STRING_OFFSET.set(&mut head, pointers.string_offset as u32);
    header::DATA_OFFSET.set(&mut head, pointers.data_offset as u32);
    header::COLUMNS.set(&mut head, shape.columns.len() as u32);
    header::ROWS.set(&mut head, shape.rows);
    head
}

/// Where the rows stand; anywhere where none is read; now and then an edge.
fn row_offset(shape: &Shape, places: &Places, random: &mut Random) -> u64 {
    let edges = [0, 1, header::BODY - 1, header::BODY, header::BODY + 1, places.end, places.rows + 1, 0xFFFF];
    let last = places.end.saturating_sub(shape.rows_length() as u64);
    match random.within(0..30) {
        0 => random.pick(&edges),
        1 => last,
        2 => last + 1,
        _ if shape.row_length() == 0 || shape.rows == 0 => random.pick(&edges),
        _ => places.rows,
    }
}

fn column_bytes(shape: &Shape, pointers: &Pointers, random: &mut Random) -> Vec<u8> {
    let mut bytes = Vec::new();
    for &type_byte in &shape.columns {
        bytes.push(type_byte);
        bytes.extend(pointers.string(random));
        if columns::is_constant(type_byte) {
            bytes.extend(pointers.value(type_byte, random));
        }
    }
    bytes
}

fn row_bytes(shape: &Shape, pointers: &Pointers, random: &mut Random) -> Vec<u8> {
    let mut bytes = Vec::new();
    for _ in 0..shape.rows_written() {
        for type_byte in shape.stored() {
            bytes.extend(pointers.value(type_byte, random));
        }
    }
    bytes
}
