//! Random tables, most of them sound, with the edges of every rule far more often than chance has them.

use super::case::Case;
use super::header;
use super::layout::lay_out;
use super::shape::{Shape, type_byte};
use crate::random::Random;

/// A table of any shape.
pub fn any(random: &mut Random) -> Case {
    let shape = Shape::any(random);
    framed(lay_out(&shape, random), &shape, random)
}

/// A small table that stands at byte 0 and fills its slice.
pub fn small(random: &mut Random) -> Case {
    let count = random.within(1..5);
    let columns = (0..count).map(|_| type_byte(false, random)).collect();
    let texts = vec![b"a".to_vec(), b"bc".to_vec(), Vec::new()];
    let shape = Shape { columns, rows: random.within(1..4) as u32, texts };
    let names = shape.texts.clone();
    Case::new(&lay_out(&shape, random), 0, names)
}

/// A table with this column between two others.
pub fn with_column(type_byte: u8, rows: u32, random: &mut Random) -> Case {
    let texts = ["first", "middle", "last"].map(|name| name.as_bytes().to_vec()).to_vec();
    let shape = Shape { columns: vec![0x50, type_byte, 0x5A], rows, texts };
    let names = shape.texts.clone();
    Case::new(&lay_out(&shape, random), 0, names)
}

/// The table in a slice that may begin before it and end after it or inside, with a header that may claim otherwise.
fn framed(mut table: Vec<u8>, shape: &Shape, random: &mut Random) -> Case {
    if random.one_in(8) {
        claim_otherwise(&mut table, random);
    }
    let mut slice = before(random);
    let place = slice.len();
    slice.extend(table);
    slice.extend(after(random));
    if random.one_in(30) {
        slice.truncate(slice.len() - random.within(0..slice.len() as u64 + 1) as usize);
    }
    let place = if random.one_in(100) { stray_place(slice.len(), random) } else { place };
    Case::new(&slice, place, shape.texts.clone())
}

/// One field of the header, near its value or at an edge.
fn claim_otherwise(table: &mut [u8], random: &mut Random) {
    let field = random.pick(&[header::SIZE, header::COLUMNS, header::ROWS, header::ROW_OFFSET, header::SIZE]);
    let claimed = field.get(table);
    let near = [claimed.wrapping_sub(1), claimed.wrapping_add(1), claimed / 2, claimed.wrapping_add(20)];
    let edges = [0, 1, 23, 24, 25, 64, 65, 256, 257];
    let number = if random.one_in(3) { random.pick(&edges) } else { random.pick(&near) };
    field.set(table, number);
}

fn before(random: &mut Random) -> Vec<u8> {
    let length = random.within(1..70) as usize;
    match random.within(0..8) {
        0..4 => Vec::new(),
        4 => [header::SIGNATURE.to_vec(), random.bytes(length)].concat(),
        5 => vec![0; length],
        _ => random.bytes(length),
    }
}

fn after(random: &mut Random) -> Vec<u8> {
    let length = random.within(1..40) as usize;
    match random.within(0..8) {
        0..4 => Vec::new(),
        4 => vec![b'x'; length],
        5 => vec![0; length],
        _ => random.bytes(length),
    }
}

/// A place near the end of a slice, or so large that a sum with it overflows.
fn stray_place(length: usize, random: &mut Random) -> usize {
    let near = [length.saturating_sub(33), length.saturating_sub(32), length.saturating_sub(4), length, length + 1];
    let far = [usize::MAX, usize::MAX - 3, usize::MAX - 4, usize::MAX - 31, usize::MAX - 32, 1 << 63, 1 << 32];
    if random.one_in(2) { random.pick(&near) } else { random.pick(&far) }
}
