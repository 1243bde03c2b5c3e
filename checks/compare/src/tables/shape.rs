//! The shape of a random table: its columns, its row count, its texts.

use super::columns::{self, KNOWN_TYPES, UNKNOWN_TYPES};
use crate::random::Random;

/// What a table holds, before it is laid out.
pub struct Shape {
    /// The type byte of each column.
    pub columns: Vec<u8>,
    pub rows: u32,
    pub texts: Vec<Vec<u8>>,
}

/// More rows are not written out: only the header claims them.
const MOST_ROWS_WRITTEN: u32 = 257;

impl Shape {
    /// Any shape, its limits and beyond.
    pub fn any(random: &mut Random) -> Shape {
        Shape { columns: type_bytes(random), rows: row_count(random), texts: texts(random) }
    }

    /// The bytes of all columns, constants among them.
    pub fn columns_length(&self) -> usize {
        let constants = self.columns.iter().filter(|&&byte| columns::is_constant(byte));
        5 * self.columns.len() + constants.map(|&byte| columns::width(byte)).sum::<usize>()
    }

    /// The columns whose values stand in the rows.
    pub fn stored(&self) -> impl Iterator<Item = u8> {
        self.columns.iter().copied().filter(|&byte| !columns::is_constant(byte))
    }

    pub fn row_length(&self) -> usize {
        self.stored().map(columns::width).sum()
    }

    pub fn rows_written(&self) -> u32 {
        if self.rows > MOST_ROWS_WRITTEN { 2 } else { self.rows }
    }

    pub fn rows_length(&self) -> usize {
        self.rows_written() as usize * self.row_length()
    }
}

fn row_count(random: &mut Random) -> u32 {
    match random.within(0..100) {
        0..12 => 0,
        12..45 => 1,
        45..80 => random.within(2..6) as u32,
        80..94 => random.within(6..41) as u32,
        94 => random.within(41..255) as u32,
        95..98 => random.within(255..258) as u32,
        98 => random.pick(&[258, 1000, 65_535]),
        _ => random.pick(&[65_536, 1 << 31, u32::MAX - 1, u32::MAX]),
    }
}

fn type_bytes(random: &mut Random) -> Vec<u8> {
    let count = match random.within(0..100) {
        0..6 => 0,
        6..65 => random.within(1..5),
        65..90 => random.within(5..17),
        90..96 => random.within(17..64),
        96..98 => 64,
        98 => 65,
        _ => random.within(66..80),
    };
    let unknown = random.one_in(8);
    (0..count).map(|_| type_byte(unknown, random)).collect()
}

/// A type with a storage; unknown types only where they are wanted, and not often.
pub fn type_byte(unknown: bool, random: &mut Random) -> u8 {
    let column_type = if unknown && random.one_in(4) { random.pick(&UNKNOWN_TYPES) } else { random.pick(&KNOWN_TYPES) };
    let storage = if random.one_in(4) { random.pick(&[3, 7]) } else { random.within(0..16) as u8 };
    storage << 4 | column_type
}

/// A few texts, for names and strings alike, so that names repeat.
fn texts(random: &mut Random) -> Vec<Vec<u8>> {
    let count = random.within(1..7);
    (0..count).map(|_| text(random)).collect()
}

fn text(random: &mut Random) -> Vec<u8> {
    let short: [&[u8]; 10] =
        [b"", b"", b"a", b"b", b"ab", b"filename", b"mpeg_codec", b"audio_codec", "é".as_bytes(), "映画".as_bytes()];
    match random.within(0..40) {
        0 => vec![b'n'; random.within(200..1200) as usize],
        1 => random.pick(&[b"\xFF", b"\xFE", b"\xC3"]).to_vec(),
        2 => "\u{FFFD}".as_bytes().to_vec(),
        3 => random.bytes(8).into_iter().map(|byte| byte.max(1)).collect(),
        _ => random.pick(&short).to_vec(),
    }
}
