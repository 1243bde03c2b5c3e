//! Types and storages of columns, and the bytes of the numbers in them.

use crate::random::Random;

/// The bytes of a value by type, 0 for the types that are unknown.
const WIDTHS: [usize; 16] = [1, 1, 2, 2, 4, 4, 8, 0, 4, 0, 4, 8, 0, 0, 0, 0];

pub const KNOWN_TYPES: [u8; 10] = [0, 1, 2, 3, 4, 5, 6, 8, STRING, DATA];
pub const UNKNOWN_TYPES: [u8; 6] = [7, 9, 12, 13, 14, 15];
pub const FLOAT: u8 = 8;
pub const STRING: u8 = 0xA;
pub const DATA: u8 = 0xB;

/// Two storages: per row, and constant.
pub const STORED: u8 = 0x50;
pub const CONSTANT: u8 = 0x30;

/// The bytes of a value of this type byte.
pub fn width(type_byte: u8) -> usize {
    WIDTHS[usize::from(type_byte & 0xF)]
}

/// Storages 3 and 7: the value follows in the column. With every other storage it stands in the rows.
pub fn is_constant(type_byte: u8) -> bool {
    matches!(type_byte >> 4, 3 | 7)
}

/// A number or float of this type: an edge or any.
pub fn number(type_byte: u8, random: &mut Random) -> Vec<u8> {
    let width = width(type_byte);
    let edge = |first: u8, rest: u8| (0..width).map(|at| if at == 0 { first } else { rest }).collect();
    match random.within(0..8) {
        0 => vec![0; width],
        1 => vec![0xFF; width],
        2 => edge(0x80, 0),
        3 => edge(0x7F, 0xFF),
        4 if type_byte & 0xF == FLOAT => random.pick(&NANS).to_be_bytes().to_vec(),
        _ => random.bytes(width),
    }
}

/// Quiet and signalling ones, of both signs.
const NANS: [u32; 4] = [0x7FC0_0000, 0x7F80_0001, 0xFFC0_0001, 0xFFBF_FFFF];
