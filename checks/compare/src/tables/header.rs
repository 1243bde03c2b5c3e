//! The header of a table: 32 bytes, `@UTF` and nine numbers, big-endian.

pub const SIGNATURE: &[u8; 4] = b"@UTF";
pub const LENGTH: usize = 32;

/// The first place of the body, as the header's offsets count: size, rows, texts and data are counted from there.
pub const BODY: u64 = 24;

/// A number of the header: where it stands, and in how many bytes.
#[derive(Clone, Copy)]
pub struct Field {
    pub at: usize,
    pub width: usize,
}

pub const SIZE: Field = Field { at: 4, width: 4 };
pub const VERSION: Field = Field { at: 8, width: 2 };
pub const ROW_OFFSET: Field = Field { at: 10, width: 2 };
pub const STRING_OFFSET: Field = Field { at: 12, width: 4 };
pub const DATA_OFFSET: Field = Field { at: 16, width: 4 };
pub const TABLE_NAME: Field = Field { at: 20, width: 4 };
pub const COLUMNS: Field = Field { at: 24, width: 2 };
pub const ROW_SIZE: Field = Field { at: 26, width: 2 };
pub const ROWS: Field = Field { at: 28, width: 4 };

pub const FIELDS: [Field; 9] =
    [SIZE, VERSION, ROW_OFFSET, STRING_OFFSET, DATA_OFFSET, TABLE_NAME, COLUMNS, ROW_SIZE, ROWS];

impl Field {
    /// The number in a table that begins at byte 0 of a slice and has a whole header.
    pub fn get(self, table: &[u8]) -> u32 {
        table[self.at..self.at + self.width].iter().fold(0, |number, &byte| number << 8 | u32::from(byte))
    }

    /// Puts the low bytes of a number there.
    pub fn set(self, table: &mut [u8], number: u32) {
        let bytes = number.to_be_bytes();
        table[self.at..self.at + self.width].copy_from_slice(&bytes[4 - self.width..]);
    }

    /// The largest number that fits.
    pub fn max(self) -> u32 {
        u32::MAX >> (32 - 8 * self.width)
    }
}

/// A header with a signature and zeros.
pub fn blank() -> Vec<u8> {
    let mut header = vec![0; LENGTH];
    header[..4].copy_from_slice(SIGNATURE);
    header
}
