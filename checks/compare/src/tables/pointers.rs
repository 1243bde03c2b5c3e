//! Where the strings and data of a generated table point: inside the body, at its edges, outside.
//! Places count as the header's offsets do: the body's first byte is place 24.

use std::ops::Range;

use super::{columns, header};
use crate::random::Random;

pub struct Pointers {
    /// Where each text begins.
    pub texts: Vec<u64>,
    pub data: Range<u64>,
    /// The place after the body.
    pub end: u64,
    /// What the header says, to which each pointer is added.
    pub string_offset: u64,
    pub data_offset: u64,
    /// Whether some pointers lead out of the body.
    pub strays: bool,
}

impl Pointers {
    /// The value of a column: a number, a string's pointer or a data part's.
    pub fn value(&self, type_byte: u8, random: &mut Random) -> Vec<u8> {
        match type_byte & 0xF {
            columns::STRING => self.string(random).to_vec(),
            columns::DATA => self.data(random),
            _ => columns::number(type_byte, random),
        }
    }

    /// A pointer to a text, a part of one, or astray.
    pub fn string(&self, random: &mut Random) -> [u8; 4] {
        let place = match random.within(0..12) {
            0 if self.strays => self.edge(random),
            1 => random.pick(&self.texts) + random.within(0..3),
            _ => random.pick(&self.texts),
        };
        pointer(place, self.string_offset)
    }

    /// A pointer to data and a size.
    fn data(&self, random: &mut Random) -> Vec<u8> {
        let (place, size) = match random.within(0..12) {
            0 if self.strays => self.stray_data(random),
            1 | 2 => (self.edge(random), 0),
            3 => (header::BODY, self.end - header::BODY),
            4 => (self.end - 1, 1),
            _ => {
                let start = random.within(self.data.start..self.data.end + 1);
                (start, random.within(0..self.data.end - start + 1))
            }
        };
        [pointer(place, self.data_offset), pointer(size, 0)].concat()
    }

    /// Data that is not empty and lies, all or in part, outside the body.
    fn stray_data(&self, random: &mut Random) -> (u64, u64) {
        let largest = u64::from(u32::MAX);
        let choices = [
            (header::BODY - 1, 1),
            (header::BODY - 1, 2),
            (self.end, 1),
            (self.end - 1, 2),
            (header::BODY, self.end - header::BODY + 1),
            (self.data.start, largest),
            ((1 << 32) + self.data.start, 1),
            (self.edge(random), 1),
        ];
        random.pick(&choices)
    }

    /// A place at an edge: of the body, of zero, or of 2^32, where a sum of 32 bits would wrap into the body.
    fn edge(&self, random: &mut Random) -> u64 {
        let wrap = 1 << 32;
        let choices = [
            0,
            1,
            header::BODY - 1,
            header::BODY,
            header::BODY + 1,
            self.end - 1,
            self.end,
            self.end + 1,
            wrap - 1,
            wrap + header::BODY,
            wrap + self.texts[0],
            2 * wrap - 2,
        ];
        random.pick(&choices)
    }
}

/// The four bytes that lead to a place from an offset, or as near as four bytes lead.
fn pointer(place: u64, offset: u64) -> [u8; 4] {
    let distance = place.saturating_sub(offset).min(u32::MAX.into());
    (distance as u32).to_be_bytes()
}
