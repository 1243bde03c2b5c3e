//! Outputs and lists lent to a call, between guards. What may not change is held against what stood there.

use super::exports::Record;

const GUARD: usize = 32;

/// An output of so many bytes.
pub struct Output {
    area: Vec<u8>,
}

impl Output {
    pub fn new(room: usize) -> Output {
        Output { area: (0..GUARD + room + GUARD).map(mark).collect() }
    }

    pub fn lent(&mut self) -> &mut [u8] {
        let end = self.area.len() - GUARD;
        &mut self.area[GUARD..end]
    }

    /// The output begins with a stream, and nothing else has changed.
    pub fn holds(&self, stream: &[u8]) -> Result<(), String> {
        let end = GUARD + stream.len();
        let expected = |at: usize| if (GUARD..end).contains(&at) { stream[at - GUARD] } else { mark(at) };
        match (0..self.area.len()).find(|&at| self.area[at] != expected(at)) {
            None => Ok(()),
            Some(at) => {
                let (place, found, expected) = (at as isize - GUARD as isize, self.area[at], expected(at));
                let room = self.area.len() - 2 * GUARD;
                Err(format!("byte {place} of {room} is {found:02X}, and {expected:02X} is expected"))
            }
        }
    }
}

/// What stands in an area before a call.
fn mark(at: usize) -> u8 {
    (at as u8).wrapping_mul(37) ^ 0x5C
}

/// A list of so many records.
pub struct List {
    area: Vec<Record>,
}

const GUARD_RECORDS: usize = 2;

impl List {
    pub fn new(room: usize) -> List {
        List { area: (0..GUARD_RECORDS + room + GUARD_RECORDS).map(blank).collect() }
    }

    pub fn lent(&mut self) -> &mut [Record] {
        let end = self.area.len() - GUARD_RECORDS;
        &mut self.area[GUARD_RECORDS..end]
    }

    /// The list begins with these records, and nothing else has changed.
    pub fn holds(&self, records: &[Record]) -> Result<(), String> {
        let end = GUARD_RECORDS + records.len();
        for (at, found) in self.area.iter().enumerate() {
            let written = (GUARD_RECORDS..end).contains(&at);
            let expected = if written { records[at - GUARD_RECORDS] } else { blank(at) };
            let same = *found == Record { padding: if written { found.padding } else { expected.padding }, ..expected };
            if !same {
                let (index, room) = (at as isize - GUARD_RECORDS as isize, self.area.len() - 2 * GUARD_RECORDS);
                return Err(format!("record {index} of {room} is {}, and {} is expected", words(found), words(&expected)));
            }
        }
        Ok(())
    }
}

fn words(record: &Record) -> String {
    let Record { start, kind, data_type, channel, offset, length, .. } = record;
    format!("{start} {kind} {data_type} {length}, channel {channel}, from {offset} on")
}

/// What stands in a list before a call.
fn blank(at: usize) -> Record {
    Record {
        start: !(at as u64),
        kind: 0xA5,
        data_type: 0x5A,
        channel: 0xC3,
        padding: 0x3C,
        offset: !(at as u32),
        length: !(at as u64) << 8,
    }
}
