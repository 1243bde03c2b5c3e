//! A place for payloads: at a chosen distance from an aligned address, with guard bytes on both sides.

use crate::random::Random;

const ALIGNMENT: usize = 64;
const GUARD: usize = 64;
pub const OFFSETS: usize = 32;

pub struct Arena {
    bytes: Vec<u8>,
    aligned: usize,
    guard: Vec<u8>,
}

impl Arena {
    /// Room for payloads of up to `longest` bytes at every offset below `OFFSETS`.
    pub fn new(longest: usize) -> Arena {
        let bytes = vec![0; ALIGNMENT + GUARD + OFFSETS + longest + GUARD];
        let aligned = GUARD + bytes[GUARD..].as_ptr().align_offset(ALIGNMENT);
        Arena { bytes, aligned, guard: Random(1).bytes(GUARD) }
    }

    /// A copy of `payload` at this offset, between fresh guards.
    pub fn place(&mut self, offset: usize, payload: &[u8]) -> &mut [u8] {
        let start = self.aligned + offset;
        let end = start + payload.len();
        self.bytes[start - GUARD..start].copy_from_slice(&self.guard);
        self.bytes[start..end].copy_from_slice(payload);
        self.bytes[end..end + GUARD].copy_from_slice(&self.guard);
        &mut self.bytes[start..end]
    }

    /// The payload placed last.
    pub fn payload(&self, offset: usize, length: usize) -> &[u8] {
        let start = self.aligned + offset;
        &self.bytes[start..start + length]
    }

    /// The first guard byte that changed, as its distance from the payload's start.
    pub fn changed_guard(&self, offset: usize, length: usize) -> Option<isize> {
        let start = self.aligned + offset;
        let end = start + length;
        let before = first_difference(&self.bytes[start - GUARD..start], &self.guard);
        let after = first_difference(&self.bytes[end..end + GUARD], &self.guard);
        let before = before.map(|i| i as isize - GUARD as isize);
        before.or(after.map(|i| (length + i) as isize))
    }
}

/// The first place where two slices of one length differ.
pub fn first_difference(left: &[u8], right: &[u8]) -> Option<usize> {
    if left == right {
        return None;
    }
    left.iter().zip(right).position(|(l, r)| l != r)
}
