//! One table to read: a slice, a place in it, and the names that are asked for.

use super::header;
use crate::damage::Slice;

/// Zero bytes after a slice: a text that is followed out of it ends there, and shows.
const AFTER: usize = 16;

#[derive(Clone)]
pub struct Case {
    /// The slice, and bytes after it that no reader may see.
    pub whole: Vec<u8>,
    pub length: usize,
    pub place: usize,
    pub names: Vec<Vec<u8>>,
}

impl Case {
    pub fn new(slice: &[u8], place: usize, names: Vec<Vec<u8>>) -> Case {
        let mut whole = slice.to_vec();
        whole.extend([0; AFTER]);
        Case { whole, length: slice.len(), place, names }
    }

    pub fn slice(&self) -> &[u8] {
        &self.whole[..self.length]
    }

    /// Whether a whole header stands at the place.
    pub fn has_header(&self) -> bool {
        self.place <= self.length && self.length - self.place >= header::LENGTH
    }

    /// The bytes from the place on.
    pub fn table_mut(&mut self) -> &mut [u8] {
        &mut self.whole[self.place..self.length]
    }

    pub fn table(&self) -> &[u8] {
        &self.whole[self.place..self.length]
    }
}

impl Slice for Case {
    fn whole(&self) -> &[u8] {
        &self.whole
    }

    fn length(&self) -> usize {
        self.length
    }

    fn parts(&mut self) -> (&mut [u8], &mut usize) {
        (&mut self.whole, &mut self.length)
    }
}
