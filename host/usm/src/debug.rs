//! Bytes in the output of `Debug`. A film may have a GiB of them, and a log should not.

use std::fmt;

/// So many bytes are printed; of more, the first ones and how many there are.
const MOST: usize = 32;

pub(crate) struct Bytes<'a>(pub &'a [u8]);

impl fmt::Debug for Bytes<'_> {
    fn fmt(&self, f: &mut fmt::Formatter) -> fmt::Result {
        match self.0.split_at_checked(MOST) {
            Some((first, [_, ..])) => write!(f, "b\"{}\".. ({} bytes)", first.escape_ascii(), self.0.len()),
            _ => write!(f, "b\"{}\"", self.0.escape_ascii()),
        }
    }
}
