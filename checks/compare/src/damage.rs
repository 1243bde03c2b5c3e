//! Damaged copies: a byte changed, the end cut off.

use crate::random::Random;

/// A case that reads a slice, behind which bytes stand that no reader may see.
pub trait Slice: Clone {
    /// The slice, and what stands behind it.
    fn whole(&self) -> &[u8];
    fn length(&self) -> usize;
    /// Both, to be changed.
    fn parts(&mut self) -> (&mut [u8], &mut usize);
}

/// One byte in up to five ways.
pub fn changed_bytes<S: Slice>(case: &S, at: usize, random: &mut Random) -> Vec<S> {
    others(case.whole()[at], random).map(|other| changed_byte(case, at, other)).collect()
}

/// A byte at its edges, with its first and last bit turned, and as any.
fn others(byte: u8, random: &mut Random) -> impl Iterator<Item = u8> {
    let others = [0, 0xFF, byte ^ 1, byte ^ 0x80, random.number() as u8];
    others.into_iter().filter(move |&other| other != byte)
}

pub fn changed_byte<S: Slice>(case: &S, at: usize, byte: u8) -> S {
    let mut copy = case.clone();
    copy.parts().0[at] = byte;
    copy
}

/// The slice ends here; what was cut off still stands behind it, for whoever reads too far.
pub fn cut<S: Slice>(case: &S, length: usize) -> S {
    let mut copy = case.clone();
    *copy.parts().1 = length;
    copy
}
