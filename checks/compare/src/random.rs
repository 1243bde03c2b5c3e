//! Keys, bytes and choices, the same in every run.

use std::ops::Range;

/// SplitMix64: a generator whose whole state is one number.
pub struct Random(pub u64);

impl Random {
    pub fn number(&mut self) -> u64 {
        self.0 = self.0.wrapping_add(0x9E37_79B9_7F4A_7C15);
        let mut z = self.0;
        z = (z ^ (z >> 30)).wrapping_mul(0xBF58_476D_1CE4_E5B9);
        z = (z ^ (z >> 27)).wrapping_mul(0x94D0_49BB_1331_11EB);
        z ^ (z >> 31)
    }

    pub fn fill(&mut self, bytes: &mut [u8]) {
        for word in bytes.chunks_mut(8) {
            let number = self.number().to_le_bytes();
            word.copy_from_slice(&number[..word.len()]);
        }
    }

    pub fn bytes(&mut self, length: usize) -> Vec<u8> {
        let mut bytes = vec![0; length];
        self.fill(&mut bytes);
        bytes
    }

    /// A number in a range that is not empty.
    pub fn within(&mut self, range: Range<u64>) -> u64 {
        range.start + self.number() % (range.end - range.start)
    }

    pub fn one_in(&mut self, turns: u64) -> bool {
        self.within(0..turns) == 0
    }

    pub fn pick<T: Copy>(&mut self, from: &[T]) -> T {
        from[self.within(0..from.len() as u64) as usize]
    }
}

/// Key 0, all ones, each single bit, then `others` random ones.
pub fn keys(others: usize, random: &mut Random) -> Vec<u64> {
    let mut keys = vec![0, u64::MAX];
    keys.extend((0..64).map(|bit| 1 << bit));
    keys.extend((0..others).map(|_| random.number()));
    keys
}
