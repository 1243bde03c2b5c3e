//! The sixteen digits of a key.

/// The digits of a key.
pub const PLACES: usize = 16;

/// The bits of a key that change its tables. The others count for no film.
pub fn bits_that_count() -> u64 {
    (0..64).map(|bit| 1 << bit).filter(|&key| usm::key_table(key) != usm::key_table(0)).sum()
}

/// The digit at a place from the left.
pub fn digit(key: u64, place: usize) -> u64 {
    key >> (4 * (PLACES - 1 - place)) & 0xF
}

/// Whether the digit at a place from the left has a bit of these.
pub fn has(bits: u64, place: usize) -> bool {
    digit(bits, place) != 0
}

/// The places of digits that have a bit of these, from the left, from 0.
pub fn places(bits: u64) -> Vec<usize> {
    (0..PLACES).filter(|&place| has(bits, place)).collect()
}

/// Sixteen marks, one for each digit.
pub fn marks(mark: impl Fn(usize) -> char) -> String {
    (0..PLACES).map(mark).collect()
}

#[cfg(test)]
mod tests {
    use super::{bits_that_count, digit, has, marks};

    #[test]
    fn digits() {
        assert_eq!(bits_that_count(), 0x00FF_FF0F_FFFF_FFFF);
        assert_eq!(marks(|place| if has(bits_that_count(), place) { '+' } else { '-' }), "--++++-+++++++++");
        assert!((0..16).all(|place| digit(0x0123_4567_89AB_CDEF, place) == place as u64));
    }
}
