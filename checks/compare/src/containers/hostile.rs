//! Containers whose sizes lead far away: past 2^32, past the limit of a container, or over what was read before.

use super::call::Call;
use super::case::Case;
use super::damage::{SIZE, with_field};
use super::film::{Chunk, Film, Tables};
use super::rules::{self, LONGEST, SFA, SFV};
use super::samples::{self, codec};
use crate::tables::columns::STORED;

/// Sizes of a block around which a sum or a difference could wrap.
const SIZES: [u32; 12] = [
    0xFFFFFFFF, 0xFFFFFFFE, 0xFFFFFFF8, 0xFFFFFFF7, 0xFFFFFFE0, 0xFFFFFEC0, 0xFFFF0000, 0x80000018, 0x80000000,
    0x7FFFFFFF, 0x40000000, 0x10000000,
];

/// Payloads that claim gigabytes: the original is asked in a child process.
pub fn costly() -> Vec<Case> {
    SIZES.iter().flat_map(|&size| [SFV, SFA].map(|letters| claiming(letters, size))).collect()
}

/// A film whose last chunk claims a size, read with audio.
fn claiming(letters: &[u8; 4], block_size: u32) -> Case {
    let last = Chunk { block_size, ..Chunk::new(letters, &[5; 32]) };
    let tables = Tables { audio: Some(codec(STORED, 2)), ..Tables::empty() };
    let film = Film::with_chunks(&tables, &[Chunk::new(SFV, &[1; 32]), last]);
    Case { in_child: true, ..Case::new(&film.bytes, vec![Call::plain(1)]) }
}

/// Every block of three films with each of these sizes, so that the next is looked for far away.
pub fn far_blocks() -> Vec<Case> {
    let mut cases = Vec::new();
    for film in [samples::f(), samples::with_audio(), samples::with_audio_metadata()] {
        let case = Case::new(&film, vec![Call::plain(1), Call::plain(0)]);
        for start in rules::read(&film, true).starts {
            cases.extend(SIZES.map(|size| with_field(&case, start as usize, SIZE, size)));
        }
    }
    cases
}

/// Zeros of the greatest length and of one byte more, and F before so many zeros. Nothing of a container that is
/// too long is read.
pub fn longest() -> Vec<Case> {
    let zeros = |length| Case { whole: vec![0; length], length, calls: vec![Call::plain(1)], in_child: false };
    let mut film = zeros(LONGEST + 1);
    let f = samples::f();
    film.whole[..f.len()].copy_from_slice(&f);
    vec![zeros(LONGEST), zeros(LONGEST + 1), film]
}
