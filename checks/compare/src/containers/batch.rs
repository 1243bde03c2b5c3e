//! Containers that one thread compares in a row.

use super::call::Call;
use super::case::Case;
use super::{damage, generate, hostile, samples};
use crate::random::Random;

const RANDOM_IN_BATCH: u64 = 1000;
/// Of longer containers made by hand no damaged copies are read.
const MOST_DAMAGED: usize = 4096;

#[derive(Clone)]
pub enum Batch {
    Costly,
    Longest,
    FarBlocks,
    /// A container made by hand, or F followed by zeros, in every call.
    Sound(Vec<u8>),
    /// F with the byte at this place at every other value.
    EveryValue(usize),
    /// Every damaged copy of a container made by hand.
    Damaged(Vec<u8>),
    /// Random ones from this seed.
    Random(u64),
    /// Random ones of a few payloads that show more or less of a key, from this seed.
    Clips(u64),
    /// Every damaged copy of a random one from this seed.
    DamagedRandom(u64),
}

impl Batch {
    pub fn cases(&self) -> Box<dyn Iterator<Item = Case>> {
        match self {
            Batch::Costly => Box::new(hostile::costly().into_iter()),
            Batch::Longest => Box::new(hostile::longest().into_iter()),
            Batch::FarBlocks => Box::new(hostile::far_blocks().into_iter()),
            Batch::Sound(film) => Box::new([Case::new(film, Call::every())].into_iter()),
            Batch::EveryValue(at) => {
                let f = Case::new(&samples::f(), Vec::new());
                Box::new(damage::every_value(&f, *at, &mut Random(*at as u64)).into_iter())
            }
            Batch::Damaged(film) => {
                Box::new(damage::copies(&Case::new(film, Vec::new()), &mut Random(film.len() as u64)).into_iter())
            }
            Batch::Random(seed) => {
                let mut random = Random(*seed);
                Box::new((0..RANDOM_IN_BATCH).map(move |_| generate::any(&mut random)))
            }
            Batch::Clips(seed) => {
                let mut random = Random(*seed);
                Box::new((0..RANDOM_IN_BATCH).map(move |_| generate::clips(&mut random)))
            }
            Batch::DamagedRandom(seed) => {
                let mut random = Random(*seed);
                Box::new(damage::copies(&generate::small(&mut random), &mut random).into_iter())
            }
        }
    }
}

/// The containers made by hand, and F followed by up to 100 zeros.
pub fn sound() -> impl Iterator<Item = Batch> {
    let padded = (1..=100).map(|zeros| [samples::f(), vec![0; zeros]].concat());
    samples::all().into_iter().chain(padded).map(Batch::Sound)
}

/// F with each byte at every other value.
pub fn every_value() -> impl Iterator<Item = Batch> {
    (0..samples::f().len()).map(Batch::EveryValue)
}

/// Every damaged copy of the containers made by hand.
pub fn damaged() -> impl Iterator<Item = Batch> {
    samples::all().into_iter().filter(|film| film.len() <= MOST_DAMAGED).map(Batch::Damaged)
}
