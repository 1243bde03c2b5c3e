//! The check of pieces: containers of the containers' generators, read piece by piece.

use super::compare::compare;
use super::tally::Tally;
use crate::containers::batch::{self, Batch};
use crate::containers::work::{Disagreement, compare_all};
use crate::panics;

const RANDOM_BATCHES: u64 = 60;
const CLIPS: u64 = 20;
const DAMAGED_RANDOM: u64 = 6;
/// Of the containers made by hand one in so many is damaged.
const APART: usize = 4;

fn batches() -> Vec<Batch> {
    let mut batches = vec![Batch::FarBlocks];
    batches.extend(batch::damaged().step_by(APART));
    batches.extend((0..CLIPS).map(|seed| Batch::Clips(5000 + seed)));
    batches.extend((0..RANDOM_BATCHES).map(|seed| Batch::Random(3000 + seed)));
    batches.extend((0..DAMAGED_RANDOM).map(|seed| Batch::DamagedRandom(4000 + seed)));
    batches
}

/// Every comparison; gives the counts, or the first that differs.
pub fn run() -> Result<Tally, Disagreement> {
    panics::silence();
    compare_all("containers, piece by piece,", &batches(), compare)
}
