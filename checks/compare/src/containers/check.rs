//! The check of containers: hand-made ones, damaged copies, hostile ones, random ones.

use super::batch::{self, Batch};
use super::compare::compare;
use super::exports::both_with_null;
use super::tally::Tally;
use super::work::{Disagreement, compare_all};
use crate::panics;

const RANDOM_BATCHES: u64 = 300;
const DAMAGED_RANDOM: u64 = 12;

/// All batches. Those that take longest come first.
fn batches() -> Vec<Batch> {
    let mut batches = vec![Batch::Costly, Batch::Longest, Batch::FarBlocks];
    batches.extend(batch::sound());
    batches.extend(batch::every_value());
    batches.extend(batch::damaged());
    batches.extend((0..RANDOM_BATCHES).map(|seed| Batch::Random(1000 + seed)));
    batches.extend((0..DAMAGED_RANDOM).map(|seed| Batch::DamagedRandom(2000 + seed)));
    batches
}

/// Every comparison; gives the counts, or the first that differs.
pub fn run() -> Result<Tally, Disagreement> {
    panics::silence();
    null_is_allowed()?;
    compare_all("containers", &batches(), compare)
}

/// NULL with length 0 is a slice like any other, and is refused with 1.
fn null_is_allowed() -> Result<(), Disagreement> {
    match both_with_null() {
        [1, 1] => Ok(()),
        numbers => Err(Disagreement { what: format!("at NULL the numbers are {numbers:?}"), smallest: None }),
    }
}
