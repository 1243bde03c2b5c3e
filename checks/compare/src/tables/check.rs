//! The check of tables: hand-made ones, every type with every storage, random ones, damaged copies.

use std::fmt;

use super::case::Case;
use super::compare::compare;
use super::exports::all_with_null;
use super::shrink::shrink;
use super::tally::Tally;
use super::{damage, generate, samples, zero_columns};
use crate::hex::input;
use crate::panics;
use crate::progress::Progress;
use crate::random::Random;

const RANDOM_TABLES: u64 = 200_000;
const DAMAGED_TABLES: u64 = 200;

/// The first table that differs, made small.
pub struct Disagreement {
    what: String,
    smallest: Option<Case>,
}

impl fmt::Display for Disagreement {
    fn fmt(&self, f: &mut fmt::Formatter) -> fmt::Result {
        write!(f, "{}", self.what)?;
        match &self.smallest {
            Some(case) => write!(f, "\nplace {}, {}", case.place, input(case.slice())),
            None => Ok(()),
        }
    }
}

/// Every comparison; gives the counts, or the first that differs.
pub fn run() -> Result<Tally, Disagreement> {
    panics::silence();
    let mut done = Done { tally: Tally::default(), progress: Progress::of("tables") };
    let mut random = Random(5);
    for sample in samples::all() {
        done.agree(&sample)?;
        done.agree_damaged(&sample, &mut random)?;
    }
    for type_byte in 0..=u8::MAX {
        for rows in [0, 1, 3] {
            done.agree(&generate::with_column(type_byte, rows, &mut random))?;
        }
    }
    for _ in 0..RANDOM_TABLES {
        done.agree(&generate::any(&mut random))?;
    }
    for _ in 0..DAMAGED_TABLES {
        done.agree_damaged(&generate::small(&mut random), &mut random)?;
    }
    null_is_allowed()?;
    done.tally.zero_columns = zero_columns::run().map_err(|what| Disagreement { what, smallest: None })?;
    Ok(done.tally)
}

/// NULL with length 0 is a slice like any other, and is refused with 1.
fn null_is_allowed() -> Result<(), Disagreement> {
    match all_with_null(0) {
        [1, 1, 1, 1] => Ok(()),
        numbers => Err(Disagreement { what: format!("at NULL the numbers are {numbers:?}"), smallest: None }),
    }
}

/// What has agreed so far.
struct Done {
    tally: Tally,
    progress: Progress,
}

impl Done {
    fn agree_damaged(&mut self, case: &Case, random: &mut Random) -> Result<(), Disagreement> {
        damage::copies(case, random).iter().try_for_each(|copy| self.agree(copy))
    }

    fn agree(&mut self, case: &Case) -> Result<(), Disagreement> {
        self.tally.add(compare(case).map_err(|_| disagreement(case))?);
        self.progress.at(self.tally.tables());
        Ok(())
    }
}

fn disagreement(case: &Case) -> Disagreement {
    let smallest = shrink(case, |case| compare(case).is_err());
    let what = compare(&smallest).err().unwrap_or_default();
    Disagreement { what, smallest: Some(smallest) }
}
