//! The crate's module `cridecoder` beside the original, on the comparison's films and on damaged ones: the same answer
//! inside the domain, outside it the one that docs/DIFFERENCES.md promises. No panic, and no memory asked for beyond a
//! film's own length.

// Of the comparison's files not everything is used here.
#![allow(dead_code)]

mod asked;
mod call;
mod compare;
mod containers;
mod tables;

#[path = "../comparison/damage.rs"]
mod damage;
#[path = "../comparison/panics.rs"]
mod panics;
#[path = "../comparison/random.rs"]
mod random;

use std::process::ExitCode;

use call::Call;
use compare::{Tally, compare};
use containers::case::Case;
use containers::{damage as damaged, generate, hostile, samples};
use random::Random;

/// Of the damaged copies every so many-th is read.
const EVERY: usize = 5;
/// Of longer containers made by hand no damaged copies are read.
const MOST_DAMAGED: usize = 4096;
const RANDOM: usize = 60_000;

fn main() -> ExitCode {
    panics::silence();
    let mut tally = Tally::default();
    for case in cases() {
        if let Err(what) = compare(&case, &mut tally) {
            println!("DISAGREEMENT: {what}");
            return ExitCode::FAILURE;
        }
    }
    println!("{tally}");
    if tally.is_lacking() {
        println!("some rule was never met");
        return ExitCode::FAILURE;
    }
    ExitCode::SUCCESS
}

fn cases() -> impl Iterator<Item = Case> {
    let mut random = Random(20);
    let every = |film: &Vec<u8>| Case::new(film, Call::every());
    let by_hand: Vec<Case> = samples::all().iter().map(every).collect();
    let small: Vec<Case> = by_hand.iter().filter(|case| case.length <= MOST_DAMAGED).cloned().collect();
    let copies = small.into_iter().flat_map(move |case| damaged::copies(&case, &mut random)).step_by(EVERY);
    let mut random = Random(21);
    let any = (0..RANDOM).map(move |_| generate::any(&mut random));
    let hostile = [hostile::costly(), hostile::far_blocks(), hostile::longest()].into_iter().flatten();
    by_hand.into_iter().chain(copies).chain(any).chain(hostile)
}
