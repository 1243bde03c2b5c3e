//! Makes a case that fails smaller, as long as it still fails.

use std::iter::successors;
use std::time::{Duration, Instant};

use crate::damage::{Slice, changed_byte, cut};

/// No step is tried after that time.
const PATIENCE: Duration = Duration::from_secs(20);

/// Cases that are a step smaller than one.
pub type Steps<'a, C> = Box<dyn Iterator<Item = C> + 'a>;

/// Steps to smaller cases, until none of them fails any more.
pub fn smallest<C: Clone>(case: &C, smaller: fn(&C) -> Steps<'_, C>, fails: impl Fn(&C) -> bool) -> C {
    let start = Instant::now();
    let step = |case: &C| smaller(case).take_while(|_| start.elapsed() < PATIENCE).find(|case| fails(case));
    let mut smallest = case.clone();
    while let Some(next) = step(&smallest) {
        smallest = next;
    }
    smallest
}

pub fn shorter<S: Slice>(case: &S) -> impl Iterator<Item = S> {
    halves(case.length()).map(|less| cut(case, case.length() - less))
}

/// Half a number, half of that, and so on down to 1.
pub fn halves(number: usize) -> impl Iterator<Item = usize> {
    successors(Some(number / 2), |half| Some(half / 2)).take_while(|&half| half > 0)
}

pub fn with_a_zero<S: Slice>(case: &S) -> impl Iterator<Item = S> {
    (0..case.length()).filter(|&at| case.whole()[at] != 0).map(|at| changed_byte(case, at, 0))
}
