//! The check of containers on all cores: the counts, or the first that differs, made small.

use std::fmt;
use std::sync::Mutex;
use std::sync::atomic::{AtomicBool, AtomicUsize, Ordering::Relaxed};
use std::thread;

use super::batch::Batch;
use super::case::Case;
use super::compare::Difference;
use super::shrink::shrink;
use crate::hex::input;
use crate::progress::Progress;

/// What a check counts.
pub trait Counts: Default + Send {
    /// What it has seen of one container.
    type Seen;

    fn add(&mut self, seen: &Self::Seen);

    /// Adds what another thread has seen.
    fn join(&mut self, other: &Self);

    fn containers(&self) -> u64;
}

/// How one container is compared.
pub type Compare<T> = fn(&Case) -> Result<<T as Counts>::Seen, Difference>;

/// The first container that differs, made small.
pub struct Disagreement {
    pub what: String,
    pub smallest: Option<Case>,
}

impl fmt::Display for Disagreement {
    fn fmt(&self, f: &mut fmt::Formatter) -> fmt::Result {
        write!(f, "{}", self.what)?;
        let Some(case) = &self.smallest else { return Ok(()) };
        for call in &case.calls {
            write!(f, "\ncall: {call}")?;
        }
        write!(f, "\n{}", input(case.container()))
    }
}

/// Compares all batches; gives the counts, or the first container that differs.
pub fn compare_all<T: Counts>(what: &'static str, batches: &[Batch], compare: Compare<T>) -> Result<T, Disagreement> {
    let work = Work {
        batches,
        compare,
        next: AtomicUsize::new(0),
        stop: AtomicBool::new(false),
        done: Mutex::new(Done { tally: T::default(), progress: Progress::of(what), failed: None }),
    };
    let threads = thread::available_parallelism().map_or(1, |threads| threads.get());
    thread::scope(|scope| {
        for _ in 0..threads {
            scope.spawn(|| work.run());
        }
    });
    let done = work.done.into_inner().expect("no thread has panicked");
    match done.failed {
        Some(case) => Err(disagreement::<T>(&case, compare)),
        None => Ok(done.tally),
    }
}

/// What the threads share.
struct Work<'a, T: Counts> {
    batches: &'a [Batch],
    compare: Compare<T>,
    next: AtomicUsize,
    /// Set when a case has failed.
    stop: AtomicBool,
    done: Mutex<Done<T>>,
}

struct Done<T> {
    tally: T,
    progress: Progress,
    /// The first case that differs.
    failed: Option<Case>,
}

impl<T: Counts> Work<'_, T> {
    /// Takes batches until there is none left, or a case has failed.
    fn run(&self) {
        while let Some(batch) = self.batches.get(self.next.fetch_add(1, Relaxed)) {
            let mut tally = T::default();
            let failed = self.first_failure(batch, &mut tally);
            if self.finish(&tally, failed) {
                return;
            }
        }
    }

    /// The first case of a batch that differs, if no other thread has found one before.
    fn first_failure(&self, batch: &Batch, tally: &mut T) -> Option<Case> {
        for case in batch.cases() {
            if self.stop.load(Relaxed) {
                return None;
            }
            match (self.compare)(&case) {
                Ok(seen) => tally.add(&seen),
                Err(_) => return Some(case),
            }
        }
        None
    }

    /// Adds a batch to what is done, and says whether to stop.
    fn finish(&self, tally: &T, failed: Option<Case>) -> bool {
        let mut done = self.done.lock().expect("no thread has panicked");
        done.tally.join(tally);
        let agreed = done.tally.containers();
        done.progress.at(agreed);
        if done.failed.is_none() {
            done.failed = failed;
        }
        self.stop.store(done.failed.is_some(), Relaxed);
        done.failed.is_some()
    }
}

/// The smallest case found that differs on the same side.
fn disagreement<T: Counts>(case: &Case, compare: Compare<T>) -> Disagreement {
    let is_ours = |case: &Case| is_ours::<T>(case, compare);
    let ours = is_ours(case);
    let smallest = shrink(case, |case| is_ours(case) == ours);
    let what = compare(&smallest).err().map_or_else(String::new, |difference| difference.to_string());
    Disagreement { what, smallest: Some(smallest) }
}

/// Whether the difference is one of our calls, where there is a difference.
fn is_ours<T: Counts>(case: &Case, compare: Compare<T>) -> Option<bool> {
    compare(case).err().map(|difference| matches!(difference, Difference::Ours(_)))
}
