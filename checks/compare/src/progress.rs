//! What is being done, and how far it is: on standard error, for all parts.

use std::time::{Duration, Instant};

/// How far a check is, is said no more than once in so long.
const APART: Duration = Duration::from_secs(5);

pub fn say(what: &str) {
    eprintln!("compare: {what}");
}

/// A check that goes on.
pub struct Progress {
    what: &'static str,
    said: Instant,
}

impl Progress {
    pub fn of(what: &'static str) -> Progress {
        Progress { what, said: Instant::now() }
    }

    /// So many have agreed by now.
    pub fn at(&mut self, agreed: u64) {
        if self.said.elapsed() >= APART {
            say(&format!("{agreed} {} agreed so far", self.what));
            self.said = Instant::now();
        }
    }
}
