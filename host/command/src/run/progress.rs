//! How far a run is: on a terminal, from one second on.

use std::cell::Cell;
use std::io::{IsTerminal, stderr};
use std::sync::mpsc::{RecvTimeoutError, Sender, channel};
use std::thread::{self, JoinHandle};
use std::time::Duration;

use indicatif::{ProgressBar, ProgressDrawTarget, ProgressStyle};
use rustix::termios::tcgetwinsize;

use crate::output::error::Status;
use crate::output::report;

const BEFORE_IT_SHOWS: Duration = Duration::from_secs(1);
const WITH_TOTAL: &str = "{wide_bar} {bytes} of {total_bytes}, {bytes_per_sec}, {eta} left";
const WITHOUT_TOTAL: &str = "{spinner} {bytes}, {bytes_per_sec}, {elapsed}";
/// On a terminal that is narrower the bar would go over several lines, so that only this is shown.
const NARROW: u16 = 64;
const NARROW_WITH_TOTAL: &str = "{bytes} of {total_bytes}, {eta} left";
const NARROW_WITHOUT_TOTAL: &str = "{bytes}, {elapsed}";
/// Bytes between two looks at the bar.
const SHOWN: u64 = 1 << 20;
const BETWEEN_DRAWS: Duration = Duration::from_millis(200);

/// The progress of a run, in bytes of films.
pub struct Progress {
    bar: ProgressBar,
    shows: Option<(Sender<()>, JoinHandle<()>)>,
}

impl Progress {
    /// Of so many bytes, where that is known.
    pub fn new(total: Option<u64>) -> Progress {
        let bar = ProgressBar::with_draw_target(total, ProgressDrawTarget::hidden());
        let template = match (total.is_some(), is_narrow()) {
            (true, false) => WITH_TOTAL,
            (false, false) => WITHOUT_TOTAL,
            (true, true) => NARROW_WITH_TOTAL,
            (false, true) => NARROW_WITHOUT_TOTAL,
        };
        bar.set_style(ProgressStyle::with_template(template).unwrap_or_else(|_| ProgressStyle::default_bar()));
        let shows = if stderr().is_terminal() { show_later(bar.clone()) } else { None };
        Progress { bar, shows }
    }

    /// Prints a message on standard error, above the bar where it shows.
    pub fn report(&self, what: &str) {
        self.bar.suspend(|| report(Status::Success, what));
    }

    /// The bar itself, for what writes beside it.
    pub fn bar(&self) -> ProgressBar {
        self.bar.clone()
    }

    /// Takes the bar away.
    pub fn end(self) {
        if let Some((ended, thread)) = self.shows {
            drop(ended);
            thread.join().ok();
        }
        self.bar.finish_and_clear();
    }
}

fn is_narrow() -> bool {
    tcgetwinsize(stderr()).is_ok_and(|size| size.ws_col > 0 && size.ws_col < NARROW)
}

/// Shows the bar after a second, if the run has not ended by then.
fn show_later(bar: ProgressBar) -> Option<(Sender<()>, JoinHandle<()>)> {
    let (ended, end) = channel();
    let show = move || {
        if end.recv_timeout(BEFORE_IT_SHOWS) == Err(RecvTimeoutError::Timeout) {
            bar.set_draw_target(ProgressDrawTarget::stderr());
            bar.enable_steady_tick(BETWEEN_DRAWS);
        }
    };
    let thread = thread::Builder::new().spawn(show).ok()?;
    Some((ended, thread))
}

/// The progress of one film: its bytes are done when all its steps have gone through them.
pub struct Meter<'a> {
    progress: &'a Progress,
    steps: u64,
    length: u64,
    done: Cell<u64>,
}

impl<'a> Meter<'a> {
    pub fn new(progress: &'a Progress, steps: u64, length: u64) -> Meter<'a> {
        Meter { progress, steps, length, done: Cell::new(0) }
    }

    /// All steps together have come to a place of the film. Small moves are not shown.
    pub fn reach(&self, place: usize) {
        let moved = (place as u64).saturating_sub(self.done.get());
        if moved >= SHOWN {
            self.done.set(place as u64);
            self.progress.bar.inc(moved);
        }
    }

    /// A step has gone through so many more bytes.
    pub fn advance(&self, bytes: u64) {
        let bytes = bytes / self.steps;
        self.done.set(self.done.get() + bytes);
        self.progress.bar.inc(bytes);
    }
}

/// A film that is through counts whole.
impl Drop for Meter<'_> {
    fn drop(&mut self) {
        self.progress.bar.inc(self.length.saturating_sub(self.done.get()));
    }
}

#[cfg(test)]
mod tests {
    use super::{NARROW_WITH_TOTAL, NARROW_WITHOUT_TOTAL, ProgressStyle, WITH_TOTAL, WITHOUT_TOTAL};

    #[test]
    fn the_bars_are_well_formed() {
        for template in [WITH_TOTAL, WITHOUT_TOTAL, NARROW_WITH_TOTAL, NARROW_WITHOUT_TOTAL] {
            assert!(ProgressStyle::with_template(template).is_ok(), "{template}");
        }
    }
}
