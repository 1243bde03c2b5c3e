//! What became of the films of a run: a summary, a list of those that failed, and what to do about them.

use std::io::{IsTerminal, stderr};
use std::path::{Path, PathBuf};

use usm::Reason;

use crate::files::identity::FileId;
use crate::output::{Error, Status, report};
use crate::run::lists;
use crate::run::sources::{RunOptions, Source};

/// The films that were not done.
#[derive(Default)]
pub struct Outcomes {
    refused: usize,
    failed: usize,
    /// Refused because bytes run out, and because there is no table where the first should be.
    cut: usize,
    without_table: usize,
    labels: Vec<PathBuf>,
}

impl Outcomes {
    pub fn add(&mut self, label: &Path, error: &Error) {
        self.labels.push(label.to_path_buf());
        match error.status() {
            Status::Refused => self.refused += 1,
            _ => self.failed += 1,
        }
        if let Error::Refused(refusal) = error {
            match refusal.reason {
                Reason::RanOut if refusal.place > 0 => self.cut += 1,
                Reason::NoTable if refusal.place == 0 => self.without_table += 1,
                _ => {}
            }
        }
    }

    /// Prints and writes what was asked for.
    pub fn report(&self, sources: &[Source], options: &RunOptions) -> Result<(), Error> {
        if options.summary {
            let done = sources.len() - self.labels.len();
            let films = if sources.len() == 1 { "1 film".to_string() } else { format!("{} films", sources.len()) };
            let (refused, failed) = (self.refused, self.failed);
            report(Status::Success, &format!("{films}: {done} done, {refused} refused, {failed} failed"));
        }
        // Hints are for people.
        if stderr().is_terminal() {
            self.hint();
        }
        match &options.failed {
            Some(list) => {
                let labels: Vec<&Path> = self.labels.iter().map(PathBuf::as_path).collect();
                let is_film = |id: FileId| sources.iter().any(|source| source.id == Some(id));
                let is_kept = |id: FileId| is_film(id).then(|| "it is a film of this run".to_string());
                lists::write(list, options.null, &labels, &is_kept)
            }
            None => Ok(()),
        }
    }

    fn hint(&self) {
        if self.cut > 0 {
            report(Status::Success, "hint: where bytes run out, usm salvage saves what arrived of a film");
        }
        if self.without_table > 0 {
            report(
                Status::Success,
                "hint: films of cridecoder's UsmBuilder have no table at 0; usm from-old moves them",
            );
        }
    }
}
