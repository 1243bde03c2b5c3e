//! `usm salvage`: what arrived of films that were cut.

use clap::Args;

use crate::files::targets::OutputOptions;
use crate::output::{Error, Status};
use crate::run::rewrite::{self, Dropped, RewriteWhole, Rewritten};
use crate::run::sources::Films;

/// Save what arrived of films that were cut
///
/// Writes the longest beginning of a film that is accepted, of those that end at a chunk's start, and says how many
/// bytes were dropped and why. A film that is accepted is whole, and nothing is written for it. A damaged header is not
/// mended.
///
/// The file lies beside the film and ends in .salvaged.usm, or has the film's name in DIR.
#[derive(Args)]
pub struct Salvage {
    #[command(flatten)]
    films: Films,
    /// Write films that are whole too, as they are
    #[arg(long)]
    all: bool,
    #[command(flatten)]
    output: OutputOptions,
}

impl Salvage {
    pub fn run(self) -> Status {
        rewrite::run(Salvaging { all: self.all }, &self.films, &self.output)
    }
}

struct Salvaging {
    all: bool,
}

impl RewriteWhole for Salvaging {
    const SUFFIX: &'static str = "salvaged";

    fn make<'b>(&self, film: &'b [u8], _: &'b mut Vec<u8>) -> Result<Option<Rewritten<'b>>, Error> {
        let salvaged = usm::salvage(film)?;
        if salvaged.cause.is_none() && !self.all {
            return Ok(None);
        }
        let dropped = Dropped { bytes: salvaged.dropped, cause: salvaged.cause };
        Ok(Some(Rewritten { film: salvaged.film, dropped: Some(dropped) }))
    }
}
