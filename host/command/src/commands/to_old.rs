//! `usm to-old`: films that were moved, as the old builder has them.

use clap::Args;

use crate::files::targets::OutputOptions;
use crate::output::{Error, Status};
use crate::run::input::make_room;
use crate::run::rewrite::{self, RewriteWhole, Rewritten};
use crate::run::sources::Films;

/// Move films back to those of the old builder
///
/// What `usm from-old` wrote becomes the film that it was made of, byte for byte. Films of `usm pack` are moved too,
/// where their name is UTF-8. Codecs are left out: the builder keeps none.
///
/// The file lies beside the film and ends in .old.usm, or has the film's name in DIR.
#[derive(Args)]
pub struct ToOld {
    #[command(flatten)]
    films: Films,
    #[command(flatten)]
    output: OutputOptions,
}

impl ToOld {
    pub fn run(self) -> Status {
        rewrite::run(MovingBack, &self.films, &self.output)
    }
}

struct MovingBack;

impl RewriteWhole for MovingBack {
    const SUFFIX: &'static str = "old";

    fn make<'b>(&self, film: &'b [u8], room: &'b mut Vec<u8>) -> Result<Option<Rewritten<'b>>, Error> {
        // The old film is shorter.
        make_room(room, film.len())?;
        usm::to_old_into(film, room)?;
        Ok(Some(Rewritten { film: room, dropped: None }))
    }
}
