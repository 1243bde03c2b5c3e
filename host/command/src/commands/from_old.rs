//! `usm from-old`: films of the old builder as films that can be read.

use clap::Args;

use crate::files::targets::OutputOptions;
use crate::options::codecs::Codecs;
use crate::output::{Error, Status};
use crate::run::input::make_room;
use crate::run::rewrite::{self, RewriteWhole, Rewritten};
use crate::run::sources::Films;

/// Move films of the old builder to films that can be read
///
/// The UsmBuilder of cridecoder writes films that no program extracts. Each becomes one that `usm extract` reads, with
/// the same name and streams. Payloads travel as they are stored, so no key is asked for: the one that the builder had
/// is for extract. `usm to-old` gives the first film back, byte for byte.
///
/// The builder keeps no codecs: give those that the films have. Without one a film says none, and then masked audio is
/// not unmasked, which takes codec 2. A film with more than one audio is refused.
///
/// The file lies beside the film and ends in .moved.usm, or has the film's name in DIR.
#[derive(Args)]
pub struct FromOld {
    #[command(flatten)]
    films: Films,
    #[command(flatten)]
    codecs: Codecs,
    #[command(flatten)]
    output: OutputOptions,
}

impl FromOld {
    pub fn run(self) -> Status {
        let codecs = usm::Codecs { video: self.codecs.video_codec, audio: self.codecs.audio_codec };
        rewrite::run(MovingFrom(codecs), &self.films, &self.output)
    }
}

struct MovingFrom(usm::Codecs);

impl RewriteWhole for MovingFrom {
    const SUFFIX: &'static str = "moved";

    fn make<'b>(&self, film: &'b [u8], room: &'b mut Vec<u8>) -> Result<Option<Rewritten<'b>>, Error> {
        make_room(room, usm::from_old_size(film, self.0)?)?;
        usm::from_old_into(film, self.0, room)?;
        Ok(Some(Rewritten { film: room, dropped: None }))
    }
}
