//! One film or container on both sides: what our two functions make of it, and what they should.

use std::fmt;

use super::container::container;
use super::exports::{self, Codecs};
use super::original::{self, Film};
use super::parts;
use super::tally::Tally;
use crate::containers::outputs::Output;
use crate::hex::input;
use crate::reply::same;
use crate::writes::exports::{self as writes, SizeReply};

/// A film that is given to the builder with a key or none, and then moved under these codecs.
#[derive(Clone)]
pub struct Made {
    pub film: Film,
    pub key: Option<u64>,
    pub codecs: Codecs,
}

/// How a container is moved.
#[derive(Clone, Copy)]
pub enum Way {
    FromOld(Codecs),
    ToOld,
}

impl Way {
    pub fn name(&self) -> &'static str {
        match self {
            Way::FromOld(_) => "usm_from_old",
            Way::ToOld => "usm_to_old",
        }
    }

    pub fn call(&self, container: &[u8], out: &mut [u8]) -> SizeReply {
        match self {
            Way::FromOld(codecs) => exports::from_old(container, *codecs, out),
            Way::ToOld => exports::to_old(container, out),
        }
    }
}

impl fmt::Display for Way {
    fn fmt(&self, f: &mut fmt::Formatter) -> fmt::Result {
        match self {
            Way::FromOld(codecs) => write!(f, "codecs {:?} and {:?}", codecs.video, codecs.audio),
            Way::ToOld => f.write_str("no codecs"),
        }
    }
}

/// What went wrong with a container.
pub struct Difference {
    what: String,
    container: Vec<u8>,
}

impl Difference {
    pub fn new(what: String, container: &[u8]) -> Difference {
        Difference { what, container: container.to_vec() }
    }
}

impl fmt::Display for Difference {
    fn fmt(&self, f: &mut fmt::Formatter) -> fmt::Result {
        write!(f, "{}\n{}", self.what, input(&self.container))
    }
}

/// What a move makes of a container: another one, or the number of a refusal.
type Moved = Result<Vec<u8>, u8>;

/// What the builder wrote is moved to the container of what it stored, and back; neither is taken for the other.
pub fn film(made: &Made, tally: &mut Tally) -> Result<(), Difference> {
    let Made { film, key, codecs } = made;
    let (old, stored) = (original::build(film, *key), original::stored(film, *key));
    let (from_old, new) = (Way::FromOld(*codecs), moved(&stored, *codecs));
    calls(&old, from_old, &new, tally)?;
    calls(&old, Way::ToOld, &Err(19), tally)?;
    if parts::of_old(&old).as_ref() != Some(&stored) {
        return Err(Difference::new("the parts of a film of the builder are taken wrongly".to_string(), &old));
    }
    let Ok(new) = new else { return Ok(()) };
    same_as_written(&stored, *codecs, &new)?;
    calls(&new, Way::ToOld, &Ok(old), tally)?;
    calls(&new, from_old, &Err(19), tally)
}

/// Any container is moved exactly where making its film again gives the same bytes. Gives whether it is.
pub fn any(container: &[u8], way: Way, tally: &mut Tally) -> Result<bool, Difference> {
    let expected = expected(container, way);
    calls(container, way, &expected, tally)?;
    Ok(expected.is_ok())
}

fn expected(container: &[u8], way: Way) -> Moved {
    match way {
        Way::FromOld(codecs) => {
            let film = parts::of_old(container).filter(|film| original::build(film, None) == container);
            moved(&film.ok_or(19)?, codecs)
        }
        Way::ToOld => {
            let (film, codecs) = parts::of_new(container).ok_or(19)?;
            let is_made_of_it = moved(&film, codecs).is_ok_and(|again| again == container);
            if is_made_of_it { Ok(original::build(&film, None)) } else { Err(19) }
        }
    }
}

/// What a film of the builder is moved to.
pub fn moved(film: &Film, codecs: Codecs) -> Moved {
    if film.audios.len() > 1 { Err(20) } else { container(film, codecs) }
}

/// Without a key our own writer writes that container.
fn same_as_written(film: &Film, codecs: Codecs, new: &[u8]) -> Result<(), Difference> {
    let film = writes::Film {
        name: film.name.as_bytes(),
        video: &film.video,
        audio: film.audios.first().map(Vec::as_slice),
        video_codec: codecs.video,
        audio_codec: codecs.audio,
        key: None,
    };
    let mut out = vec![0; new.len()];
    let reply = writes::write(film, &mut out);
    if reply == replied(0, new.len()) && out == new {
        return Ok(());
    }
    Err(Difference::new(format!("usm_write: what it writes is not that container; the reply is {reply:?}"), new))
}

/// Moves a container into outputs of several lengths: just enough, more, one byte less, none.
fn calls(container: &[u8], way: Way, expected: &Moved, tally: &mut Tally) -> Result<(), Difference> {
    let size = expected.as_ref().map_or(0, Vec::len);
    let rooms = match expected {
        Ok(_) => &[size, size + 7, size - 1, 0][..],
        Err(_) => &[container.len() + 7, 0],
    };
    for &room in rooms {
        let (number, written) = match expected {
            Ok(moved) if moved.len() <= room => (0, &moved[..]),
            Ok(_) => (16, &[][..]),
            Err(number) => (*number, &[][..]),
        };
        let mut out = Output::new(room);
        same(way.call(container, out.lent()), replied(number, size))
            .and_then(|()| out.holds(written))
            .map_err(|what| Difference::new(format!("{}: {what}\ncall: {way}, room {room}", way.name()), container))?;
        tally.call(&way, number);
    }
    Ok(())
}

fn replied(number: u8, size: usize) -> SizeReply {
    SizeReply { refused_at: 0, size, number, unknown_type: 0 }
}
