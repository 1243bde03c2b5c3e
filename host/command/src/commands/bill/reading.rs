//! What is known of a film, from the ledger or by reading it.

use std::path::Path;

use super::films::{Film, Found};
use super::ledger::{Container, Kind, Ledger};
use crate::files::identity::Identity;
use crate::output::Error;
use crate::run::progress::Meter;
use crate::sharing::classes::Class;

pub struct Known {
    pub kind: Kind,
    pub found: Vec<Found>,
    /// Classes of keys that are not known, and before them the film's first class: where the others differ from it is learnt
    /// too.
    missing: Vec<Class>,
}

/// What was learnt by reading a film.
pub struct Learning {
    pub known: Known,
    /// What of it is new.
    pub learnt: Vec<Found>,
    /// The film's digest, where there is a ledger.
    pub container: Option<Container>,
}

/// What is asked of the books and the ledger while a film is read.
pub trait Records {
    fn has_ledger(&self) -> bool;

    /// What the ledger knows of a film by its digest.
    fn recall(&self, container: &Container) -> Result<Option<Known>, Error>;

    /// The classes of keys that the film is held under, where it shows these bits: first that of its lowest tenant.
    fn classes(&self, bits: u64) -> Result<Vec<Class>, Error>;
}

/// Reads a film. What goes wrong with the film is the inner error; the outer one, of books or ledger, ends the run.
pub fn read(
    path: &Path,
    identity: &Identity,
    records: &impl Records,
    meter: &Meter,
) -> Result<Result<Learning, Error>, Error> {
    let (mut film, container) = match open(path, identity, records.has_ledger(), meter) {
        Ok(opened) => opened,
        Err(error) => return Ok(Err(error)),
    };
    let recalled = container.map(|container| records.recall(&container)).transpose()?.flatten();
    let known = match recalled {
        Some(known) => known,
        None => match kind(&mut film, meter) {
            Ok(kind) => Known::nothing_but(kind, |bits| records.classes(bits))?,
            Err(error) => return Ok(Err(error)),
        },
    };
    let learnt = complete(&mut film, known, meter);
    Ok(learnt.map(|(known, learnt)| Learning { known, learnt, container }))
}

/// Opens a film, and takes its digest where the ledger is to be asked for it.
fn open<'a>(
    path: &'a Path,
    identity: &'a Identity,
    has_ledger: bool,
    meter: &Meter,
) -> Result<(Film<'a>, Option<Container>), Error> {
    let mut film = Film::open(path, identity)?;
    let container = if has_ledger { Some(film.digest(meter)?) } else { None };
    Ok((film, container))
}

fn kind(film: &mut Film, meter: &Meter) -> Result<Kind, Error> {
    match film.bits(meter) {
        Ok(bits) => Ok(Kind::Shows(bits)),
        Err(Error::Refused(refusal)) => Ok(Kind::Refused(refusal.to_string())),
        Err(error) => Err(error),
    }
}

/// Learns what is missing of a film that is open. Returns all that is known then, and what of it is new.
fn complete(film: &mut Film, known: Known, meter: &Meter) -> Result<(Known, Vec<Found>), Error> {
    if known.is_complete() {
        return Ok((known, Vec::new()));
    }
    let learnt = film.learn(&known.missing, meter)?;
    // The first class stays first: the others are compared with it.
    let kept = known.found.into_iter().filter(|found| !known.missing.contains(&found.class));
    let found = learnt.iter().copied().chain(kept).collect();
    Ok((Known { kind: known.kind, found, missing: Vec::new() }, learnt))
}

impl Known {
    /// Whether all is known that the bill asks.
    pub fn is_complete(&self) -> bool {
        self.missing.is_empty()
    }

    /// What a film is, and nothing of its streams yet.
    fn nothing_but(kind: Kind, classes: impl FnOnce(u64) -> Result<Vec<Class>, Error>) -> Result<Known, Error> {
        let missing = match kind {
            Kind::Shows(bits) => classes(bits)?,
            Kind::Refused(_) => Vec::new(),
        };
        Ok(Known { kind, found: Vec::new(), missing })
    }

    /// What the ledger knows of a film of this kind.
    pub fn recall(
        ledger: &Ledger,
        container: &Container,
        kind: Kind,
        classes: impl FnOnce(u64) -> Result<Vec<Class>, Error>,
    ) -> Result<Known, Error> {
        let Known { kind, missing: asked, .. } = Known::nothing_but(kind, classes)?;
        let (mut found, mut missing) = (Vec::new(), Vec::new());
        let first = asked.first().copied().flatten();
        for class in asked {
            match ledger.found(container, first, class)? {
                Some(known) => found.push(known),
                None => missing.push(class),
            }
        }
        if missing.first().is_some_and(|&class| class != first) {
            missing.insert(0, first);
        }
        Ok(Known { kind, found, missing })
    }
}
