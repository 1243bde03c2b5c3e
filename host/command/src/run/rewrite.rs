//! Films made of films: what `salvage`, `from-old`, `to-old` and `rekey` share.

use std::fs::File;
use std::io::Write;
use std::path::{Path, PathBuf};

use serde::Serialize;
use usm::Reason;

use crate::files::names::stem;
use crate::files::staged::StagedFiles;
use crate::files::targets::{Claim, OutputOptions, Targets};
use crate::output::json::{About, AsHex, AsText};
use crate::output::text::Shown;
use crate::output::{Error, Output, Status, print_to, report_error};
use crate::run::sources::Films;
use crate::run::workers::{self, Film, Task, Turn, WholeFilm};

/// A way to make a film of a film.
pub trait Rewrite: Sync {
    /// What stands in front of the ending where the new film lies beside the other. In folders, films with it are
    /// passed over.
    const SUFFIX: &'static str;

    /// Writes the new film to a file that it begins, and that gets its name afterwards; `None` where there is nothing to
    /// write.
    fn write(&self, film: Film, new: NewFilm) -> Result<Option<Written>, Error>;
}

/// A film to be written.
pub struct NewFilm<'s> {
    target: &'s Path,
    staged: &'s mut StagedFiles,
}

impl<'s> NewFilm<'s> {
    /// Begins the film's file.
    pub fn create(self) -> Result<&'s mut File, Error> {
        self.staged.create(self.target.to_path_buf())
    }

    /// What its file is to be called.
    pub fn target(&self) -> &'s Path {
        self.target
    }
}

/// A film that is written.
pub struct Written {
    pub size: usize,
    /// What was dropped of the other, where something can be.
    pub dropped: Option<Dropped>,
}

/// A way to make a film of one that is in memory.
pub trait RewriteWhole: Sync {
    /// As that of [`Rewrite`].
    const SUFFIX: &'static str;

    /// The new film, which may be in `room`; `None` where there is nothing to write.
    fn make<'b>(&self, film: &'b [u8], room: &'b mut Vec<u8>) -> Result<Option<Rewritten<'b>>, Error>;
}

/// A film that is made.
pub struct Rewritten<'b> {
    pub film: &'b [u8],
    /// What was dropped of the other, where something can be.
    pub dropped: Option<Dropped>,
}

impl<R: RewriteWhole> Rewrite for R {
    const SUFFIX: &'static str = R::SUFFIX;

    fn write(&self, film: Film, new: NewFilm) -> Result<Option<Written>, Error> {
        let (meter, target) = (film.meter, new.target());
        let WholeFilm { bytes, made } = film.read()?;
        let Some(Rewritten { film, dropped }) = self.make(bytes, made)? else { return Ok(None) };
        new.create()?.write_all(film).map_err(|error| Error::with(target, error))?;
        meter.advance(film.len() as u64);
        Ok(Some(Written { size: film.len(), dropped }))
    }
}

#[derive(Clone, Copy)]
pub struct Dropped {
    pub bytes: usize,
    pub cause: Option<Reason>,
}

/// Makes a film of each.
pub fn run<R: Rewrite>(rewrite: R, films: &Films, options: &OutputOptions) -> Status {
    let sources = match films.sources_without(R::SUFFIX) {
        Ok(sources) => sources,
        Err(error) => return report_error(error),
    };
    match Targets::new(options, &sources) {
        Ok(targets) => {
            let run = Run { rewrite, targets, json: films.options.json, quiet: options.quiet };
            workers::run(&run, &sources, &films.options)
        }
        Err(error) => report_error(error),
    }
}

struct Run<R> {
    rewrite: R,
    targets: Targets,
    json: bool,
    quiet: bool,
}

/// What became of a film.
enum Outcome {
    Written { target: PathBuf, size: usize, dropped: Option<Dropped> },
    Skipped(&'static str),
}

const THERE: &str = "its file is there";
const WHOLE: &str = "the film is whole";

impl<R: Rewrite> Task for Run<R> {
    const STEPS: u64 = 2;

    fn film<'a>(&'a self, film: Film<'a, '_>, turn: &Turn<'a, '_>) -> Result<(), Error> {
        let label = film.label;
        let target = self.target(label);
        if turn.decide(|| self.targets.claim(label, std::slice::from_ref(&target)))? == Claim::Skip {
            self.print_in_turn(label, Outcome::Skipped(THERE), turn);
            return Ok(());
        }
        let mut staged = self.targets.staged();
        let new = NewFilm { target: &target, staged: &mut staged };
        let Some(Written { size, dropped }) = self.rewrite.write(film, new)? else {
            self.print_in_turn(label, Outcome::Skipped(WHOLE), turn);
            return Ok(());
        };
        self.targets.place(label, staged)?;
        self.print_in_turn(label, Outcome::Written { target, size, dropped }, turn);
        Ok(())
    }
}

impl<R: Rewrite> Run<R> {
    fn target(&self, label: &Path) -> PathBuf {
        let name = stem(label);
        let name = if self.targets.have_folder() { name } else { format!("{name}.{}", R::SUFFIX) };
        self.targets.target(label, &format!("{name}.usm"))
    }

    fn print_in_turn<'a>(&'a self, label: &'a Path, outcome: Outcome, turn: &Turn<'a, '_>) {
        turn.finish_in_turn(move |output| self.print(label, &outcome, output));
    }

    fn print(&self, label: &Path, outcome: &Outcome, output: &mut Output) -> Result<(), Error> {
        if self.json {
            return match outcome {
                Outcome::Written { target, size, dropped } => {
                    output.object(&Object::of(label, target, *size, *dropped))
                }
                Outcome::Skipped(why) => output.object(&Skipped { about: About::new("skipped", label), why }),
            };
        }
        if self.quiet {
            return Ok(());
        }
        output.gap()?;
        print_to!(output, "{}\n", Shown::path(label));
        match outcome {
            Outcome::Written { target, size, dropped } => print_written(target, *size, *dropped, output),
            Outcome::Skipped(why) => {
                print_to!(output, "skipped: {why}\n");
                Ok(())
            }
        }
    }
}

fn print_written(target: &Path, size: usize, dropped: Option<Dropped>, output: &mut Output) -> Result<(), Error> {
    print_to!(output, "written  {size} bytes: {}\n", Shown::path(target));
    match dropped {
        Some(Dropped { bytes, cause: Some(cause) }) => print_to!(output, "dropped  {bytes} bytes: {cause}\n"),
        Some(Dropped { cause: None, .. }) => print_to!(output, "dropped  none: the film is whole\n"),
        None => {}
    }
    Ok(())
}

#[derive(Serialize)]
struct Object<'a> {
    #[serde(flatten)]
    about: About<'a>,
    path: AsText<'a>,
    path_hex: AsHex<'a>,
    bytes: usize,
    #[serde(flatten)]
    dropped: Option<DroppedObject>,
}

#[derive(Serialize)]
struct DroppedObject {
    dropped: usize,
    /// The number of the refusal, 0 where there is none.
    cause: u8,
    reason: Option<String>,
}

/// The object of a film of which nothing is made.
#[derive(Serialize)]
struct Skipped<'a> {
    #[serde(flatten)]
    about: About<'a>,
    why: &'a str,
}

impl<'a> Object<'a> {
    fn of(label: &'a Path, target: &'a Path, bytes: usize, dropped: Option<Dropped>) -> Object<'a> {
        let path = target.as_os_str().as_encoded_bytes();
        let dropped = dropped.map(|Dropped { bytes, cause }| DroppedObject {
            dropped: bytes,
            cause: cause.map_or(0, |cause| cause.number()),
            reason: cause.map(|cause| cause.to_string()),
        });
        Object { about: About::new("rewritten", label), path: AsText(path), path_hex: AsHex(path), bytes, dropped }
    }
}
