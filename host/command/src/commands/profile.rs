//! `usm profile`: whether films are plain.

use clap::Args;
use serde::Serialize;
use usm::{Offence, Reading};

use crate::output::json::About;
use crate::output::text::Shown;
use crate::output::{Error, Status};
use crate::output::{print_to, report_error};
use crate::run::sources::Films;
use crate::run::workers::{self, Film, Task, Turn};

/// Check films against the delivery profile
///
/// A film is plain where every chunk keeps these rules: 1, its header size is 0x18; 2, its block size plus 8 is a
/// multiple of 0x20; 3, each stream is closed by exactly one end chunk, and none of its payloads comes after it; 4, it
/// begins with @SFV or @SFA. Of a film that is not plain the first chunk that breaks a rule is named, with the first rule
/// that it breaks, and the status is 1.
#[derive(Args)]
pub struct Profile {
    #[command(flatten)]
    films: Films,
}

impl Profile {
    pub fn run(self) -> Status {
        match self.films.sources() {
            Ok(sources) => workers::run(&self, &sources, &self.films.options),
            Err(error) => report_error(error),
        }
    }
}

impl Task for Profile {
    fn film<'a>(&'a self, film: Film<'a, '_>, turn: &Turn<'a, '_>) -> Result<(), Error> {
        let Film { label, input, meter, .. } = film;
        let mut reader = input.reader(Reading::default(), meter)?;
        let offence = reader.profile()?;
        reader.get_ref().check_end()?;
        let mut printer = turn.take();
        if offence.is_some() {
            printer.raise(Status::Refused);
        }
        if self.films.options.json {
            return printer.object(&Object { about: About::new("profile", label), answer: Answer::of(offence) });
        }
        let file = Shown::path(label);
        match offence {
            None => print_to!(&mut *printer, "{file}: plain\n"),
            Some(Offence { rule, place, .. }) => {
                print_to!(&mut *printer, "{file}: not plain, rule {} at {place}: {rule}\n", rule.number())
            }
        }
        Ok(())
    }
}

#[derive(Serialize)]
struct Object<'a> {
    #[serde(flatten)]
    about: About<'a>,
    #[serde(flatten)]
    answer: Answer,
}

#[derive(Serialize)]
struct Answer {
    plain: bool,
    rule: Option<u8>,
    place: Option<usize>,
    reason: Option<String>,
}

impl Answer {
    fn of(offence: Option<Offence>) -> Answer {
        Answer {
            plain: offence.is_none(),
            rule: offence.map(|offence| offence.rule.number()),
            place: offence.map(|offence| offence.place),
            reason: offence.map(|offence| offence.rule.to_string()),
        }
    }
}
