//! `usm keys`: whether two keys give the same streams.

use std::path::PathBuf;

use clap::{Args, ValueHint};
use serde::Serialize;
use usm::{ChunkKind, Reader, Reading};

use crate::options::key::{self, Key};
use crate::output::digits::{bits_that_count, has, marks, places};
use crate::output::json::{About, Kind};
use crate::output::text::Shown;
use crate::output::{Error, Status};
use crate::output::{Output, print_to, report, report_error};
use crate::run::input::Input;
use crate::run::progress::Meter;
use crate::run::sources::{RunOptions, sources};
use crate::run::workers::{self, Film, Task, Turn};

/// Say whether two keys give the same streams
///
/// A key is 1 to 16 hex digits of either case, with or without 0x. Of its 16 digits three never count, so that two keys
/// may differ and still give the same pictures and the same sound.
///
/// With films, for each whether the two keys give the same streams, and if not, the first payload that shows it.
#[derive(Args)]
pub struct Keys {
    /// A key
    #[arg(value_name = "K1")]
    first: String,
    /// Another key
    #[arg(value_name = "K2")]
    second: String,
    /// Films, folders of films, or - for standard input
    #[arg(value_name = "FILE", value_hint = ValueHint::AnyPath)]
    files: Vec<PathBuf>,
    #[command(flatten)]
    options: RunOptions,
}

impl Keys {
    pub fn run(self) -> Status {
        let mut keys = Vec::new();
        for word in [&self.first, &self.second] {
            match key::typed(word) {
                Ok(key) => keys.push(key),
                Err(why) => {
                    return report(Status::Failed, &format!("{} is {why}", Shown::bytes(word.as_bytes())));
                }
            }
        }
        for note in keys.iter().filter_map(|key: &Key| key.note.as_ref()) {
            report(Status::Success, &format!("note: {note}"));
        }
        let answer = Answer { first: keys[0].number, second: keys[1].number };
        match sources(&self.files, &self.options, "") {
            Ok(sources) => workers::run(&Run { answer, json: self.options.json }, &sources, &self.options),
            Err(error) => report_error(error),
        }
    }
}

struct Run {
    answer: Answer,
    json: bool,
}

impl Task for Run {
    fn begin(&self, output: &mut Output) -> Result<(), Error> {
        if self.json { output.object(&self.answer.object()) } else { self.answer.print(output) }
    }

    fn film<'a>(&'a self, film: Film<'a, '_>, turn: &Turn<'a, '_>) -> Result<(), Error> {
        let Film { label, input, meter, .. } = film;
        let mut reader = input.reader(Reading::default(), meter)?;
        let differs = self.answer.first_difference(&mut reader, meter)?;
        reader.get_ref().check_end()?;
        let mut printer = turn.take();
        if self.json {
            let same_streams = differs.is_none();
            return printer.object(&FilmObject { about: About::new("film-keys", label), same_streams, differs });
        }
        let file = Shown::path(label);
        match differs {
            None => print_to!(&mut *printer, "\n{file}: the same streams under both keys\n"),
            Some(Difference { stream, at }) => {
                let where_ = format!("first in the {stream} payload of the chunk at {at}");
                print_to!(&mut *printer, "\n{file}: different streams, {where_}\n")
            }
        }
        Ok(())
    }
}

/// The first payload of a film that two keys make differ.
#[derive(Serialize)]
struct Difference {
    #[serde(rename = "differs_in")]
    stream: &'static str,
    #[serde(rename = "differs_at")]
    at: usize,
}

#[derive(Serialize)]
struct FilmObject<'a> {
    #[serde(flatten)]
    about: About<'a>,
    same_streams: bool,
    #[serde(flatten)]
    differs: Option<Difference>,
}

struct Answer {
    first: u64,
    second: u64,
}

impl Answer {
    fn same_streams(&self) -> bool {
        usm::key_table(self.first) == usm::key_table(self.second)
    }

    /// The first payload of a film that the keys make different: one that shows a bit in which they differ. Where none
    /// does they give the same streams (proved).
    fn first_difference(&self, reader: &mut Reader<&mut Input>, meter: &Meter) -> Result<Option<Difference>, Error> {
        let mut found = None;
        while let Some(chunk) = reader.next_chunk()? {
            if found.is_none() && (self.first ^ self.second) & chunk.mask.key_bits(chunk.length) != 0 {
                let stream = if chunk.kind == ChunkKind::Video { "video" } else { "audio" };
                found = Some(Difference { stream, at: chunk.start });
            }
            meter.reach(reader.place());
        }
        Ok(found)
    }

    fn object(&self) -> Object {
        Object {
            kind: Kind::new("keys"),
            first: format!("{:016X}", self.first),
            second: format!("{:016X}", self.second),
            same_key: self.first == self.second,
            same_streams: self.same_streams(),
            differing_digits: places(self.first ^ self.second),
            counting_digits: places(bits_that_count()),
        }
    }

    fn print(&self, output: &mut Output) -> Result<(), Error> {
        let counts = marks(|place| if has(bits_that_count(), place) { '+' } else { '-' });
        let differs = marks(|place| if has(self.first ^ self.second, place) { '^' } else { '.' });
        print_to!(output, "first key   {:016X}\n", self.first);
        print_to!(output, "second key  {:016X}\n", self.second);
        print_to!(output, "counts      {counts}  + can touch a picture and ADX sound, - never does\n");
        print_to!(output, "differs     {differs}  ^ the two keys have different digits here\n\n");
        print_to!(output, "{}", self.verdict());
        Ok(())
    }

    fn verdict(&self) -> &'static str {
        if self.first == self.second {
            SAME_KEY
        } else if self.same_streams() {
            SAME_STREAMS
        } else {
            STREAMS_CAN_DIFFER
        }
    }
}

#[derive(Serialize)]
struct Object {
    #[serde(flatten)]
    kind: Kind,
    first: String,
    second: String,
    same_key: bool,
    same_streams: bool,
    /// Digits by their places from the left, from 0.
    differing_digits: Vec<usize>,
    counting_digits: Vec<usize>,
}

// The words of the program two_keys.
const SAME_KEY: &str = "Both are the same key, so they give the same streams for every film.\n";

const SAME_STREAMS: &str = "\
The two keys differ, but only in digits that never count. They give the same
streams for every film: the same pictures and the same sound, byte for byte.
";

const STREAMS_CAN_DIFFER: &str = "\
The two keys differ in at least one digit that counts.
They give different pictures for a film exactly if it has a video payload of
data type 0 and 0x240 bytes or more.
They give different ADX sound for a film surely if it has an audio payload of
data type 0 and 0x159 bytes or more, perhaps if the longest of data type 0 has
0x141 to 0x158 bytes, and never if none of data type 0 has more than 0x140.
A film whose payloads are all short (video below 0x240 bytes, sound below
0x141) or plain (of a data type other than 0) is the same under all keys, and
so is all sound of a codec other than ADX.
";
