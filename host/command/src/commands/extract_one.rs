//! `usm extract --video FILE --audio FILE`: streams of one film to files that are named, or to standard output.

use std::path::{Path, PathBuf};

use usm::Stream;

use crate::commands::extract::Extract;
use crate::files::identity::FileId;
use crate::files::staged::{Replacing, StagedFiles};
use crate::output::{Error, Status, report_error};
use crate::run::streams;
use crate::run::workers::{self, Film, Task, Turn};

pub fn run(options: &Extract) -> Status {
    let begin = || {
        let key = options.key.key()?;
        let sources = options.films.sources()?;
        let [source] = &sources[..] else {
            return Err(Error::System("--video and --audio write the streams of one film: name one".to_string()));
        };
        let is_output = |path: &Option<PathBuf>| path.as_deref() == Some(Path::new("-"));
        if is_output(&options.video) && is_output(&options.audio) {
            return Err(Error::System("standard output can't be both streams".to_string()));
        }
        let film = source.id;
        Ok((One { options, key, film }, sources))
    };
    match begin() {
        Ok((one, sources)) => workers::run(&one, &sources, &options.films.options),
        Err(error) => report_error(error),
    }
}

struct One<'o> {
    options: &'o Extract,
    key: Option<u64>,
    film: Option<FileId>,
}

impl Task for One<'_> {
    fn film<'a>(&'a self, film: Film<'a, '_>, turn: &Turn<'a, '_>) -> Result<(), Error> {
        let Film { input, meter, .. } = film;
        let mut reader = input.reader(self.options.reading.reading(), meter)?;
        // What stands on standard output can't be taken back: all chunks are looked at before.
        reader.check()?;
        reader.get_ref().check_end()?;
        let named = [(Stream::Video, &self.options.video), (Stream::Audio, &self.options.audio)];
        let mut files = Vec::new();
        for (stream, path) in named {
            match path.as_deref() {
                Some(path) if path == Path::new("-") => self.print(&mut reader, stream, turn)?,
                Some(path) => files.push((stream, path.to_path_buf())),
                None => {}
            }
        }
        if files.is_empty() {
            return Ok(());
        }
        reader.rewind()?;
        let mut staged = StagedFiles::new(self.options.output.is_synced());
        for (_, path) in &files {
            staged.create(path.clone())?;
        }
        let route = |stream: Stream, _: u8| files.iter().position(|(own, _)| *own == stream);
        streams::write(&mut reader, self.key, &route, &mut staged, meter)?;
        let is_kept = |id: FileId| (self.film == Some(id)).then(|| "it is the film".to_string());
        staged.place(&Replacing { force: self.options.output.force(), is_kept: &is_kept })?;
        Ok(())
    }
}

impl One<'_> {
    fn print<'a>(
        &self,
        reader: &mut usm::Reader<&mut crate::run::input::Input>,
        stream: Stream,
        turn: &Turn<'a, '_>,
    ) -> Result<(), Error> {
        let mut printer = turn.take();
        if printer.is_terminal() {
            return Err(Error::System("standard output is a terminal: a stream is not for it".to_string()));
        }
        streams::write_one(reader, self.key, stream, &mut *printer)
    }
}
