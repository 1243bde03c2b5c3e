//! Streams read and packed piece by piece. The crate passes on what a reader or a writer fails with, and not which of them
//! it was: here each error has the name of its file before it goes there.

use std::fmt;
use std::io::{self, ErrorKind, Read, Write};

use usm::Lengths;

use crate::files::identity::FileId;
use crate::output::Error;
use crate::run::input::Input;
use crate::run::progress::Meter;
use crate::run::sources::Source;

/// The streams of a film to be, open.
pub struct OpenStreams<'a> {
    video: OpenStream<'a>,
    audio: Option<OpenStream<'a>>,
}

impl<'a> OpenStreams<'a> {
    /// Opens video and audio, one after the other: a pipe is read to its end before the next is opened.
    pub fn open(video: &'a Source, audio: Option<&'a Source>, meter: &'a Meter) -> Result<OpenStreams<'a>, Error> {
        let video = OpenStream::open(video, meter)?;
        let audio = audio.map(|audio| OpenStream::open(audio, meter)).transpose()?;
        Ok(OpenStreams { video, audio })
    }

    /// The lengths of a film of these streams.
    pub fn lengths<'n>(&self, name: &'n [u8]) -> Lengths<'n> {
        let lengths = Lengths::new(name, self.video.length());
        match &self.audio {
            Some(audio) => lengths.with_audio(audio.length()),
            None => lengths,
        }
    }

    /// Packs the streams, from their first bytes on, and gives the film's size. `failed` names the film where it can't be
    /// written.
    pub fn pack(
        &mut self,
        lengths: Lengths,
        key: Option<u64>,
        film: impl Write,
        failed: impl Fn(io::Error) -> Error,
    ) -> Result<u64, Error> {
        let film = Film { film, failed };
        self.all().for_each(|stream| stream.input.restart());
        let packed = match &mut self.audio {
            Some(audio) => usm::pack_to(lengths, key, &mut self.video, audio, film),
            None => usm::pack_to(lengths, key, &mut self.video, io::empty(), film),
        };
        let size = packed.map_err(named)?;
        self.all().try_for_each(|stream| stream.check_end())?;
        Ok(size)
    }

    /// Which files they are.
    pub fn ids(&self) -> Vec<FileId> {
        std::iter::once(&self.video).chain(&self.audio).filter_map(|stream| stream.source.id).collect()
    }

    fn all(&mut self) -> impl Iterator<Item = &mut OpenStream<'a>> {
        std::iter::once(&mut self.video).chain(&mut self.audio)
    }
}

/// A stream that is read.
struct OpenStream<'a> {
    source: &'a Source,
    input: Input,
    meter: &'a Meter<'a>,
}

impl<'a> OpenStream<'a> {
    /// Opens a stream. What a pipe gives is in memory then.
    fn open(source: &'a Source, meter: &'a Meter) -> Result<OpenStream<'a>, Error> {
        let held = source.open().and_then(|mut input| input.hold(meter).map(|()| input));
        let input = held.map_err(|error| error.of(&source.label))?;
        Ok(OpenStream { source, input, meter })
    }

    fn length(&self) -> usize {
        self.input.length() as usize
    }

    fn check_end(&self) -> Result<(), Error> {
        self.input.check_end().map_err(|error| error.of(&self.source.label))
    }
}

impl Read for OpenStream<'_> {
    /// No more is asked for than the stream's length, so that a file which is over has shrunk.
    fn read(&mut self, room: &mut [u8]) -> io::Result<usize> {
        match self.input.read(room) {
            Ok(0) if !room.is_empty() => Err(Named::carry(self.input.shrank().of(&self.source.label))),
            Ok(count) => {
                // A pipe was counted when it was read.
                if let Input::File { .. } = self.input {
                    self.meter.advance(count as u64);
                }
                Ok(count)
            }
            Err(error) if error.kind() == ErrorKind::Interrupted => Err(error),
            Err(error) => Err(Named::carry(Error::with(&self.source.label, error))),
        }
    }
}

/// A film that is written.
struct Film<W, F> {
    film: W,
    failed: F,
}

impl<W: Write, F: Fn(io::Error) -> Error> Film<W, F> {
    fn named<T>(&self, result: io::Result<T>) -> io::Result<T> {
        result.map_err(|error| match error.kind() {
            ErrorKind::Interrupted => error,
            _ => Named::carry((self.failed)(error)),
        })
    }
}

impl<W: Write, F: Fn(io::Error) -> Error> Write for Film<W, F> {
    fn write(&mut self, bytes: &[u8]) -> io::Result<usize> {
        let written = self.film.write(bytes);
        self.named(written)
    }

    fn flush(&mut self) -> io::Result<()> {
        let flushed = self.film.flush();
        self.named(flushed)
    }
}

/// An error that has its file's name, on its way through the crate.
#[derive(Debug)]
struct Named(Error);

impl Named {
    fn carry(error: Error) -> io::Error {
        io::Error::other(Named(error))
    }
}

impl fmt::Display for Named {
    fn fmt(&self, f: &mut fmt::Formatter) -> fmt::Result {
        fmt::Debug::fmt(&self.0, f)
    }
}

impl std::error::Error for Named {}

/// The error that went through the crate, or the crate's own.
fn named(error: usm::Error) -> Error {
    match error {
        usm::Error::Io(error) => error.downcast().map_or_else(Error::io, |Named(error)| error),
        error => error.into(),
    }
}

#[cfg(test)]
mod tests {
    use std::fs::{self, File};
    use std::io;
    use std::path::PathBuf;

    use super::OpenStreams;
    use crate::output::Error;
    use crate::run::progress::{Meter, Progress};
    use crate::run::sources::Source;

    /// Packs two files, changed after they were opened, and gives the error, with `VIDEO` and `AUDIO` for their names.
    fn packed_after(change: impl FnOnce(&File, &File), film: impl io::Write) -> Result<u64, String> {
        let paths = ["VIDEO", "AUDIO"].map(|name| PathBuf::from(format!("{}/{name}", folder())));
        paths.iter().for_each(|path| fs::write(path, [7; 200_000]).unwrap());
        let [video, audio] = paths.each_ref().map(|path| Source::named(path));
        let progress = Progress::new(None);
        let meter = Meter::new(&progress, 1, 0);
        let mut streams = OpenStreams::open(&video, Some(&audio), &meter).unwrap();
        let [video, audio] = paths.each_ref().map(|path| File::options().write(true).open(path).unwrap());
        change(&video, &audio);
        let lengths = streams.lengths(b"");
        let packed = streams.pack(lengths, Some(1), film, |error| Error::System(format!("FILM: {error}")));
        fs::remove_dir_all(folder()).unwrap();
        packed.map_err(|error| match error {
            Error::System(what) => what.replace(&format!("{}/", folder()), ""),
            error => format!("{error:?}"),
        })
    }

    /// A folder for the test that runs.
    fn folder() -> String {
        let test = std::thread::current().name().unwrap_or_default().replace("::", "-");
        let folder = format!("{}/usm-{}-{test}", std::env::temp_dir().display(), std::process::id());
        fs::create_dir_all(&folder).unwrap();
        folder
    }

    #[test]
    fn a_file_that_shrinks_between_two_looks() {
        let shrunk = |left: u64| format!("it shrank while it was read: {left} of 200000 bytes are left");
        let packed = packed_after(|video, _| video.set_len(100_000).unwrap(), io::sink());
        assert_eq!(packed, Err(format!("VIDEO: {}", shrunk(100_000))));
        let packed = packed_after(|_, audio| audio.set_len(199_999).unwrap(), io::sink());
        assert_eq!(packed, Err(format!("AUDIO: {}", shrunk(199_999))));
        let packed = packed_after(|video, _| video.set_len(0).unwrap(), io::sink());
        assert_eq!(packed, Err(format!("VIDEO: {}", shrunk(0))));
    }

    #[test]
    fn a_file_that_grows() {
        let grown = "it grew while it was read: it had 200000 bytes";
        let packed = packed_after(|video, _| video.set_len(200_001).unwrap(), io::sink());
        assert_eq!(packed, Err(format!("VIDEO: {grown}")));
        let packed = packed_after(|_, audio| audio.set_len(1 << 20).unwrap(), io::sink());
        assert_eq!(packed, Err(format!("AUDIO: {grown}")));
        assert!(packed_after(|_, _| {}, io::sink()).is_ok());
    }

    /// A writer that is interrupted once, and then full.
    struct Full(bool);

    impl io::Write for Full {
        fn write(&mut self, _: &[u8]) -> io::Result<usize> {
            let kind = if self.0 { io::ErrorKind::StorageFull } else { io::ErrorKind::Interrupted };
            self.0 = true;
            Err(kind.into())
        }

        fn flush(&mut self) -> io::Result<()> {
            Ok(())
        }
    }

    #[test]
    fn the_film_is_named_where_it_can_not_be_written() {
        assert_eq!(packed_after(|_, _| {}, Full(false)), Err("FILM: no storage space".to_string()));
    }
}
