//! A film that is open, and how its bytes are read.

use std::fs::File;
use std::io::{self, Cursor, ErrorKind, Read, Seek, SeekFrom};
use std::os::fd::AsFd;
use std::os::unix::fs::FileExt;
use std::path::Path;

use rustix::fd::FromFd;
use rustix::fs::{Mode, OFlags, ResolveFlags, cwd, openat, openat2};
use usm::{Reader, Reading, Refusal};

use crate::files::identity::Identity;
use crate::output::Error;
use crate::run::progress::Meter;
use crate::run::sources::{Origin, Source};

/// An open film.
pub enum Input {
    /// A file, from where it stood to its end. It is read at places: to seek costs no call.
    File { file: File, start: u64, length: u64, place: u64 },
    /// A pipe or a device, whose length nobody knows.
    Pipe(File),
    /// What a pipe gave.
    Memory(Cursor<Vec<u8>>),
}

impl Source {
    /// Opens the film. A file of a folder is opened without waiting, and only where it is a file still.
    pub fn open(&self) -> Result<Input, Error> {
        let file = match &self.origin {
            Origin::Named => File::open(&self.label),
            Origin::StandardInput => io::stdin().as_fd().try_clone_to_owned().map(File::from),
            Origin::Below(folder) => open_below(folder, &self.label),
            Origin::Followed(_) => open_at_once(&self.label, OFlags::empty()),
            Origin::Unreadable(why) => return Err(Error::System(why.clone())),
        };
        let mut file = file.map_err(Error::io)?;
        let metadata = file.metadata().map_err(Error::io)?;
        if !metadata.is_file() {
            return match self.origin {
                Origin::Below(_) | Origin::Followed(_) => Err(Error::System("it is not a file any more".to_string())),
                _ => Ok(Input::Pipe(file)),
            };
        }
        let start = file.stream_position().map_err(Error::io)?;
        let length = metadata.len().saturating_sub(start);
        Refusal::by_length(length)?;
        Ok(Input::File { file, start, length, place: start })
    }
}

/// Opens a file in a folder. No link is followed on the way, so that none that was put there meanwhile leads elsewhere.
fn open_below(folder: &Path, path: &Path) -> io::Result<File> {
    let Ok(below) = path.strip_prefix(folder) else { return open_at_once(path, OFlags::NOFOLLOW) };
    let root = openat(cwd(), folder, OFlags::DIRECTORY | OFlags::RDONLY | OFlags::CLOEXEC, Mode::empty())?;
    let flags = OFlags::RDONLY | OFlags::NONBLOCK | OFlags::CLOEXEC;
    let resolve = ResolveFlags::BENEATH | ResolveFlags::NO_SYMLINKS;
    match openat2(&root, below, flags, Mode::empty(), resolve) {
        Ok(file) => Ok(File::from_into_fd(file)),
        // A kernel before 5.6, or a sandbox that does not know the call.
        Err(rustix::io::Errno::NOSYS | rustix::io::Errno::PERM) => open_at_once(path, OFlags::NOFOLLOW),
        Err(error) => Err(error.into()),
    }
}

/// Opens a file without waiting for a writer, should it be a pipe by now.
fn open_at_once(path: &Path, more: OFlags) -> io::Result<File> {
    let flags = OFlags::RDONLY | OFlags::NONBLOCK | OFlags::CLOEXEC | more;
    Ok(File::from_into_fd(openat(cwd(), path, flags, Mode::empty())?))
}

/// So much of a file is read between two looks at the meter.
const PIECE: u64 = 64 << 20;

/// The same of a pipe, which may be slow.
const PIPE_PIECE: u64 = 1 << 16;

/// Room for what a pipe gives grows by so much.
const GROWTH: usize = 16 << 20;

impl Input {
    /// A file that this run has written, of so many bytes.
    pub fn of(file: &File, length: u64) -> Result<Input, Error> {
        let file = file.try_clone().map_err(Error::io)?;
        Ok(Input::File { file, start: 0, length, place: 0 })
    }

    /// The film's length, where it is known: of a pipe once it is read.
    pub fn length(&self) -> u64 {
        match self {
            Input::File { length, .. } => *length,
            Input::Pipe(_) => 0,
            Input::Memory(bytes) => bytes.get_ref().len() as u64,
        }
    }

    /// Which file it is now, and when it was changed; `None` of what is no file.
    pub fn identity(&self) -> Result<Option<Identity>, Error> {
        match self {
            Input::File { file, .. } => file.metadata().map(|file| Some(Identity::of(&file))).map_err(Error::io),
            _ => Ok(None),
        }
    }

    /// The film, to be read piece by piece. What a pipe gives is in memory then.
    pub fn reader(&mut self, reading: Reading, meter: &Meter) -> Result<Reader<&mut Input>, Error> {
        self.hold(meter)?;
        Ok(Reader::new(self, reading)?)
    }

    /// Has what a pipe gives in memory.
    pub fn hold(&mut self, meter: &Meter) -> Result<(), Error> {
        if let Input::Pipe(_) = self {
            let mut bytes = Vec::new();
            self.read_all(&mut bytes, meter)?;
            *self = Input::Memory(Cursor::new(bytes));
        }
        Ok(())
    }

    /// Back to the film's first byte. A pipe has given all it has, and stays where it is.
    pub fn restart(&mut self) {
        match self {
            Input::File { start, place, .. } => *place = *start,
            Input::Pipe(_) => {}
            Input::Memory(bytes) => bytes.set_position(0),
        }
    }

    /// All its bytes, in the place of what was in a buffer.
    pub fn read_all(&mut self, bytes: &mut Vec<u8>, meter: &Meter) -> Result<(), Error> {
        match self {
            Input::File { file, length, .. } => {
                read_file(file, *length, bytes, meter)?;
                self.check_end()
            }
            Input::Pipe(file) => read_pipe(file, bytes, meter),
            Input::Memory(read) => {
                make_room(bytes, read.get_ref().len())?;
                bytes.extend_from_slice(read.get_ref());
                Ok(())
            }
        }
    }

    /// Said where a file is over before its length is reached.
    pub fn shrank(&self) -> Error {
        match self {
            Input::File { start, length, place, .. } => shrank(place.saturating_sub(*start), *length),
            _ => shrank(self.length(), self.length()),
        }
    }

    /// A file that has grown since it was opened is still being written.
    pub fn check_end(&self) -> Result<(), Error> {
        let Input::File { file, start, length, .. } = self else { return Ok(()) };
        match file.read_exact_at(&mut [0], start + length) {
            Ok(()) => Err(Error::System(format!("it grew while it was read: it had {length} bytes"))),
            Err(error) if error.kind() == ErrorKind::UnexpectedEof => Ok(()),
            Err(error) => Err(Error::io(error)),
        }
    }
}

impl Read for Input {
    fn read(&mut self, room: &mut [u8]) -> io::Result<usize> {
        match self {
            Input::File { file, place, .. } => {
                let count = file.read_at(room, *place)?;
                *place += count as u64;
                Ok(count)
            }
            Input::Pipe(file) => file.read(room),
            Input::Memory(bytes) => bytes.read(room),
        }
    }
}

impl Seek for Input {
    /// The end of a file is where it was when the file was opened.
    fn seek(&mut self, to: SeekFrom) -> io::Result<u64> {
        match self {
            Input::File { start, length, place, .. } => {
                *place = match to {
                    SeekFrom::Start(at) => at,
                    SeekFrom::Current(from) => place.saturating_add_signed(from),
                    SeekFrom::End(from) => (*start + *length).saturating_add_signed(from),
                };
                Ok(*place)
            }
            Input::Pipe(file) => file.seek(to),
            Input::Memory(bytes) => bytes.seek(to),
        }
    }
}

/// Reads a file, whose length is known.
fn read_file(file: &mut File, length: u64, bytes: &mut Vec<u8>, meter: &Meter) -> Result<(), Error> {
    make_room(bytes, length as usize)?;
    while (bytes.len() as u64) < length {
        let left = length - bytes.len() as u64;
        match file.take(left.min(PIECE)).read_to_end(bytes).map_err(Error::io)? {
            0 => return Err(shrank(bytes.len() as u64, length)),
            count => meter.advance(count as u64),
        }
    }
    Ok(())
}

fn shrank(left: u64, length: u64) -> Error {
    Error::System(format!("it shrank while it was read: {left} of {length} bytes are left"))
}

/// Reads a pipe or a device to its end, or to the first byte that is too many.
fn read_pipe(file: &mut File, bytes: &mut Vec<u8>, meter: &Meter) -> Result<(), Error> {
    bytes.clear();
    loop {
        if bytes.len() == bytes.capacity() {
            bytes.try_reserve_exact(GROWTH).map_err(|_| no_memory(bytes.len() + GROWTH))?;
        }
        let room = (bytes.capacity() - bytes.len()) as u64;
        let read = file.take(room.min(PIPE_PIECE)).read_to_end(bytes).map_err(Error::io)?;
        if read == 0 {
            return Ok(());
        }
        meter.advance(read as u64);
        Refusal::by_length(bytes.len() as u64)?;
    }
}

/// Empties a buffer and makes room in it, for exactly so many bytes where it has less.
pub fn make_room(bytes: &mut Vec<u8>, size: usize) -> Result<(), Error> {
    bytes.clear();
    if bytes.capacity() < size {
        *bytes = Vec::new();
        bytes.try_reserve_exact(size).map_err(|_| no_memory(size))?;
    }
    Ok(())
}

fn no_memory(size: usize) -> Error {
    Error::System(format!("no memory for {size} bytes"))
}

/// What a worker needs memory for. It goes from film to film, so that small films cost no new memory each.
#[derive(Default)]
pub struct Buffers {
    pub film: Vec<u8>,
    /// For what is made of a film.
    pub made: Vec<u8>,
}

/// A buffer that is larger is not kept.
const KEPT: usize = 16 << 20;

impl Buffers {
    /// Gives back what is large.
    pub fn shrink(&mut self) {
        for buffer in [&mut self.film, &mut self.made] {
            if buffer.capacity() > KEPT {
                *buffer = Vec::new();
            }
        }
    }
}
