//! The streams of a film, read, made clear and written piece by piece.

use std::fs::File;
use std::io::{BufWriter, Write};
use std::path::Path;

use rustix::fs::copy_file_range;
use usm::{ChunkHead, ChunkKind, Reader, Stream};

use crate::files::staged::StagedFiles;
use crate::output::Error;
use crate::run::input::Input;
use crate::run::progress::Meter;

/// Payloads that are shorter are gathered before they are written.
const GATHERED: usize = 32 << 10;

/// Payloads that are shorter are not worth a call to copy them.
const COPIED: usize = 16 << 10;

/// Which file a payload goes to, by the stream and the channel of its chunk; none where it is left out.
pub type Routes<'r> = &'r dyn Fn(Stream, u8) -> Option<usize>;

/// Writes the streams to files that are begun, each payload to the one that its route says. Gives the files' sizes.
pub fn write(
    reader: &mut Reader<&mut Input>,
    key: Option<u64>,
    routes: Routes,
    staged: &mut StagedFiles,
    meter: &Meter,
) -> Result<Vec<usize>, Error> {
    let mut files = staged.files();
    let mut outputs: Vec<Output> = files.iter_mut().map(|(file, target)| Output::new(file, target)).collect();
    match (key, &**reader.get_ref()) {
        (None, Input::File { .. }) => copy(reader, routes, &mut outputs, meter)?,
        _ => write_parts(reader, key, routes, &mut outputs, meter)?,
    }
    outputs.into_iter().map(Output::end).collect()
}

/// Writes one stream to a writer. Nothing can be taken back there, so that all chunks are looked at first.
pub fn write_one(
    reader: &mut Reader<&mut Input>,
    key: Option<u64>,
    stream: Stream,
    to: &mut impl Write,
) -> Result<(), Error> {
    while let Some(part) = reader.next_part(key)? {
        if part.stream == stream {
            to.write_all(part.bytes).map_err(Error::Output)?;
        }
    }
    Ok(())
}

/// A file that is being written.
struct Output<'f> {
    writer: BufWriter<&'f mut File>,
    target: &'f Path,
    size: usize,
}

impl<'f> Output<'f> {
    fn new(file: &'f mut File, target: &'f Path) -> Output<'f> {
        Output { writer: BufWriter::with_capacity(GATHERED, file), target, size: 0 }
    }

    fn write(&mut self, bytes: &[u8]) -> Result<(), Error> {
        self.size += bytes.len();
        self.writer.write_all(bytes).map_err(|error| Error::with(self.target, error))
    }

    /// Copies as much of a payload as the kernel can.
    fn copy(&mut self, input: &Input, chunk: &ChunkHead) -> Result<usize, Error> {
        let flushed = self.writer.flush();
        let copied = flushed.and_then(|()| copy_payload(input, chunk, self.writer.get_ref()));
        let copied = copied.map_err(|error| Error::with(self.target, error))?;
        self.size += copied;
        Ok(copied)
    }

    /// Has all bytes in the file.
    fn end(mut self) -> Result<usize, Error> {
        self.writer.flush().map_err(|error| Error::with(self.target, error))?;
        Ok(self.size)
    }
}

/// The streams pass through a window.
fn write_parts(
    reader: &mut Reader<&mut Input>,
    key: Option<u64>,
    routes: Routes,
    outputs: &mut [Output],
    meter: &Meter,
) -> Result<(), Error> {
    while let Some(part) = reader.next_part(key)? {
        if let Some(number) = routes(part.stream, part.channel) {
            outputs[number].write(part.bytes)?;
        }
        meter.reach(reader.place());
    }
    Ok(())
}

/// As they are stored, the streams need not pass through this program: the kernel copies them. Short payloads are
/// gathered all the same, because a call for each costs more.
fn copy(reader: &mut Reader<&mut Input>, routes: Routes, outputs: &mut [Output], meter: &Meter) -> Result<(), Error> {
    while let Some(chunk) = reader.next_chunk()? {
        let stream = match chunk.kind {
            ChunkKind::Video => Stream::Video,
            ChunkKind::Audio => Stream::Audio,
            _ => continue,
        };
        // A payload that is skipped, or empty.
        if chunk.length == 0 {
            continue;
        }
        let Some(number) = routes(stream, chunk.channel) else { continue };
        let output = &mut outputs[number];
        let mut copied = 0;
        if chunk.length >= COPIED {
            copied = output.copy(reader.get_ref(), &chunk)?;
        }
        // Where the file system can't copy, or not between these two, the rest goes through the window.
        while copied < chunk.length {
            let bytes = reader.payload_from(&chunk, copied)?;
            output.write(bytes)?;
            copied += bytes.len();
        }
        meter.reach(reader.place());
    }
    Ok(())
}

fn copy_payload(input: &Input, chunk: &ChunkHead, to: &File) -> std::io::Result<usize> {
    use rustix::io::Errno;
    let Input::File { file, start, .. } = input else { return Ok(0) };
    let mut copied = 0;
    while copied < chunk.length {
        let mut from = start + (chunk.payload + copied) as u64;
        match copy_file_range(file, Some(&mut from), to, None, (chunk.length - copied) as u64) {
            Ok(0) => break,
            Ok(count) => copied += count as usize,
            Err(Errno::XDEV | Errno::INVAL | Errno::NOSYS | Errno::OPNOTSUPP | Errno::PERM) => break,
            Err(Errno::INTR) => {}
            Err(error) => return Err(error.into()),
        }
    }
    Ok(copied)
}
