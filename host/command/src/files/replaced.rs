//! A file that a person names for something that is written, such as a page or a list: it appears whole, in the place of
//! the one before, or not at all.

use std::fs::{self, File};
use std::io::{BufWriter, Write};
use std::path::Path;

use crate::files::staged::{IsKept, Replacing, StagedFiles};
use crate::output::Error;

/// Writes a file, in the place of one that is there. What is there and is no regular file, such as a pipe, is written to
/// as it is.
pub fn write(
    path: &Path,
    is_kept: IsKept,
    fill: impl FnOnce(&mut BufWriter<&mut File>) -> Result<(), Error>,
) -> Result<(), Error> {
    if fs::metadata(path).is_ok_and(|there| !there.is_file()) {
        let mut file = File::options().write(true).open(path).map_err(|error| Error::with(path, error))?;
        return fill_whole(path, &mut file, fill);
    }
    // A link keeps pointing to its file, which is the one that is replaced.
    let target = match fs::read_link(path) {
        Ok(_) => fs::canonicalize(path).map_err(|error| Error::with(path, error))?,
        Err(_) => path.to_path_buf(),
    };
    let mut staged = StagedFiles::new(true);
    fill_whole(path, staged.create(target)?, fill)?;
    staged.place(&Replacing { force: true, is_kept })?;
    Ok(())
}

fn fill_whole(
    path: &Path,
    file: &mut File,
    fill: impl FnOnce(&mut BufWriter<&mut File>) -> Result<(), Error>,
) -> Result<(), Error> {
    let mut file = BufWriter::with_capacity(1 << 16, file);
    fill(&mut file).map_err(|error| error.of(path))?;
    file.flush().map_err(|error| Error::with(path, error))
}
