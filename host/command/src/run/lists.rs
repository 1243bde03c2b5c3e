//! Lists of files: those to be done, and those that failed.

use std::ffi::OsString;
use std::fs::File;
use std::io::{self, Read, Write};
use std::os::unix::ffi::{OsStrExt, OsStringExt};
use std::path::{Path, PathBuf};

use crate::files::replaced;
use crate::files::staged::IsKept;
use crate::output::Error;

/// No list is longer.
const MOST: u64 = 1 << 30;

/// The files of a list, or of standard input. Empty names are left out.
pub fn read(list: &Path, null: bool) -> Result<Vec<PathBuf>, Error> {
    let mut names = Vec::new();
    let read = if list.as_os_str() == "-" {
        io::stdin().take(MOST).read_to_end(&mut names)
    } else {
        File::open(list).and_then(|file| file.take(MOST).read_to_end(&mut names))
    };
    read.map_err(|error| Error::with(list, error))?;
    let end = end_of(null);
    let names = names.split(|&byte| byte == end).filter(|name| !name.is_empty());
    Ok(names.map(|name| OsString::from_vec(name.to_vec()).into()).collect())
}

/// Writes a list, whole, in the place of one that is there. A name with a line's end in it needs zero bytes between names.
pub fn write(list: &Path, null: bool, files: &[&Path], is_kept: IsKept) -> Result<(), Error> {
    let mut text = Vec::new();
    for file in files {
        let name = file.as_os_str().as_bytes();
        if name.contains(&end_of(null)) {
            return Err(Error::with(list, "a name has more than one line: give --null"));
        }
        text.extend_from_slice(name);
        text.push(end_of(null));
    }
    if list.as_os_str() == "-" {
        return io::stdout().write_all(&text).map_err(Error::Output);
    }
    replaced::write(list, is_kept, |file| file.write_all(&text).map_err(|error| Error::with(list, error)))
}

fn end_of(null: bool) -> u8 {
    if null { 0 } else { b'\n' }
}
