//! The calls of the file system that give files their names. Tests put others in their place, which fail.

use std::fs::{self, File, Metadata};
use std::io;
use std::os::fd::{AsRawFd, IntoRawFd};
use std::path::Path;

use rustix::fd::FromFd;
use rustix::fs::{AtFlags, Mode, OFlags, RenameFlags, cwd, linkat, openat, renameat_with};

use crate::files::identity::FileId;

pub trait FileSystem {
    /// A file of a folder that has no name, and is gone with its last handle. What is written can be read again.
    fn create_unnamed(&self, folder: &Path) -> io::Result<File>;
    /// A new file under a name that nothing has.
    fn create_named(&self, path: &Path) -> io::Result<File>;
    /// Gives a file without a name one that nothing has.
    fn name(&self, file: &File, path: &Path) -> io::Result<()>;
    /// A second name for a file.
    fn link(&self, path: &Path, other: &Path) -> io::Result<()>;
    /// Renames a file to a name that nothing has.
    fn rename_new(&self, from: &Path, to: &Path) -> io::Result<()>;
    /// Renames a file, and replaces what has the name.
    fn rename(&self, from: &Path, to: &Path) -> io::Result<()>;
    /// Exchanges the names of two files, in one step.
    fn exchange(&self, one: &Path, other: &Path) -> io::Result<()>;
    fn remove(&self, path: &Path) -> io::Result<()>;
    /// Which file an open file is.
    fn identity(&self, file: &File) -> io::Result<FileId>;
    /// What stands at a path; a link is not followed.
    fn metadata(&self, path: &Path) -> io::Result<Metadata>;
    /// Has a file's bytes on the disk.
    fn sync(&self, file: &File) -> io::Result<()>;
    /// Has the names of a folder on the disk.
    fn sync_folder(&self, folder: &Path) -> io::Result<()>;
    /// Closes a file. Some file systems say only here that bytes are lost.
    fn close(&self, file: File) -> io::Result<()>;
}

/// Linux itself.
#[derive(Default)]
pub struct Linux;

const NEW_FILE: Mode = Mode::from_bits_truncate(0o666);

impl FileSystem for Linux {
    fn create_unnamed(&self, folder: &Path) -> io::Result<File> {
        // Without /proc such a file can't get a name.
        fs::metadata("/proc/self/fd")?;
        let flags = OFlags::TMPFILE | OFlags::RDWR | OFlags::CLOEXEC;
        Ok(File::from_into_fd(openat(cwd(), folder, flags, NEW_FILE)?))
    }

    fn create_named(&self, path: &Path) -> io::Result<File> {
        File::options().read(true).write(true).create_new(true).open(path)
    }

    fn name(&self, file: &File, path: &Path) -> io::Result<()> {
        let handle = format!("/proc/self/fd/{}", file.as_raw_fd());
        Ok(linkat(cwd(), handle, cwd(), path, AtFlags::SYMLINK_FOLLOW)?)
    }

    fn link(&self, path: &Path, other: &Path) -> io::Result<()> {
        fs::hard_link(path, other)
    }

    fn rename_new(&self, from: &Path, to: &Path) -> io::Result<()> {
        Ok(renameat_with(cwd(), from, cwd(), to, RenameFlags::NOREPLACE)?)
    }

    fn rename(&self, from: &Path, to: &Path) -> io::Result<()> {
        fs::rename(from, to)
    }

    fn exchange(&self, one: &Path, other: &Path) -> io::Result<()> {
        Ok(renameat_with(cwd(), one, cwd(), other, RenameFlags::EXCHANGE)?)
    }

    fn remove(&self, path: &Path) -> io::Result<()> {
        fs::remove_file(path)
    }

    fn identity(&self, file: &File) -> io::Result<FileId> {
        Ok(FileId::of(&file.metadata()?))
    }

    fn metadata(&self, path: &Path) -> io::Result<Metadata> {
        fs::symlink_metadata(path)
    }

    fn sync(&self, file: &File) -> io::Result<()> {
        file.sync_all()
    }

    fn sync_folder(&self, folder: &Path) -> io::Result<()> {
        match File::open(folder)?.sync_all() {
            // Some file systems have nothing to do for a folder, and say so.
            Err(error) if error.kind() == io::ErrorKind::InvalidInput => Ok(()),
            synced => synced,
        }
    }

    fn close(&self, file: File) -> io::Result<()> {
        nix::unistd::close(file.into_raw_fd()).map_err(io::Error::from)
    }
}

/// Whether an error says that the file system does not know a call, so that another way is taken.
pub fn is_unsupported(error: &io::Error) -> bool {
    use rustix::io::Errno;
    let known = [Errno::OPNOTSUPP, Errno::INVAL, Errno::NOSYS, Errno::ISDIR, Errno::PERM, Errno::MLINK, Errno::XDEV];
    known.iter().any(|errno| error.raw_os_error() == Some(errno.raw_os_error()))
}
