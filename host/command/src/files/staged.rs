//! The files of a film: all of them appear, complete, or none does.
//!
//! A file has no name until all files of its film are complete, so that nothing is left of it whatever ends the run.
//! Where a file system has no such files it stands under a hidden name, which is removed on the usual signals.
//!
//! A file that is replaced is never removed before the new ones stand: both exchange their names in one step, or the
//! old one gets a second name first. Whatever call fails, one of its names leads to it.

use std::fs::File;
use std::io::{self, ErrorKind, Write};
use std::path::{Path, PathBuf};
use std::process;
use std::sync::atomic::{AtomicUsize, Ordering};

use crate::files::identity::FileId;
use crate::files::leftovers;
use crate::files::system::{FileSystem, Linux, is_unsupported};
use crate::output::text::Shown;
use crate::output::{Error, Message};

/// Files that are complete and have no names yet. They are gone when this is dropped.
pub struct StagedFiles<S: FileSystem = Linux> {
    files: Vec<StagedFile>,
    is_synced: bool,
    system: S,
}

/// How files get their names.
pub struct Replacing<'a> {
    /// Files that are there are replaced.
    pub force: bool,
    /// Why a file that is there must not be replaced even so.
    pub is_kept: IsKept<'a>,
}

/// Why a file must not be replaced, if it must not.
pub type IsKept<'a> = &'a dyn Fn(FileId) -> Option<String>;

struct StagedFile {
    file: File,
    id: FileId,
    target: PathBuf,
    /// Its hidden name, where it has one.
    hidden: Option<PathBuf>,
}

/// A file under its name.
struct Placed {
    target: PathBuf,
    id: FileId,
    /// The file that had the name before, under a hidden one.
    replaced: Option<PathBuf>,
}

impl StagedFiles {
    /// None yet. Those to come are synced to the disk before they get their names.
    pub fn new(is_synced: bool) -> StagedFiles {
        StagedFiles::with(Linux, is_synced)
    }
}

impl<S: FileSystem> StagedFiles<S> {
    fn with(system: S, is_synced: bool) -> StagedFiles<S> {
        StagedFiles { files: Vec::new(), is_synced, system }
    }

    /// The files, each with its target.
    pub fn files(&mut self) -> Vec<(&mut File, &Path)> {
        self.files.iter_mut().map(|staged| (&mut staged.file, &*staged.target)).collect()
    }

    /// Whether a file may have a name, for those who want to know it before there is one to be named.
    pub fn check(&self, target: &Path, replacing: &Replacing) -> Result<(), Error> {
        replacing.check(&self.system, target).map(|_| ())
    }

    /// Begins a file, in the folder of its target.
    pub fn create(&mut self, target: PathBuf) -> Result<&mut File, Error> {
        let folder = folder_of(&target);
        let (file, hidden) = match self.system.create_unnamed(folder) {
            Err(error) if is_unsupported(&error) || error.kind() == ErrorKind::NotFound => self.create_hidden(folder),
            created => created.map(|file| (file, None)),
        }
        .map_err(|error| Error::with(&target, error))?;
        match self.system.identity(&file) {
            Ok(id) => self.files.push(StagedFile { file, id, target, hidden }),
            Err(error) => {
                hidden.iter().for_each(|hidden| self.discard(hidden));
                return Err(Error::with(&target, error));
            }
        }
        let last = self.files.len() - 1;
        Ok(&mut self.files[last].file)
    }

    /// A file under a hidden name, where the file system has none without.
    fn create_hidden(&self, folder: &Path) -> io::Result<(File, Option<PathBuf>)> {
        let _held = leftovers::hold();
        loop {
            let hidden = hidden_name(folder);
            match self.system.create_named(&hidden) {
                Err(error) if error.kind() == ErrorKind::AlreadyExists => {}
                Err(error) => return Err(error),
                Ok(file) => {
                    leftovers::add(&hidden);
                    return Ok((file, Some(hidden)));
                }
            }
        }
    }

    /// Writes a file whole.
    pub fn write(&mut self, target: PathBuf, bytes: &[u8]) -> Result<(), Error> {
        let named = target.clone();
        self.create(target)?.write_all(bytes).map_err(|error| Error::with(&named, error))
    }

    /// Gives every file its name. Where one can't have it, those before it are undone. What was written comes back, by
    /// its identity.
    pub fn place(mut self, replacing: &Replacing) -> Result<Vec<FileId>, Error> {
        if self.is_synced {
            for staged in &self.files {
                self.system.sync(&staged.file).map_err(|error| Error::with(&staged.target, error))?;
            }
        }
        // A run that is stopped meanwhile ends with all names or none.
        let _held = leftovers::hold();
        let mut placed = Vec::new();
        let result = self.place_all(replacing, &mut placed).and_then(|()| self.close_all());
        if let Err(error) = result {
            return Err(self.undo(placed, error));
        }
        for replaced in placed.iter().filter_map(|one| one.replaced.as_deref()) {
            self.system.remove(replaced).ok();
        }
        Ok(placed.iter().map(|one| one.id).collect())
    }

    fn place_all(&mut self, replacing: &Replacing, placed: &mut Vec<Placed>) -> Result<(), Error> {
        for staged in &mut self.files {
            placed.push(staged.place(&self.system, replacing)?);
        }
        if self.is_synced {
            let mut folders: Vec<&Path> = placed.iter().map(|one| folder_of(&one.target)).collect();
            folders.dedup();
            for folder in folders {
                self.system.sync_folder(folder).map_err(|error| Error::with(folder, error))?;
            }
        }
        Ok(())
    }

    fn close_all(&mut self) -> Result<(), Error> {
        for staged in self.files.drain(..) {
            self.system.close(staged.file).map_err(|error| Error::with(&staged.target, error))?;
        }
        Ok(())
    }

    /// Removes a file under a hidden name.
    fn discard(&self, hidden: &Path) {
        self.system.remove(hidden).ok();
        leftovers::forget(hidden);
    }

    /// Undoes what was placed before something failed.
    fn undo(&self, placed: Vec<Placed>, error: Error) -> Error {
        placed.iter().rev().fold(error, |error, one| match one.undo(&self.system) {
            Ok(()) => error,
            Err(more) => error.and(&more),
        })
    }
}

/// Said of a file that is there already.
pub const EXISTS: &str = "the file is there already; --force replaces it";

impl StagedFile {
    fn place(&mut self, system: &impl FileSystem, replacing: &Replacing) -> Result<Placed, Error> {
        match replacing.check(system, &self.target)? {
            Target::Free => self.place_new(system),
            Target::Replaced => self.replace(system),
        }
    }

    /// Gives the file a name that nothing has.
    fn place_new(&mut self, system: &impl FileSystem) -> Result<Placed, Error> {
        let named = match &self.hidden {
            None => system.name(&self.file, &self.target),
            Some(hidden) => match system.rename_new(hidden, &self.target) {
                Err(error) if is_unsupported(&error) => system.rename(hidden, &self.target),
                renamed => renamed,
            },
        };
        match named {
            Ok(()) => self.forget_hidden(),
            Err(error) if error.kind() == ErrorKind::AlreadyExists => return Err(Error::with(&self.target, EXISTS)),
            Err(error) => return Err(Error::with(&self.target, error)),
        }
        Ok(Placed { target: self.target.clone(), id: self.id, replaced: None })
    }

    /// Puts the file in the place of another. That one has a hidden name afterwards.
    fn replace(&mut self, system: &impl FileSystem) -> Result<Placed, Error> {
        let failed = |error: io::Error| Error::with(&self.target, error);
        let hidden = match &self.hidden {
            Some(hidden) => hidden.clone(),
            None => self.name_hidden(system).map_err(failed)?,
        };
        self.hidden = Some(hidden.clone());
        let replaced = match system.exchange(&hidden, &self.target) {
            Ok(()) => {
                self.forget_hidden();
                self.check_replaced(system, &hidden)?;
                hidden
            }
            Err(error) if is_unsupported(&error) => {
                let replaced = put_aside(system, &self.target, &hidden)?;
                self.forget_hidden();
                replaced
            }
            Err(error) => return Err(Error::with(&self.target, error)),
        };
        Ok(Placed { target: self.target.clone(), id: self.id, replaced: Some(replaced) })
    }

    fn name_hidden(&self, system: &impl FileSystem) -> io::Result<PathBuf> {
        loop {
            let hidden = hidden_name(folder_of(&self.target));
            match system.name(&self.file, &hidden) {
                Err(error) if error.kind() == ErrorKind::AlreadyExists => {}
                named => {
                    leftovers::add(&hidden);
                    return named.map(|()| hidden);
                }
            }
        }
    }

    /// What came out of an exchange may be another than was looked at. If it is no file it goes back.
    fn check_replaced(&self, system: &impl FileSystem, hidden: &Path) -> Result<(), Error> {
        match system.metadata(hidden) {
            Ok(metadata) if metadata.is_file() => Ok(()),
            _ => {
                system.exchange(hidden, &self.target).map_err(|error| lost(&self.target, hidden, &error))?;
                system.remove(hidden).ok();
                Err(Error::with(&self.target, NO_FILE))
            }
        }
    }

    /// The hidden name is not this file's any more.
    fn forget_hidden(&mut self) {
        if let Some(hidden) = self.hidden.take() {
            leftovers::forget(&hidden);
        }
    }
}

/// What a name leads to, for which there is a new file.
enum Target {
    Free,
    /// A file that may be replaced.
    Replaced,
}

impl Replacing<'_> {
    /// Whether a new file may have a name.
    fn check(&self, system: &impl FileSystem, target: &Path) -> Result<Target, Error> {
        let there = match system.metadata(target) {
            Err(error) if error.kind() == ErrorKind::NotFound => return Ok(Target::Free),
            there => there.map_err(|error| Error::with(target, error))?,
        };
        if !there.is_file() {
            return Err(Error::with(target, NO_FILE));
        }
        if !self.force {
            return Err(Error::with(target, EXISTS));
        }
        match (self.is_kept)(FileId::of(&there)) {
            Some(why) => Err(Error::with(target, why)),
            None => Ok(Target::Replaced),
        }
    }
}

/// Said of what is not replaced, by force or without.
pub const NO_FILE: &str = "it is no regular file, and --force replaces no others";

/// Replaces a file where names can't be exchanged. The old one gets a second name first, or, where there are no links, is
/// moved to one.
fn put_aside(system: &impl FileSystem, target: &Path, new: &Path) -> Result<PathBuf, Error> {
    let aside = hidden_name(folder_of(target));
    let is_moved = match system.link(target, &aside) {
        Ok(()) => false,
        Err(error) if is_unsupported(&error) => {
            match system.rename_new(target, &aside) {
                Err(error) if is_unsupported(&error) => system.rename(target, &aside),
                renamed => renamed,
            }
            .map_err(|error| Error::with(target, error))?;
            true
        }
        Err(error) => return Err(Error::with(target, error)),
    };
    let Err(error) = system.rename(new, target) else { return Ok(aside) };
    if is_moved {
        system.rename(&aside, target).map_err(|error| lost(target, &aside, &error))?;
    } else {
        system.remove(&aside).ok();
    }
    Err(Error::with(target, error))
}

/// Said where a file can't be put back. It is there still.
fn lost(target: &Path, kept: &Path, error: &io::Error) -> Error {
    Error::with(target, format!("{}; the file that was there is now {}", error.message(), Shown::path(kept)))
}

impl Placed {
    fn undo(&self, system: &impl FileSystem) -> Result<(), Error> {
        match &self.replaced {
            Some(replaced) => {
                system.rename(replaced, &self.target).map_err(|error| lost(&self.target, replaced, &error))
            }
            None => match system.metadata(&self.target) {
                // Another's file by now.
                Ok(metadata) if FileId::of(&metadata) != self.id => Ok(()),
                _ => system.remove(&self.target).map_err(|error| {
                    Error::with(&self.target, format!("it can't be removed again: {}", error.message()))
                }),
            },
        }
    }
}

fn folder_of(target: &Path) -> &Path {
    target.parent().filter(|folder| !folder.as_os_str().is_empty()).unwrap_or(Path::new("."))
}

/// A short hidden name in a folder, none of them twice in a run.
fn hidden_name(folder: &Path) -> PathBuf {
    static COUNT: AtomicUsize = AtomicUsize::new(0);
    let number = COUNT.fetch_add(1, Ordering::Relaxed);
    folder.join(format!(".usm-{}-{number}.part", process::id()))
}

impl<S: FileSystem> Drop for StagedFiles<S> {
    fn drop(&mut self) {
        let files = std::mem::take(&mut self.files);
        files.into_iter().filter_map(|staged| staged.hidden).for_each(|hidden| self.discard(&hidden));
    }
}

#[cfg(test)]
#[path = "staged_tests.rs"]
mod tests;
