//! Which films a run works on: what the arguments name, each file once.

use std::collections::HashMap;
use std::ffi::OsStr;
use std::fs::{self, FileType};
use std::os::unix::fs::FileTypeExt;
use std::path::{Path, PathBuf};

use clap::{Args, ValueHint};
use walkdir::{DirEntry, WalkDir};

use crate::files::identity::FileId;
use crate::options::jobs::JobsOption;
use crate::output::text::Shown;
use crate::output::{Error, Message, note};
use crate::run::lists;

/// What every command that works on films takes.
#[derive(Args)]
pub struct Films {
    /// Films, folders of films, or - for standard input
    #[arg(value_name = "FILE", required_unless_present = "files_from", value_hint = ValueHint::AnyPath)]
    pub files: Vec<PathBuf>,
    /// Take more films from a list, a line for each, or with - from standard input
    #[arg(long, value_name = "LIST", value_hint = ValueHint::FilePath)]
    files_from: Option<PathBuf>,
    #[command(flatten)]
    pub options: RunOptions,
}

/// How a run goes through its films.
#[derive(Args, Default)]
pub struct RunOptions {
    #[command(flatten)]
    pub jobs: JobsOption,
    /// Write a JSON object for each film, on a line of its own
    #[arg(long)]
    pub json: bool,
    /// Follow links to files and folders that stand in a folder
    #[arg(long)]
    pub follow_links: bool,
    /// At the end, print on standard error how many films were done, refused and failed
    #[arg(long)]
    pub summary: bool,
    /// Write the names of films that were refused or failed to this file, a line for each; --files-from reads it
    #[arg(long, value_name = "LIST", value_hint = ValueHint::FilePath)]
    pub failed: Option<PathBuf>,
    /// Lists have a zero byte after each name in place of a line's end
    #[arg(long)]
    pub null: bool,
}

impl Films {
    pub fn sources(&self) -> Result<Vec<Source>, Error> {
        self.sources_without("")
    }

    /// The same; in folders, what a command has made by this suffix is passed over.
    pub fn sources_without(&self, suffix: &str) -> Result<Vec<Source>, Error> {
        let mut files = self.files.clone();
        if let Some(list) = &self.files_from {
            if list.as_os_str() == "-" && files.iter().any(|file| file.as_os_str() == "-") {
                return Err(Error::System("standard input can't be a list and a film".to_string()));
            }
            files.extend(lists::read(list, self.options.null)?);
        }
        sources(&files, &self.options, suffix)
    }
}

/// A film to be read.
pub struct Source {
    /// The film's name in messages.
    pub label: PathBuf,
    pub origin: Origin,
    /// Which file it is, where that is known before it is read.
    pub id: Option<FileId>,
    /// Its length, likewise.
    pub length: Option<u64>,
}

/// Where a film comes from.
#[derive(Clone, PartialEq)]
pub enum Origin {
    /// A path of the command line: whatever stands there.
    Named,
    /// A file found in a folder, which is a path of the command line. No link leads to it.
    Below(PathBuf),
    /// The same, with links followed.
    Followed(PathBuf),
    StandardInput,
    /// Nothing can be read, for this reason.
    Unreadable(String),
}

impl Source {
    fn new(label: PathBuf, origin: Origin) -> Source {
        let metadata = match origin {
            Origin::Named | Origin::Below(_) | Origin::Followed(_) => fs::metadata(&label).ok(),
            _ => None,
        };
        let file = metadata.filter(fs::Metadata::is_file);
        let is_empty = matches!(origin, Origin::Unreadable(_));
        let length = file.as_ref().map(fs::Metadata::len).or(is_empty.then_some(0));
        Source { id: file.as_ref().map(FileId::of), length, label, origin }
    }

    /// Its folder below the one that was named, where it was found in one.
    pub fn folder_below(&self) -> Option<PathBuf> {
        match &self.origin {
            Origin::Below(folder) | Origin::Followed(folder) => {
                self.label.strip_prefix(folder).ok()?.parent().map(Path::to_path_buf)
            }
            _ => None,
        }
    }

    /// A path of the command line, or standard input.
    pub fn named(path: &Path) -> Source {
        let origin = if path == Path::new("-") { Origin::StandardInput } else { Origin::Named };
        Source::new(path.to_path_buf(), origin)
    }

    /// A file that was seen already, over links or not. Should it be a pipe by now, it is not waited for.
    pub fn seen(path: &Path) -> Source {
        Source::new(path.to_path_buf(), Origin::Followed(PathBuf::new()))
    }

    fn unreadable(path: &Path, why: impl ToString) -> Source {
        Source::new(path.to_path_buf(), Origin::Unreadable(why.to_string()))
    }
}

/// The films that arguments name, in their order; those of a folder by their names. In a folder, names that contain
/// `.SUFFIX.` are passed over: they are what the command itself has made.
pub fn sources(files: &[PathBuf], options: &RunOptions, suffix: &str) -> Result<Vec<Source>, Error> {
    if files.iter().filter(|file| file.as_os_str() == "-").count() > 1 {
        return Err(Error::System("- stands twice, and standard input can be read once".to_string()));
    }
    let mut found = Vec::new();
    for file in files {
        if file.is_dir() {
            add_folder(file, options, suffix, &mut found);
        } else {
            found.push(Source::named(file));
        }
    }
    Ok(each_once(found))
}

/// Leaves out every file that stands in the list already, under whatever name.
fn each_once(found: Vec<Source>) -> Vec<Source> {
    let mut seen: HashMap<FileId, PathBuf> = HashMap::new();
    let mut sources = Vec::with_capacity(found.len());
    for source in found {
        match source.id.and_then(|id| seen.get(&id)) {
            Some(other) => note(&source.label, &format!("passed over: it is the same file as {}", Shown::path(other))),
            None => {
                seen.extend(source.id.map(|id| (id, source.label.clone())));
                sources.push(source);
            }
        }
    }
    sources
}

/// The films in a folder and in the folders in it. Hidden files and folders are passed over.
fn add_folder(folder: &Path, options: &RunOptions, suffix: &str, sources: &mut Vec<Source>) {
    let before = sources.len();
    let is_visible = |entry: &DirEntry| entry.depth() == 0 || !entry.file_name().as_encoded_bytes().starts_with(b".");
    let walk = WalkDir::new(folder).follow_links(options.follow_links).sort_by_file_name();
    for entry in walk.into_iter().filter_entry(is_visible) {
        match entry {
            Ok(entry) => sources.extend(film_in(folder, &entry, options, suffix)),
            Err(error) => {
                let path = error.path().unwrap_or(folder).to_path_buf();
                let why = error.io_error().map_or_else(|| error.to_string(), Message::message);
                sources.push(Source::unreadable(&path, why));
            }
        }
    }
    if sources.len() == before {
        sources.push(Source::unreadable(folder, "no file in it ends in .usm"));
    }
}

/// An entry of a folder, where it is a film by its name. What is no file is passed over: to open it could wait for ever.
fn film_in(folder: &Path, entry: &DirEntry, options: &RunOptions, suffix: &str) -> Option<Source> {
    let path = entry.path();
    if entry.file_type().is_dir() || !ends_in_usm(path) || is_made(entry.file_name(), suffix) {
        return None;
    }
    if !entry.file_type().is_file() {
        note(path, &format!("passed over: it is {}", kind(entry.file_type())));
        return None;
    }
    let folder = folder.to_path_buf();
    let origin = if options.follow_links { Origin::Followed(folder) } else { Origin::Below(folder) };
    Some(Source::new(path.to_path_buf(), origin))
}

fn kind(file_type: FileType) -> &'static str {
    if file_type.is_symlink() {
        "a link, and --follow-links is not given"
    } else if file_type.is_fifo() {
        "a pipe, not a file"
    } else if file_type.is_socket() {
        "a socket, not a file"
    } else {
        "a device, not a file"
    }
}

fn ends_in_usm(path: &Path) -> bool {
    path.extension().is_some_and(|ending| ending.as_encoded_bytes().eq_ignore_ascii_case(b"usm"))
}

/// Whether a command has made a file, by the suffix that it gives to names: `song.salvaged.usm`.
fn is_made(name: &OsStr, suffix: &str) -> bool {
    !suffix.is_empty()
        && name.as_encoded_bytes().split(|&byte| byte == b'.').skip(1).any(|part| part == suffix.as_bytes())
}

#[cfg(test)]
mod tests {
    use super::is_made;

    #[test]
    fn what_a_command_makes() {
        assert!(is_made("song.salvaged.usm".as_ref(), "salvaged"));
        assert!(is_made("song.moved.old.usm".as_ref(), "moved"));
        assert!(!is_made("song.moved.usm".as_ref(), "old"));
        assert!(!is_made("salvagedsong.usm".as_ref(), "salvaged"));
        assert!(!is_made("old.usm".as_ref(), "old"));
        assert!(!is_made("a..usm".as_ref(), ""));
    }
}
