//! Where the files go that a run makes of films. None of them replaces a film of the run, nor another file of it.

use std::collections::{HashMap, HashSet};
use std::fs;
use std::io;
use std::path::{Path, PathBuf};
use std::sync::{Mutex, MutexGuard, PoisonError};

use clap::{Args, ValueHint};

use crate::files::identity::FileId;
use crate::files::staged::{EXISTS, NO_FILE, Replacing, StagedFiles};
use crate::output::Error;
use crate::output::text::Shown;
use crate::run::sources::Source;

/// What every command that makes files of films takes.
#[derive(Args)]
pub struct OutputOptions {
    /// Put the files in this folder, which is made if it is not there
    #[arg(long, short, value_name = "DIR", value_hint = ValueHint::DirPath)]
    output: Option<PathBuf>,
    /// With -o, keep the folders of films below the folders that are named
    #[arg(long, requires = "output")]
    tree: bool,
    /// Replace files that are there
    #[arg(long, conflicts_with = "skip_existing")]
    force: bool,
    /// Leave a film out whose files are all there
    #[arg(long)]
    skip_existing: bool,
    /// Do not wait until the files are on the disk
    #[arg(long)]
    no_sync: bool,
    /// Print errors only
    #[arg(long, short)]
    pub quiet: bool,
}

impl OutputOptions {
    /// Whether files that are there are replaced.
    pub fn force(&self) -> bool {
        self.force
    }

    /// Whether files are on the disk before they get their names.
    pub fn is_synced(&self) -> bool {
        !self.no_sync
    }
}

/// The files of a run.
pub struct Targets {
    folder: Option<PathBuf>,
    /// The folders of films below those that are named, where they are kept.
    tree: HashMap<PathBuf, PathBuf>,
    force: bool,
    skip_existing: bool,
    is_synced: bool,
    /// The films of this run.
    films: HashSet<FileId>,
    made: Mutex<Made>,
}

/// What this run makes.
#[derive(Default)]
struct Made {
    /// The files that films have claimed, each with its film.
    claimed: HashMap<PathBuf, PathBuf>,
    /// The files that stand, each with its film.
    written: HashMap<FileId, PathBuf>,
}

/// What is to be done for a film.
#[derive(PartialEq, Debug)]
pub enum Claim {
    /// Its files are to be written.
    Write,
    /// They are all there.
    Skip,
}

impl Targets {
    /// Of these films. The folder is made.
    pub fn new(options: &OutputOptions, sources: &[Source]) -> Result<Targets, Error> {
        let folder = options.output.clone();
        if let Some(folder) = &folder {
            make_folder(folder)?;
        }
        let below = |source: &Source| Some((source.label.clone(), source.folder_below()?));
        Ok(Targets {
            folder,
            tree: if options.tree { sources.iter().filter_map(below).collect() } else { HashMap::new() },
            force: options.force,
            skip_existing: options.skip_existing,
            is_synced: !options.no_sync,
            films: sources.iter().filter_map(|source| source.id).collect(),
            made: Mutex::default(),
        })
    }

    /// Whether the files have a folder of their own.
    pub fn have_folder(&self) -> bool {
        self.folder.is_some()
    }

    /// A file of a film, by its name: in the folder of the run, or beside the film.
    pub fn target(&self, label: &Path, name: &str) -> PathBuf {
        let beside = label.parent().filter(|folder| !folder.as_os_str().is_empty()).unwrap_or(Path::new("."));
        match (&self.folder, self.tree.get(label)) {
            (None, _) => beside.join(name),
            (Some(folder), None) => folder.join(name),
            (Some(folder), Some(below)) => folder.join(below).join(name),
        }
    }

    /// Claims files for a film, before any of their bytes is written. None may be another's of this run, and none may be
    /// there, unless by force.
    pub fn claim(&self, label: &Path, targets: &[PathBuf]) -> Result<Claim, Error> {
        let mut made = self.made();
        let mut places = Vec::new();
        for target in targets {
            if self.tree.contains_key(label)
                && let Some(folder) = target.parent()
            {
                make_folder(folder)?;
            }
            let place = whole(target).map_err(|error| Error::with(target, error))?;
            if let Some(other) = made.claimed.get(&place) {
                return Err(Error::with(target, format!("this run writes it for {}", Shown::path(other))));
            }
            places.push(place);
        }
        let there: Vec<&PathBuf> = targets.iter().filter(|target| target.symlink_metadata().is_ok()).collect();
        for target in &there {
            if target.symlink_metadata().is_ok_and(|metadata| self.films.contains(&FileId::of(&metadata))) {
                return Err(Error::with(target, FILM));
            }
        }
        if self.skip_existing && !targets.is_empty() && there.len() == targets.len() {
            return Ok(Claim::Skip);
        }
        for target in there {
            if target.symlink_metadata().is_ok_and(|metadata| !metadata.is_file()) {
                return Err(Error::with(target, NO_FILE));
            }
            if !self.force {
                return Err(Error::with(target, EXISTS));
            }
        }
        made.claimed.extend(places.into_iter().map(|place| (place, label.to_path_buf())));
        Ok(Claim::Write)
    }

    /// Files to be written.
    pub fn staged(&self) -> StagedFiles {
        StagedFiles::new(self.is_synced)
    }

    /// Gives a film's files their names. Neither a film of this run nor a file that it wrote is replaced, even by force.
    pub fn place(&self, label: &Path, staged: StagedFiles) -> Result<(), Error> {
        let is_kept = |id: FileId| match self.made().written.get(&id) {
            Some(other) => Some(format!("this run wrote it for {}", Shown::path(other))),
            None => self.films.contains(&id).then(|| FILM.to_string()),
        };
        let placed = staged.place(&Replacing { force: self.force, is_kept: &is_kept })?;
        self.made().written.extend(placed.into_iter().map(|id| (id, label.to_path_buf())));
        Ok(())
    }

    fn made(&self) -> MutexGuard<'_, Made> {
        self.made.lock().unwrap_or_else(PoisonError::into_inner)
    }
}

/// Said of a target that is one of the films.
const FILM: &str = "it is a film of this run";

fn make_folder(folder: &Path) -> Result<(), Error> {
    if folder.as_os_str() == "-" {
        return Err(Error::System("-o names a folder; ./- is one of that name".to_string()));
    }
    if fs::metadata(folder).is_ok_and(|there| !there.is_dir()) {
        return Err(Error::with(folder, "it is a file, not a folder"));
    }
    fs::create_dir_all(folder).map_err(|error| Error::with(folder, error))
}

/// A file by the one name of its folder.
fn whole(target: &Path) -> io::Result<PathBuf> {
    let folder = target.parent().unwrap_or(Path::new(".")).canonicalize()?;
    Ok(folder.join(target.file_name().unwrap_or_default()))
}
