//! Whatever call fails, nothing is lost, and either all files stand or none does.

use std::cell::Cell;
use std::collections::BTreeMap;
use std::fs::{self, File, Metadata};
use std::io::{self, Error as IoError};
use std::path::{Path, PathBuf};
use std::sync::atomic::{AtomicUsize, Ordering};

use super::{FileId, FileSystem, Linux, Replacing, StagedFiles};

/// Linux, but for calls that fail: those of a kind always, and the one of a number.
struct Failing<'a> {
    always: &'a [&'static str],
    errno: i32,
    failing: usize,
    count: &'a Cell<usize>,
}

const EPERM: i32 = 1;
const EIO: i32 = 5;

impl Failing<'_> {
    fn call(&self, name: &'static str) -> io::Result<()> {
        if self.always.contains(&name) {
            return Err(IoError::from_raw_os_error(self.errno));
        }
        self.count.set(self.count.get() + 1);
        if self.count.get() == self.failing { Err(IoError::from_raw_os_error(EIO)) } else { Ok(()) }
    }
}

impl FileSystem for Failing<'_> {
    fn create_unnamed(&self, folder: &Path) -> io::Result<File> {
        self.call("create_unnamed").and_then(|()| Linux.create_unnamed(folder))
    }
    fn create_named(&self, path: &Path) -> io::Result<File> {
        self.call("create_named").and_then(|()| Linux.create_named(path))
    }
    fn name(&self, file: &File, path: &Path) -> io::Result<()> {
        self.call("name").and_then(|()| Linux.name(file, path))
    }
    fn link(&self, path: &Path, other: &Path) -> io::Result<()> {
        self.call("link").and_then(|()| Linux.link(path, other))
    }
    fn rename_new(&self, from: &Path, to: &Path) -> io::Result<()> {
        self.call("rename_new").and_then(|()| Linux.rename_new(from, to))
    }
    fn rename(&self, from: &Path, to: &Path) -> io::Result<()> {
        self.call("rename").and_then(|()| Linux.rename(from, to))
    }
    fn exchange(&self, one: &Path, other: &Path) -> io::Result<()> {
        self.call("exchange").and_then(|()| Linux.exchange(one, other))
    }
    fn remove(&self, path: &Path) -> io::Result<()> {
        self.call("remove").and_then(|()| Linux.remove(path))
    }
    fn identity(&self, file: &File) -> io::Result<FileId> {
        self.call("identity").and_then(|()| Linux.identity(file))
    }
    fn metadata(&self, path: &Path) -> io::Result<Metadata> {
        self.call("metadata").and_then(|()| Linux.metadata(path))
    }
    fn sync(&self, file: &File) -> io::Result<()> {
        self.call("sync").and_then(|()| Linux.sync(file))
    }
    fn sync_folder(&self, folder: &Path) -> io::Result<()> {
        self.call("sync_folder").and_then(|()| Linux.sync_folder(folder))
    }
    fn close(&self, file: File) -> io::Result<()> {
        let failed = self.call("close");
        Linux.close(file).and(failed)
    }
}

struct Folder(PathBuf);

impl Folder {
    fn new() -> Folder {
        static COUNT: AtomicUsize = AtomicUsize::new(0);
        let number = COUNT.fetch_add(1, Ordering::Relaxed);
        let path = std::env::temp_dir().join(format!("usm-staged-{}-{number}", std::process::id()));
        fs::create_dir(&path).unwrap();
        Folder(path)
    }

    /// All files, with what is in them.
    fn contents(&self) -> BTreeMap<String, Vec<u8>> {
        let entries = fs::read_dir(&self.0).unwrap().map(|entry| entry.unwrap());
        entries.map(|entry| (entry.file_name().into_string().unwrap(), fs::read(entry.path()).unwrap())).collect()
    }
}

impl Drop for Folder {
    fn drop(&mut self) {
        fs::remove_dir_all(&self.0).ok();
    }
}

const NONE_KEPT: Replacing = Replacing { force: true, is_kept: &|_| None };

/// Writes the files one and two by force, with calls that fail.
fn replace(folder: &Folder, system: Failing) -> bool {
    let mut staged = StagedFiles::with(system, true);
    let write = |staged: &mut StagedFiles<Failing>| {
        staged.write(folder.0.join("one"), b"new one")?;
        staged.write(folder.0.join("two"), b"new two")
    };
    write(&mut staged).and_then(|()| staged.place(&NONE_KEPT)).is_ok()
}

/// The ways of a file system: which calls it does not know.
const WAYS: [&[&str]; 5] = [
    &[],
    &["create_unnamed"],
    &["exchange"],
    &["create_unnamed", "exchange", "link"],
    &["create_unnamed", "exchange", "link", "rename_new"],
];

#[test]
fn whatever_call_fails_the_old_files_are_there() {
    for always in WAYS {
        let (mut failing, mut tried) = (1, 0);
        loop {
            let folder = Folder::new();
            fs::write(folder.0.join("one"), b"old one").unwrap();
            fs::write(folder.0.join("two"), b"old two").unwrap();
            let count = Cell::new(0);
            let is_done = replace(&folder, Failing { always, errno: EPERM, failing, count: &count });
            let contents = folder.contents();
            let holds = |text: &str| contents.values().any(|bytes| bytes == text.as_bytes());
            if is_done {
                assert_eq!(contents["one"], b"new one", "{always:?} {failing}");
                assert_eq!(contents["two"], b"new two", "{always:?} {failing}");
            } else {
                assert!(holds("old one") && holds("old two"), "{always:?} {failing}: {contents:?}");
                tried += 1;
            }
            if count.get() < failing {
                assert_eq!(contents.len(), 2, "nothing is left: {contents:?}");
                break;
            }
            failing += 1;
        }
        assert!(tried >= 8, "{always:?}: {tried} failures");
    }
}

#[test]
fn one_failure_leaves_the_old_files_under_their_names() {
    for always in WAYS {
        for failing in 1..30 {
            let folder = Folder::new();
            fs::write(folder.0.join("one"), b"old one").unwrap();
            fs::write(folder.0.join("two"), b"old two").unwrap();
            if !replace(&folder, Failing { always, errno: EPERM, failing, count: &Cell::new(0) }) {
                let contents = folder.contents();
                assert_eq!(
                    (&contents["one"][..], &contents["two"][..]),
                    (&b"old one"[..], &b"old two"[..]),
                    "{failing}"
                );
            }
        }
    }
}

/// Before a file gets its name nothing needs to be put back, so that one failure leaves nothing at all.
#[test]
fn a_file_that_is_not_begun_leaves_nothing() {
    for always in WAYS {
        for failing in 1..10 {
            let folder = Folder::new();
            let system = Failing { always, errno: EPERM, failing, count: &Cell::new(0) };
            let mut staged = StagedFiles::with(system, true);
            let begun = ["one", "two"].iter().all(|name| staged.create(folder.0.join(name)).is_ok());
            drop(staged);
            assert!(begun || folder.contents().is_empty(), "{always:?} {failing}: {:?}", folder.contents());
        }
    }
}

#[test]
fn links_and_renames_that_both_fail_lose_nothing() {
    let folder = Folder::new();
    fs::write(folder.0.join("one"), b"the only copy").unwrap();
    let always = ["exchange", "link", "rename_new", "rename", "name"];
    assert!(!replace(&folder, Failing { always: &always, errno: EPERM, failing: 0, count: &Cell::new(0) }));
    assert_eq!(folder.contents().get("one").map(Vec::as_slice), Some(&b"the only copy"[..]));
}

#[test]
fn what_is_no_file_is_not_replaced() {
    let folder = Folder::new();
    std::os::unix::fs::symlink("elsewhere", folder.0.join("one")).unwrap();
    let mut staged = StagedFiles::new(false);
    staged.write(folder.0.join("one"), b"new").unwrap();
    assert!(staged.place(&NONE_KEPT).is_err());
    assert_eq!(fs::read_link(folder.0.join("one")).unwrap(), Path::new("elsewhere"));
}

#[test]
fn files_without_a_name_leave_nothing() {
    let folder = Folder::new();
    let mut staged = StagedFiles::new(true);
    staged.write(folder.0.join("one"), b"new").unwrap();
    let is_unnamed = folder.contents().is_empty();
    drop(staged);
    assert!(folder.contents().is_empty());
    // Where the file system has no files without names, this says nothing of them.
    assert!(is_unnamed || Linux.create_unnamed(&folder.0).is_err());
}

#[test]
fn a_name_of_255_bytes() {
    let folder = Folder::new();
    let long = folder.0.join("x".repeat(255));
    for force in [false, true] {
        let mut staged = StagedFiles::new(false);
        staged.write(long.clone(), b"new").unwrap();
        staged.place(&Replacing { force, is_kept: &|_| None }).unwrap_or_else(|_| panic!("it has its name"));
    }
    assert_eq!(folder.contents().len(), 1);
}
