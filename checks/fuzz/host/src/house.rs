//! A house in memory: a folder with films, and bills that are made in this process.

use std::fs::{self, File};
use std::io::{Seek, Write};
use std::os::fd::AsRawFd;
use std::panic;
use std::path::{Path, PathBuf};
use std::sync::OnceLock;
use std::time::{Duration, SystemTime};

use clap::{Args, FromArgMatches, Parser};

use crate::commands::bill::Bill;
use crate::output::Status;

unsafe extern "C" {
    fn dup(file: i32) -> i32;
    fn dup2(file: i32, number: i32) -> i32;
}

/// A folder of its own for a harness, empty, where FUZZ_FOLDER says: `run` makes that in memory, and takes it away.
pub fn folder(harness: &str) -> PathBuf {
    let parent = std::env::var_os("FUZZ_FOLDER").map_or_else(std::env::temp_dir, PathBuf::from);
    let folder = parent.join(format!("{harness}-{}", std::process::id()));
    fs::create_dir_all(&folder).expect("a folder in memory");
    folder
}

/// What the command says on standard error is not shown while it runs; a panic is.
pub struct Quiet {
    own: i32,
    nowhere: File,
}

static QUIET: OnceLock<Quiet> = OnceLock::new();

impl Quiet {
    pub fn while_running<T>(run: impl FnOnce() -> T) -> T {
        let quiet = QUIET.get_or_init(Quiet::new);
        unsafe { dup2(quiet.nowhere.as_raw_fd(), 2) };
        let done = run();
        unsafe { dup2(quiet.own, 2) };
        done
    }

    fn new() -> Quiet {
        let own = unsafe { dup(2) };
        let printed = panic::take_hook();
        panic::set_hook(Box::new(move |panic| {
            unsafe { dup2(own, 2) };
            printed(panic);
        }));
        Quiet { own, nowhere: File::options().write(true).open("/dev/null").expect("/dev/null") }
    }
}

#[derive(Parser)]
struct Asked {
    #[command(flatten)]
    bill: Bill,
}

/// A folder with films, and where standard output goes.
pub struct House {
    pub folder: PathBuf,
    printed: PathBuf,
    out: File,
}

const KEY: u64 = 0x0123_4567_89AB_CDEF;

impl House {
    /// Three films: one whose streams no key touches, one that shows all bits that count, and the same streams under
    /// another key.
    pub fn new(harness: &str) -> House {
        let folder = folder(harness);
        let video: Vec<u8> = (0..0x260).map(|byte| (byte * 7) as u8).collect();
        let audio: Vec<u8> = (0..0x150).map(|byte| (byte * 5) as u8).collect();
        let clear = usm::Streams::new(b"a", &video[..100]);
        let masked = usm::Streams::new(b"b", &video).with_audio(&audio).with_codecs(None, Some(2));
        for (name, streams, key) in
            [("a.usm", clear, None), ("b.usm", masked, Some(KEY)), ("c.usm", masked, Some(!KEY))]
        {
            let film = usm::pack(streams, key).expect("a film");
            let mut file = File::create(folder.join(name)).expect("a film's file");
            file.write_all(&film).expect("a film's bytes");
            // A film that has just been changed is not remembered by a ledger.
            file.set_modified(SystemTime::UNIX_EPOCH + Duration::from_secs(1_000_000_000)).expect("a time");
        }
        let printed = folder.join("printed");
        let out = File::options().create(true).truncate(true).read(true).write(true).open(&printed).expect("a file");
        unsafe { dup2(out.as_raw_fd(), 1) };
        House { folder, printed, out }
    }

    /// `usm bill --csv` of holdings, perhaps with a ledger: the status, and what is printed.
    pub fn bill(&self, holdings: &[u8], ledger: Option<&Path>) -> (Status, Vec<u8>) {
        let path = self.folder.join("holdings.csv");
        fs::write(&path, holdings).expect("holdings in memory");
        let mut words = vec!["usm".into(), "--csv".into(), path.into_os_string()];
        words.extend(ledger.into_iter().flat_map(|ledger| ["--ledger".into(), ledger.as_os_str().to_owned()]));
        let asked = Asked::try_parse_from(words).expect("arguments of a bill");
        self.out.set_len(0).expect("an empty file");
        (&self.out).rewind().expect("its beginning");
        let status = Quiet::while_running(|| asked.bill.run());
        (status, fs::read(&self.printed).expect("what was printed"))
    }
}
