//! A folder for each test, films in it, and the command run there.

use std::fs;
use std::io::Write;
use std::path::{Path, PathBuf};
use std::process::{Command, Output, Stdio};
use std::sync::atomic::{AtomicUsize, Ordering};

use films::{Film, Header, Value, table};

pub const USM: &str = env!("CARGO_BIN_EXE_usm");
pub const KEY: &str = "0123456789ABCDEF";

/// A folder that is removed at the end of a test.
pub struct Folder(pub PathBuf);

impl Folder {
    pub fn new() -> Folder {
        static COUNT: AtomicUsize = AtomicUsize::new(0);
        let number = COUNT.fetch_add(1, Ordering::Relaxed);
        let path = Path::new(env!("CARGO_TARGET_TMPDIR")).join(format!("{}-{number}", std::process::id()));
        fs::create_dir_all(&path).unwrap();
        Folder(path)
    }

    /// A folder with the films of the examples: f.usm, cut.usm, empty.usm and song.usm.
    pub fn with_films() -> Folder {
        let folder = Folder::new();
        let f = films::f();
        folder.write("f.usm", &f);
        folder.write("cut.usm", &f[..428]);
        folder.write("empty.usm", &f[..301]);
        folder.write("song.usm", &example("song.usm"));
        folder
    }

    pub fn path(&self, name: &str) -> PathBuf {
        self.0.join(name)
    }

    pub fn write(&self, name: &str, bytes: &[u8]) -> PathBuf {
        let path = self.path(name);
        fs::write(&path, bytes).unwrap();
        path
    }

    pub fn read(&self, name: &str) -> Vec<u8> {
        fs::read(self.path(name)).unwrap()
    }

    /// All names in it, hidden ones too, in their order.
    pub fn names(&self) -> Vec<String> {
        names(&self.0)
    }

    pub fn usm(&self, words: &[&str]) -> Run {
        self.run(Command::new(USM).args(words))
    }

    pub fn usm_with(&self, words: &[&str], input: &[u8]) -> Run {
        let mut child = Command::new(USM)
            .args(words)
            .current_dir(&self.0)
            .stdin(Stdio::piped())
            .stdout(Stdio::piped())
            .stderr(Stdio::piped())
            .spawn()
            .unwrap();
        child.stdin.take().unwrap().write_all(input).ok();
        Run::of(child.wait_with_output().unwrap())
    }

    /// Runs a line of shell here; `$USM` is the command.
    pub fn shell(&self, line: &str) -> Run {
        self.run(Command::new("bash").args(["-c", line]).env("USM", USM))
    }

    fn run(&self, command: &mut Command) -> Run {
        Run::of(command.current_dir(&self.0).stdin(Stdio::null()).output().unwrap())
    }
}

impl Drop for Folder {
    fn drop(&mut self) {
        fs::remove_dir_all(&self.0).ok();
    }
}

pub fn names(folder: &Path) -> Vec<String> {
    let mut names: Vec<String> =
        fs::read_dir(folder).unwrap().map(|entry| entry.unwrap().file_name().into_string().unwrap()).collect();
    names.sort();
    names
}

/// What a run wrote, and its status.
#[derive(Debug, PartialEq)]
pub struct Run {
    pub status: i32,
    pub out: String,
    pub err: String,
}

impl Run {
    fn of(output: Output) -> Run {
        Run {
            status: output.status.code().unwrap_or(-1),
            out: String::from_utf8(output.stdout).unwrap(),
            err: String::from_utf8(output.stderr).unwrap(),
        }
    }

    pub fn expect(&self, status: i32, out: &str, err: &str) {
        assert_eq!((self.status, self.out.as_str(), self.err.as_str()), (status, out, err));
    }
}

/// A file that examples/films.c writes.
pub fn example(name: &str) -> Vec<u8> {
    fs::read(Path::new(env!("CARGO_MANIFEST_DIR")).join("../usm/tests").join(name)).unwrap()
}

/// A small film of a name, with video and audio.
pub fn named(name: &[u8], video: &[u8], audio: &[u8]) -> Vec<u8> {
    let mut film = Film::new(&Header { name: Some(name), video_codec: Some(1), audio: Some(Some(4)) });
    film.chunk(b"@SFV", 0, 0, video);
    film.chunk(b"@SFA", 0, 0, audio);
    film.end(b"@SFV");
    film.end(b"@SFA");
    film.bytes
}

/// A film without chunks, whose header has these columns for the streams.
pub fn described(video: &[(&str, Value)], audio: &[(&str, Value)]) -> Vec<u8> {
    let row = |columns: &[(&str, Value)]| {
        let names: Vec<&[u8]> = columns.iter().map(|(name, _)| name.as_bytes()).collect();
        let values: Vec<Value> = columns.iter().map(|(_, value)| *value).collect();
        table(&names, &[&values])
    };
    Film::with_tables(&row(&[("filename", Value::Text(b"talkie.usm"))]), &row(video), Some(&row(audio))).bytes
}

/// One with all that a header may say of the streams.
pub fn talkie() -> Vec<u8> {
    described(
        &[
            ("width", Value::Number(1280)),
            ("height", Value::SignedNumber(720)),
            ("mpeg_codec", Value::Byte(9)),
            ("total_frames", Value::Number(300)),
            ("framerate_n", Value::Number(30000)),
            ("framerate_d", Value::Short(1001)),
        ],
        &[
            ("audio_codec", Value::Byte(4)),
            ("sampling_rate", Value::Number(48000)),
            ("num_channels", Value::Byte(2)),
            ("total_samples", Value::Long(480_480)),
        ],
    )
}

/// A film with ADX audio in two languages, on channels 0 and 1 by turns.
pub fn dubbed() -> Vec<u8> {
    let mut film = Film::new(&Header { audio: Some(Some(2)), ..Header::default() });
    film.chunk(b"@SFV", 0, 0, b"picture");
    for english in [&b"english "[..], b"english"] {
        film.chunk(b"@SFA", 0, 0, english);
        film.chunk(b"@SFA", 1, 0, b"francais...");
    }
    film.end(b"@SFV");
    film.end(b"@SFA");
    film.bytes
}

pub fn is_root() -> bool {
    fs::metadata("/proc/self").is_ok_and(|own| std::os::unix::fs::MetadataExt::uid(&own) == 0)
}

/// A file system of 64 KiB in the folder `disk`, until it is dropped.
pub struct SmallDisk<'a>(&'a Folder);

impl SmallDisk<'_> {
    /// Nothing where it can't be mounted.
    pub fn new(folder: &Folder) -> Option<SmallDisk<'_>> {
        fs::create_dir(folder.path("disk")).unwrap();
        let is_mounted = is_root() && folder.shell("mount -t tmpfs -o size=64k tmpfs disk").status == 0;
        is_mounted.then_some(SmallDisk(folder))
    }
}

impl Drop for SmallDisk<'_> {
    fn drop(&mut self) {
        self.0.shell("umount disk");
    }
}
