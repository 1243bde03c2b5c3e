//! What is written: to a full disk, to a reader that goes, and to a terminal.

use std::io::Write;
use std::thread;
use std::time::Duration;

use crate::support::{Folder, KEY, example};

#[test]
fn a_full_disk_is_an_error() {
    let folder = Folder::with_films();
    folder.write("old.usm", &example("old.usm"));
    let full = "usm: standard output: No space left on device\n";
    for words in [
        "info f.usm",
        "info --json f.usm",
        "info --json cut.usm 2>&1 >/dev/full | tail -n 1 >&2; exit ${PIPESTATUS[0]} #",
        "list f.usm",
        "list --csv f.usm",
        "list --json f.usm",
        "table f.usm",
        "table --json f.usm",
        "table --at 32 --csv song.usm",
        "keys 1 2",
        "keys --json 1 2",
        "extract song.usm --force",
        "pack song.usm -o film.usm --force",
        "pack song.usm -o film.usm --force --json",
        "csv song.usm --force",
        "salvage song.usm --force",
        "salvage song.usm --force --json",
        "from-old old.usm --force",
        "from-old old.usm --force --json",
        "to-old old.moved.usm --force",
        "to-old old.moved.usm --force --json",
        "profile f.usm",
        "profile --json f.usm",
        "keys 1 2 f.usm",
        "statement <(echo 1,2) f.usm",
        "statement --csv <(echo 1,2) f.usm",
        "statement --json <(echo 1,2) f.usm",
        "--help",
        "info --help",
        "--version",
        "completions bash",
    ] {
        let run = folder.shell(&format!("$USM {words} > /dev/full"));
        assert_eq!((run.status, run.err.as_str()), (2, full), "{words}");
    }
    assert_eq!(folder.read("lark.m2v").len(), 1453, "the streams were written before");
}

#[test]
fn the_first_failure_stops_the_run() {
    let folder = Folder::with_films();
    let run = folder.shell("$USM extract song.usm f.usm empty.usm > /dev/full");
    assert_eq!(run.status, 2);
    assert!(folder.path("lark.m2v").exists() && !folder.path("f.m2v").exists());
}

#[test]
fn a_reader_that_goes_is_no_news() {
    let folder = Folder::new();
    let film = films::large(b"x", 64 << 20);
    let chunks = usm::count(&film, usm::Reading::default()).unwrap();
    for number in 0..7 {
        folder.write(&format!("{number}.usm"), &film);
    }
    let run = folder.shell("$USM list ?.usm | head -n 1; exit ${PIPESTATUS[0]}");
    run.expect(2, &format!("0.usm: {chunks} chunks\n"), "");
}

/// Runs the command on a terminal, with a film that comes in two parts. Gives what the terminal shows.
fn on_a_terminal(pause: u64, redirect: &str) -> String {
    let folder = Folder::new();
    assert_eq!(folder.shell("mkfifo slow.usm").status, 0);
    let fifo = folder.path("slow.usm");
    let writer = thread::spawn(move || {
        let film = films::large(b"x", 1 << 20);
        let mut pipe = std::fs::File::create(fifo).unwrap();
        pipe.write_all(&film[..1 << 19]).unwrap();
        thread::sleep(Duration::from_millis(pause));
        pipe.write_all(&film[1 << 19..]).unwrap();
    });
    let run = folder.shell(&format!("script -qec \"$USM info slow.usm {redirect}\" /dev/null"));
    writer.join().unwrap();
    assert_eq!(run.status, 0);
    assert!(run.out.contains("name    x"), "{}", run.out);
    run.out
}

#[test]
fn progress_shows_on_a_terminal_from_one_second_on() {
    let shown = on_a_terminal(2200, "");
    assert!(shown.contains(" 512.00 KiB, ") && shown.contains("/s, 1s"), "{shown:?}");
    let before = on_a_terminal(400, "");
    assert!(!before.contains("/s"), "{before:?}");
    let elsewhere = on_a_terminal(2200, "2>/dev/null");
    assert!(!elsewhere.contains("/s"), "{elsewhere:?}");
}

#[test]
fn the_same_with_many_at_once() {
    let folder = Folder::with_films();
    for number in 0..30 {
        let mut film = films::large(b"x", 3000 + number * 40_000);
        if number % 7 == 3 {
            film.truncate(film.len() - 70);
        }
        folder.write(&format!("{number:02}.usm"), &film);
    }
    let commands = [
        "info",
        "list",
        "table",
        "info --json",
        "list --json",
        "list --csv",
        "profile",
        "profile --json",
        "keys 1 2",
        "statement <(echo 3,2; echo 1,4; echo 2,2)",
        "statement --csv <(echo 3,2; echo 1,4; echo 2,2)",
    ];
    for command in commands {
        let one = folder.shell(&format!("$USM {command} ."));
        let many = folder.shell(&format!("$USM {command} -j ."));
        assert_eq!(one.status, 1, "{}", one.err);
        assert!(one.out.len() > 1000, "{command}: {}", one.out);
        assert_eq!(many, one, "{command}");
    }
}

#[test]
fn an_extraction_of_many_under_a_key_is_quiet() {
    let folder = Folder::with_films();
    folder.usm(&["extract", "-j", "-q", "-k", KEY, "song.usm", "f.usm"]).expect(0, "", "");
}

#[test]
fn errors_that_nobody_can_read_change_nothing() {
    let folder = Folder::with_films();
    assert_eq!(folder.shell("$USM info cut.usm f.usm 2> /dev/full").status, 1);
    assert_eq!(folder.shell("$USM info none.usm 2> /dev/full").status, 2);
    assert_eq!(folder.shell("$USM keys x y 2> /dev/full").status, 2);
    assert_eq!(folder.shell("$USM nothing 2> /dev/full").status, 2);
    assert_eq!(folder.shell("$USM keys 99 99 2> /dev/full").status, 0);
}
