//! Lists of films, those that failed, and the summary.

use std::fs;

use crate::support::{Folder, SmallDisk};

#[test]
fn films_from_a_list() {
    let folder = Folder::with_films();
    folder.write("list", b"f.usm\n\nsong.usm\n");
    assert_eq!(folder.usm(&["profile", "--files-from", "list"]).out.lines().count(), 2);
    assert_eq!(folder.usm(&["profile", "empty.usm", "--files-from", "list"]).out.lines().count(), 3);
    let by_input = folder.usm_with(&["profile", "--null", "--files-from", "-"], b"f.usm\0song.usm\0");
    assert_eq!(by_input.out.lines().count(), 2, "{by_input:?}");
    fs::write(folder.path("--force"), films::f()).unwrap();
    fs::write(folder.path("two\nlines.usm"), films::f()).unwrap();
    let run = folder
        .shell("find . -name '*force' -print0 -o -name '*lines.usm' -print0 | $USM profile --null --files-from -");
    assert_eq!((run.status, run.out.lines().count()), (0, 2), "{run:?}");
    assert_eq!(folder.usm(&["profile", "--files-from", "none"]).status, 2);
    assert_eq!(folder.usm(&["profile", "-", "--files-from", "-"]).status, 2);
}

#[test]
fn what_failed_can_be_done_again() {
    let folder = Folder::with_films();
    let words = ["profile", "--summary", "--failed", "again", "f.usm", "cut.usm", "none.usm"];
    let run = folder.usm(&words);
    assert!(run.err.ends_with("\nusm: 3 films: 1 done, 1 refused, 1 failed\n"), "{}", run.err);
    assert_eq!(folder.read("again"), b"cut.usm\nnone.usm\n");
    folder.write("cut.usm", &films::f());
    folder.write("none.usm", &films::f());
    let run = folder.usm(&["profile", "--files-from", "again", "--failed", "again", "--summary"]);
    assert!(run.err.ends_with("usm: 2 films: 2 done, 0 refused, 0 failed\n"), "{}", run.err);
    assert_eq!(folder.read("again"), b"");
}

/// The list takes the place of no film, and stays as it was where there is no room for a new one.
#[test]
fn a_list_destroys_nothing() {
    let folder = Folder::with_films();
    let film = folder.read("f.usm");
    let run = folder.usm(&["profile", "f.usm", "--failed", "f.usm"]);
    assert_eq!((run.status, run.err.as_str()), (2, "usm: f.usm: it is a film of this run\n"));
    assert_eq!(folder.read("f.usm"), film);
    let Some(_disk) = SmallDisk::new(&folder) else {
        eprintln!("SKIPPED: a full disk needs root and mount");
        return;
    };
    folder.shell("echo before > disk/list; cat /dev/zero > disk/filler");
    let run = folder.usm(&["profile", "cut.usm", "--failed", "disk/list"]);
    assert!(run.status == 2 && run.err.contains("disk/list: No space left"), "{run:?}");
    assert_eq!(folder.read("disk/list"), b"before\n");
}

#[test]
fn a_name_of_two_lines_needs_zero_bytes() {
    let folder = Folder::new();
    fs::write(folder.path("two\nlines.usm"), b"no film").unwrap();
    let run = folder.usm(&["info", "--failed", "again", "."]);
    assert!(run.status == 2 && run.err.contains("a name has more than one line: give --null"), "{run:?}");
    assert_eq!(folder.usm(&["info", "--failed", "again", "--null", "."]).status, 1);
    assert_eq!(folder.read("again"), b"./two\nlines.usm\0");
}

#[test]
fn hints_are_for_people() {
    let folder = Folder::with_films();
    folder.write("old.usm", &crate::support::example("old.usm"));
    let shown = folder.shell("script -qec \"$USM info cut.usm old.usm\" /dev/null").out;
    assert!(shown.contains("usm salvage saves") && shown.contains("usm from-old moves them"), "{shown}");
    assert!(!folder.usm(&["info", "cut.usm", "old.usm"]).err.contains("hint"));
}
