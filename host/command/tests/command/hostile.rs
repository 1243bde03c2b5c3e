//! Uploads: what stands in folders beside films, and names that a terminal or a spreadsheet would obey.

use std::fs::{self, File};
use std::os::unix::fs::{FileTypeExt, symlink};
use std::process::{Command, Stdio};
use std::time::{Duration, Instant};

use crate::support::{Folder, USM, is_root, named, names};

/// Runs a line of shell that must not take longer than some seconds.
fn in_time(folder: &Folder, line: &str) -> crate::support::Run {
    folder.shell(&format!("USM=\"timeout 20 $USM\"; {line}"))
}

#[test]
fn what_is_no_file_in_a_folder_is_passed_over() {
    let folder = Folder::with_films();
    fs::create_dir(folder.path("up")).unwrap();
    folder.write("up/a.usm", &films::f());
    assert_eq!(folder.shell("mkfifo up/pipe.usm").status, 0);
    let _socket = std::os::unix::net::UnixListener::bind(folder.path("up/socket.usm")).unwrap();
    symlink("/dev/zero", folder.path("up/zero.usm")).unwrap();
    symlink("../song.usm", folder.path("up/link.usm")).unwrap();
    symlink("..", folder.path("up/loop")).unwrap();
    for command in ["info", "list", "extract -q", "profile", "salvage", "csv", "statement <(echo 1,2)", "keys 1 2"] {
        let run = in_time(&folder, &format!("$USM {command} up"));
        assert_eq!(run.status, 0, "{command}: {}", run.err);
        let notes = "usm: note: up/link.usm: passed over: it is a link, and --follow-links is not given\n\
                     usm: note: up/pipe.usm: passed over: it is a pipe, not a file\n\
                     usm: note: up/socket.usm: passed over: it is a socket, not a file\n\
                     usm: note: up/zero.usm: passed over: it is a link, and --follow-links is not given\n";
        assert_eq!(run.err, notes, "{command}");
    }
    assert!(!folder.path("up/lark.m2v").exists(), "what a link leads to is not extracted beside it");
    let run = in_time(&folder, "$USM info --follow-links up");
    assert!(run.out.contains("up/link.usm\nname    songs/lark.usm\n"), "{}", run.out);
    assert!(run.err.contains("up/zero.usm: passed over: it is a device, not a file\n"), "{}", run.err);
}

#[test]
fn hidden_entries_are_passed_over() {
    let folder = Folder::new();
    fs::create_dir_all(folder.path(".Trash")).unwrap();
    folder.write(".Trash/old.usm", &films::f());
    folder.write(".hidden.usm", &films::f());
    folder.write("a.usm", &films::f());
    let run = folder.usm(&["profile", "."]);
    assert_eq!((run.out.lines().count(), run.err.as_str()), (1, ""));
    assert_eq!(folder.usm(&["profile", ".hidden.usm", ".Trash"]).out.lines().count(), 2, "what is named is done");
}

#[test]
fn a_pipe_that_is_named_is_read() {
    let folder = Folder::with_films();
    let run = in_time(&folder, "mkfifo pipe.usm; cat f.usm > pipe.usm & $USM list pipe.usm");
    assert!(run.status == 0 && run.out.starts_with("pipe.usm: 2 chunks\n"), "{run:?}");
    // A device without an end is read to the limit of a film.
    let run = in_time(&folder, "ulimit -d 100000; $USM info /dev/zero");
    assert!(run.status == 2 && run.err.starts_with("usm: /dev/zero: no memory for "), "{run:?}");
}

#[test]
fn one_entry_that_can_not_be_read_loses_no_other() {
    if is_root() {
        eprintln!("SKIPPED: root may read every folder");
        return;
    }
    let folder = Folder::new();
    fs::create_dir(folder.path("closed")).unwrap();
    fs::set_permissions(folder.path("closed"), std::os::unix::fs::PermissionsExt::from_mode(0o000)).unwrap();
    folder.write("open.usm", &films::f());
    let run = folder.usm(&["profile", "."]);
    assert_eq!((run.status, run.out.lines().count()), (2, 1), "{run:?}");
}

#[test]
fn standard_input_can_be_read_once() {
    let twice = "usm: - stands twice, and standard input can be read once\n";
    Folder::new().usm(&["info", "-", "-"]).expect(2, "", twice);
}

#[test]
fn a_device_is_not_replaced_by_force() {
    let folder = Folder::with_films();
    assert_eq!(folder.shell("mkfifo film.usm").status, 0);
    let run = in_time(&folder, "$USM pack song.usm -o film.usm --force");
    run.expect(2, "", "usm: film.usm: it is no regular file, and --force replaces no others\n");
    assert!(fs::symlink_metadata(folder.path("film.usm")).unwrap().file_type().is_fifo());
}

#[test]
fn streams_are_not_replaced_by_their_film() {
    let folder = Folder::with_films();
    let run = folder.usm(&["pack", "song.usm", "-o", "song.usm", "--force"]);
    run.expect(2, "", "usm: song.usm: it is one of the streams\n");
}

/// A target that is another name of a film of the run.
#[test]
fn a_film_under_another_name_is_not_replaced() {
    let folder = Folder::with_films();
    fs::hard_link(folder.path("f.usm"), folder.path("lark.m2v")).unwrap();
    let run = folder.usm(&["extract", "--force", "song.usm", "f.usm"]);
    assert!(run.err.starts_with("usm: song.usm: ./lark.m2v: it is a film of this run\n"), "{}", run.err);
    assert_eq!(folder.read("f.usm"), films::f());
}

#[test]
fn a_folder_that_is_a_file() {
    let folder = Folder::with_films();
    folder.usm(&["extract", "f.usm", "-o", "song.usm"]).expect(2, "", "usm: song.usm: it is a file, not a folder\n");
    assert_eq!(folder.usm(&["extract", "f.usm", "-o", "-"]).status, 2);
    assert!(!folder.path("-").exists());
}

#[test]
fn names_of_255_bytes() {
    let folder = Folder::with_films();
    let long = format!("{}.usm", "x".repeat(251));
    folder.usm(&["pack", "song.usm", "-q", "-o", &long]).expect(0, "", "");
    folder.usm(&["pack", "song.usm", "-q", "--force", "-o", &long]).expect(0, "", "");
    assert!(folder.path(&long).exists());
    assert_eq!(folder.names().len(), 5);
}

/// A film that is slow holds back what is printed, and no file of another film. What is stopped leaves nothing.
#[test]
fn one_slow_film_holds_back_no_other() {
    let folder = Folder::new();
    for number in 1..=3 {
        folder.write(&format!("{number}.usm"), &named(format!("film{number}").as_bytes(), &[7; 5000], &[8; 50]));
    }
    assert_eq!(folder.shell("mkfifo slow.usm").status, 0);
    let mut child = Command::new(USM)
        .args(["extract", "-j", "2", "slow.usm", "1.usm", "2.usm", "3.usm", "-o", "out"])
        .current_dir(&folder.0)
        .stdout(Stdio::null())
        .spawn()
        .unwrap();
    // Opened for writing, and nothing comes.
    let _pipe = File::options().write(true).open(folder.path("slow.usm")).unwrap();
    let begun = Instant::now();
    let is_done = || fs::read_dir(folder.path("out")).is_ok_and(|out| out.count() == 6);
    while !is_done() && begun.elapsed() < Duration::from_secs(20) {
        std::thread::sleep(Duration::from_millis(10));
    }
    assert!(is_done(), "all others have their names");
    assert!(folder.shell(&format!("kill -TERM {}", child.id())).status == 0);
    assert!(!child.wait().unwrap().success());
    assert_eq!(names(&folder.path("out")).len(), 6, "nothing is left over");
}

#[test]
fn a_run_that_is_repeated_goes_on() {
    let folder = Folder::with_films();
    folder.usm(&["extract", "-q", "song.usm"]).expect(0, "", "");
    let run = folder.usm(&["extract", "--skip-existing", "song.usm", "f.usm"]);
    run.expect(0, "song.usm\nskipped: its files are there\n\nf.usm\nvideo  32 bytes: ./f.m2v\n", "");
    fs::remove_file(folder.path("lark.adx")).unwrap();
    let half = "usm: song.usm: ./lark.m2v: the file is there already; --force replaces it\n";
    folder.usm(&["extract", "--skip-existing", "song.usm"]).expect(2, "", half);
    assert_eq!(folder.usm(&["extract", "--skip-existing", "--force", "f.usm"]).status, 2);
}

#[test]
fn json_moves_no_terminal() {
    let folder = Folder::new();
    folder.write("film.usm", &named("evil\u{9b}2Jx\u{202e}abc\u{7f}".as_bytes(), b"", b""));
    for command in ["info", "extract"] {
        let run = folder.usm(&[command, "--json", "film.usm"]);
        assert!(run.out.contains(r"evil\u009b2Jx\u202eabc\u007f"), "{command}: {}", run.out);
        assert!(run.out.chars().all(|character| !character.is_control() || character == '\n'), "{}", run.out);
    }
}

/// Runs the command on a terminal, and gives what the terminal gets.
fn on_a_terminal(folder: &Folder, words: &str) -> String {
    folder.shell(&format!("script -qec \"$USM {words}\" /dev/null")).out
}

#[test]
fn csv_moves_no_terminal() {
    let folder = Folder::new();
    folder.write("evil.usm", &named(b"\x1b]0;PWNED\x07", b"", b""));
    let film = folder.read("evil.usm");
    fs::write(folder.0.join("\u{1b}[5m.usm"), &film).unwrap();
    let at = "--at 32 --csv evil.usm";
    // As data the name is hex, so that a table with a text is needed.
    folder.write("table", &films::table(&[b"a"], &[&[films::Value::Text(b"\x1b]0;PWNED\x07")]]));
    let refused = on_a_terminal(&folder, "table --at 0 --csv table");
    assert!(refused.contains("bytes that a terminal would obey") && !refused.contains('\u{1b}'), "{refused:?}");
    assert!(on_a_terminal(&folder, &format!("table {at}")).contains("filename"));
    for words in ["list --csv .", "statement --csv <(echo 1,2) ."] {
        let shown = on_a_terminal(&folder, words);
        assert!(shown.contains("\\u{1b}[5m.usm") && !shown.contains('\u{1b}'), "{words}: {shown:?}");
    }
    assert!(folder.usm(&["list", "--csv", "."]).out.contains("\u{1b}[5m.usm"), "in a file CSV is exact");
}

#[test]
fn a_number_of_workers() {
    let folder = Folder::with_films();
    for words in ["-j 2 f.usm song.usm", "-j2 f.usm song.usm", "-j f.usm song.usm", "f.usm song.usm -j 64"] {
        let run = folder.shell(&format!("$USM profile {words}"));
        assert_eq!(run.out.lines().count(), 2, "{words}: {run:?}");
    }
}
