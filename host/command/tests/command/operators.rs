//! What operators ask of `extract`: streams to standard output, names, trees, channels; keys that stand on no command line.

use std::fs;

use crate::support::{Folder, KEY, USM, dubbed, example, named, names};

/// Runs a line of shell whose output is bytes.
fn bytes_of(folder: &Folder, line: &str) -> (Option<i32>, Vec<u8>, String) {
    let output =
        std::process::Command::new("bash").args(["-c", line]).env("USM", USM).current_dir(&folder.0).output().unwrap();
    (output.status.code(), output.stdout, String::from_utf8(output.stderr).unwrap())
}

#[test]
fn streams_to_standard_output() {
    let folder = Folder::with_films();
    for (stream, expected) in [("video", "song.video"), ("audio", "song.audio")] {
        for film in ["song.usm", "- < song.usm", "- < <(cat song.usm)"] {
            let (status, out, err) = bytes_of(&folder, &format!("$USM extract -k {KEY} --{stream} - {film}"));
            assert_eq!((status, out, err.as_str()), (Some(0), example(expected), ""), "{stream} {film}");
        }
    }
    let before = folder.names();
    assert_eq!(before, ["cut.usm", "empty.usm", "f.usm", "song.usm"], "no file is made");
    // A film that is refused late has written nothing.
    folder.write("late.usm", &example("song.usm")[..3000]);
    let (status, out, err) = bytes_of(&folder, "$USM extract --video - late.usm");
    assert_eq!((status, out.len()), (Some(1), 0), "{err}");
    let (status, _, err) = bytes_of(&folder, "$USM extract --video - song.usm > /dev/full");
    assert_eq!((status, err.as_str()), (Some(2), "usm: standard output: No space left on device\n"));
    for words in ["--video - --audio - song.usm", "--video - f.usm song.usm", "--video - -o x f.usm"] {
        assert_eq!(folder.shell(&format!("$USM extract {words}")).status, 2, "{words}");
    }
    let shown = folder.shell("script -qec \"$USM extract --video - song.usm\" /dev/null").out;
    assert!(shown.contains("standard output is a terminal"), "{shown}");
}

#[test]
fn streams_to_files_that_are_named() {
    let folder = Folder::with_films();
    let line = format!("$USM extract -k {KEY} song.usm --video v --audio - > a");
    assert_eq!(folder.shell(&line).status, 0);
    assert_eq!((folder.read("v"), folder.read("a")), (example("song.video"), example("song.audio")));
    let there = "usm: song.usm: v: the file is there already; --force replaces it\n";
    folder.usm(&["extract", "song.usm", "--video", "v"]).expect(2, "", there);
    folder.usm(&["extract", "song.usm", "--video", "v", "--audio", "b", "--force"]).expect(0, "", "");
    assert_eq!(folder.read("b").len(), 736);
    let own = "usm: song.usm: song.usm: it is the film\n";
    folder.usm(&["extract", "song.usm", "--video", "song.usm", "--force"]).expect(2, "", own);
    assert_eq!(folder.read("song.usm"), example("song.usm"));
}

#[test]
fn names_by_file_and_by_template() {
    let folder = Folder::new();
    folder.write("a.usm", &named(b"intro", b"one", b""));
    folder.write("b.usm", &named(b"intro", b"two", b""));
    folder.usm(&["extract", "-q", "--name", "file", "-o", "by-file", "."]).expect(0, "", "");
    assert_eq!(names(&folder.path("by-file")), ["a.hca", "a.m2v", "b.hca", "b.m2v"]);
    folder.usm(&["extract", "-q", "--name", "{film} ({file})", "-o", "both", "."]).expect(0, "", "");
    assert_eq!(names(&folder.path("both")), ["intro (a).hca", "intro (a).m2v", "intro (b).hca", "intro (b).m2v"]);
    folder.write("c.usm", &named(b"{file}", b"x", b""));
    folder.usm(&["extract", "-q", "--no-audio", "--name", "../{film}", "-o", "once", "c.usm"]).expect(0, "", "");
    assert_eq!(names(&folder.path("once")), ["_{file}.m2v"], "a name is no template, and no way out of the folder");
    assert_eq!(folder.usm(&["extract", "--name", "constant", "a.usm"]).status, 2);
    let taken = "usm: ./b.usm: by-film/intro.m2v: this run writes it for ./a.usm\n";
    folder.usm(&["extract", "-q", "-j", "2", "-o", "by-film", "a.usm", "./b.usm"]).expect(
        2,
        "",
        &taken.replace("for ./a.usm", "for a.usm"),
    );
}

#[test]
fn a_tree_keeps_its_folders() {
    let folder = Folder::new();
    fs::create_dir_all(folder.path("in/north/deep")).unwrap();
    fs::create_dir_all(folder.path("in/south")).unwrap();
    for place in ["in/north/deep", "in/south", "in"] {
        folder.write(&format!("{place}/intro.usm"), &named(b"intro", b"one", b""));
    }
    folder.usm(&["extract", "-q", "--tree", "-o", "out", "in"]).expect(0, "", "");
    for place in ["out/north/deep", "out/south", "out"] {
        assert!(folder.path(&format!("{place}/intro.m2v")).exists(), "{place}");
    }
    assert_eq!(folder.usm(&["extract", "--tree", "in"]).status, 2, "it takes a folder");
}

#[test]
fn what_a_person_may_not_expect_of_channels() {
    let folder = Folder::new();
    folder.write("film.usm", &dubbed());
    folder.write("song.usm", &example("song.usm"));
    let joined = "usm: note: film.usm: audio of 2 channels is joined in one file; --channels each gives each its own\n";
    let absent = "usm: note: film.usm: no audio is of channel 2: the file is empty\n";
    for (words, note) in [
        (&["film.usm"][..], joined),
        (&["--json", "film.usm"], joined),
        (&["--channel", "2", "film.usm"], absent),
        (&["--channel", "1", "film.usm"], ""),
        (&["--channels", "joined", "film.usm"], ""),
        (&["--channels", "each", "film.usm"], ""),
        (&["--no-audio", "film.usm"], ""),
        (&["-q", "--channel", "2", "film.usm"], ""),
        (&["song.usm"], ""),
    ] {
        let run = folder.usm(&[&["extract", "--force"], words].concat());
        assert_eq!((run.status, run.err.as_str()), (0, note), "{words:?}");
    }
}

#[test]
fn each_channel_in_a_file_of_its_own() {
    let folder = Folder::new();
    folder.write("film.usm", &dubbed());
    folder.usm(&["extract", "--channels", "each", "film.usm"]).expect(
        0,
        "film.usm\nvideo  7 bytes: ./film.m2v\naudio  15 bytes: ./film.0.adx\naudio  22 bytes: ./film.1.adx\n",
        "",
    );
    assert_eq!(folder.read("film.0.adx"), b"english english");
    assert_eq!(folder.read("film.1.adx"), b"francais...francais...");
    // As one channel after the other.
    for channel in ["0", "1"] {
        folder.usm(&["extract", "-q", "--channel", channel, "-o", channel, "film.usm"]).expect(0, "", "");
        assert_eq!(folder.read(&format!("{channel}/film.adx")), folder.read(&format!("film.{channel}.adx")));
    }
    let run = folder.usm(&["extract", "--json", "--force", "--channels", "each", "-k", "1", "film.usm"]);
    assert!(run.out.contains("\"audio\":null,\"channels\":[{\"path\":\"./film.0.adx\""), "{}", run.out);
    folder.usm(&["extract", "-q", "--channels", "joined", "-o", "all", "film.usm"]).expect(0, "", "");
    assert_eq!(folder.read("all/film.adx"), b"english francais...englishfrancais...");
}

#[test]
fn keys_from_a_file_and_from_the_environment() {
    let folder = Folder::with_films();
    folder.write("key", format!("0x{KEY}\n").as_bytes());
    folder.usm(&["extract", "-q", "--key-file", "key", "-o", "file", "song.usm"]).expect(0, "", "");
    folder.shell(&format!("USM_KEY={KEY} $USM extract -q -o variable song.usm")).expect(0, "", "");
    folder.shell(&format!("USM_KEY=1 $USM extract -q -k {KEY} -o option song.usm")).expect(0, "", "");
    for place in ["file", "variable", "option"] {
        assert_eq!(folder.read(&format!("{place}/lark.m2v")), example("song.video"), "{place}");
    }
    folder.write("wrong", b"secret");
    let rule = "no key: a key is 1 to 16 hex digits, with or without 0x";
    let run = folder.usm(&["extract", "--key-file", "wrong", "song.usm"]);
    run.expect(2, "", &format!("usm: wrong: it holds {rule}\n"));
    folder.shell("USM_KEY=secret $USM extract song.usm").expect(2, "", &format!("usm: USM_KEY holds {rule}\n"));
    assert_eq!(folder.usm(&["extract", "--key-file", "key", "-k", "1", "song.usm"]).status, 2);
    let packs = "USM_KEY=1 $USM pack song.usm -q --name x -o a.usm; $USM pack song.usm -q --name x -k 1 -o b.usm";
    folder.shell(&format!("{packs}; cmp a.usm b.usm")).expect(0, "", "");
}
