use std::fs;

use films::{Film, Header};

use crate::support::{Folder, KEY, SmallDisk, example, names};

const OTHER: &str = "FEDCBA9876543210";

/// The digests of both streams under a key.
fn digests(folder: &Folder, film: &str, key: &str) -> Vec<String> {
    let run = folder.usm(&["digest", film, "--key", key]);
    assert_eq!(run.status, 0, "{}", run.err);
    run.out.lines().map(|line| line[..64].to_string()).collect()
}

#[test]
fn streams_under_the_new_key_are_those_under_the_old() {
    let folder = Folder::with_films();
    folder.usm(&["rekey", "--from", KEY, "--to", OTHER, "song.usm"]).expect(
        0,
        "song.usm\nwritten  3296 bytes: ./song.rekeyed.usm\n",
        "",
    );
    assert_ne!(folder.read("song.rekeyed.usm"), folder.read("song.usm"));
    assert_eq!(digests(&folder, "song.rekeyed.usm", OTHER), digests(&folder, "song.usm", KEY));
    assert_ne!(digests(&folder, "song.rekeyed.usm", KEY), digests(&folder, "song.usm", KEY));
    folder.usm(&["rekey", "-q", "--from", OTHER, "--to", KEY, "song.rekeyed.usm", "-o", "back"]).expect(0, "", "");
    assert_eq!(folder.read("back/song.rekeyed.usm"), example("song.usm"));
}

#[test]
fn folders_pipes_and_json() {
    let folder = Folder::with_films();
    fs::remove_file(folder.path("cut.usm")).unwrap();
    let run = folder.usm(&["rekey", "--from", KEY, "--to", OTHER, "."]);
    assert_eq!((run.status, run.out.matches("written").count()), (0, 3), "{run:?}");
    let again = folder.usm(&["rekey", "--from", KEY, "--to", OTHER, "--skip-existing", "."]);
    assert_eq!((again.status, again.out.matches("skipped").count()), (0, 3), "what it made is no film of the next run");
    let object = "{\"kind\":\"rewritten\",\"schema\":1,\"file\":\"-\",\"file_hex\":\"2d\",\"path\":\"out/film.usm\",\
                  \"path_hex\":\"6f75742f66696c6d2e75736d\",\"bytes\":3296}\n";
    let words = ["rekey", "--json", "--from", KEY, "--to", OTHER, "-", "-o", "out"];
    folder.usm_with(&words, &example("song.usm")).expect(0, object, "");
    assert_eq!(folder.read("out/film.usm"), folder.read("song.rekeyed.usm"));
    // From where standard input stands.
    folder.write("padded", &[&[0; 100][..], &example("song.usm")].concat());
    let line = format!(
        "(dd bs=1 skip=100 count=0 status=none; $USM rekey -q --force --from {KEY} --to {OTHER} - -o out) < padded"
    );
    folder.shell(&line).expect(0, "", "");
    assert_eq!(folder.read("out/film.usm"), folder.read("song.rekeyed.usm"));
}

#[test]
fn keys_in_files() {
    let folder = Folder::with_films();
    folder.write("old.key", format!("{KEY}\n").as_bytes());
    folder.write("new.key", format!("0x{OTHER}\n").as_bytes());
    folder.usm(&["rekey", "-q", "--from-file", "old.key", "--to-file", "new.key", "song.usm"]).expect(0, "", "");
    assert_eq!(digests(&folder, "song.rekeyed.usm", OTHER), digests(&folder, "song.usm", KEY));
    folder.write("new.key", b"secret");
    let why = "usm: new.key: it holds no key: a key is 1 to 16 hex digits, with or without 0x\n";
    folder.usm(&["rekey", "--from", KEY, "--to-file", "new.key", "song.usm"]).expect(2, "", why);
    for words in [&["--from", KEY][..], &["--to", KEY], &["--from", KEY, "--from-file", "old.key", "--to", OTHER]] {
        assert_eq!(folder.usm(&[&["rekey", "song.usm"], words].concat()).status, 2, "{words:?}");
    }
    let why = "usm: --to xyz is no key: a key is 1 to 16 hex digits, with or without 0x\n";
    folder.usm(&["rekey", "--from", KEY, "--to", "xyz", "song.usm"]).expect(2, "", why);
}

#[test]
fn a_film_with_other_headers_is_left_alone() {
    let folder = Folder::with_films();
    let mut film = Film::new(&Header::default());
    film.chunk(b"@SFV", 0, 0, &[7; 0x300]);
    let start = film.bytes.len();
    film.chunk(b"@SFV", 0, 0, &[7; 0x300]);
    film.bytes[start + 9] = 0x20;
    folder.write("long.usm", &film.bytes);
    let run =
        folder.usm(&["rekey", "--summary", "--from", KEY, "--to", OTHER, "long.usm", "cut.usm", "none.usm", "f.usm"]);
    assert_eq!(run.status, 2);
    assert_eq!(run.out, "f.usm\nwritten  448 bytes: ./f.rekeyed.usm\n", "the others go on");
    let err: Vec<&str> = run.err.lines().collect();
    assert_eq!(err[0], format!("usm: long.usm: the chunk at {start}: its header size is not 0x18"));
    assert_eq!(err[1], "usm: cut.usm: refused 1 at 384: bytes run out");
    assert_eq!(err[3], "usm: 4 films: 1 done, 2 refused, 1 failed");
    let run = folder.usm(&["rekey", "--json", "--from", KEY, "--to", OTHER, "long.usm"]);
    assert_eq!(run.status, 1);
    assert!(run.out.contains("\"error\":\"the chunk at "), "{}", run.out);
    assert_eq!(folder.names().len(), 6, "{:?}", folder.names());
}

#[test]
fn files_that_are_there() {
    let folder = Folder::with_films();
    let words = ["rekey", "-q", "--from", KEY, "--to", OTHER, "song.usm"];
    folder.usm(&words).expect(0, "", "");
    let there = "usm: song.usm: ./song.rekeyed.usm: the file is there already; --force replaces it\n";
    folder.usm(&words).expect(2, "", there);
    folder.write("song.rekeyed.usm", b"old");
    folder.usm(&[&words[..], &["--force"]].concat()).expect(0, "", "");
    assert_eq!(folder.read("song.rekeyed.usm").len(), 3296);
    let own = "usm: song.usm: ./song.usm: it is a film of this run\n";
    folder.usm(&[&words[..], &["--force", "-o", "."]].concat()).expect(2, "", own);
}

#[test]
fn a_full_disk_leaves_nothing() {
    let folder = Folder::new();
    folder.write("large.usm", &films::large(b"large", 300_000));
    let Some(_disk) = SmallDisk::new(&folder) else {
        eprintln!("SKIPPED: no small disk can be mounted");
        return;
    };
    let run = folder.usm(&["rekey", "--from", "1", "--to", "2", "large.usm", "-o", "disk"]);
    run.expect(2, "", "usm: large.usm: disk/large.usm: No space left on device\n");
    assert!(names(&folder.path("disk")).is_empty());
}
