//! `usm index` and `usm seek`.

use std::fs;

use films::{Film, Header};

use crate::support::{Folder, SmallDisk, example, names};

#[test]
fn bytes_of_the_video() {
    let folder = Folder::with_films();
    folder.usm(&["index", "song.usm"]).expect(0, "song.usm: 3 video payloads, 1,453 bytes: song.usm-index\n", "");
    let out = "0: byte 0 of the payload of the chunk at 704\n\
               700: byte 92 of the payload of the chunk at 1,792\n\
               1,453: past the end: the video has 1,453 bytes\n";
    folder.usm(&["seek", "song.usm", "0", "0x2BC", "1453"]).expect(0, out, "");
    folder.usm(&["seek", "song.usm", "0", "700", "1453", "--index", "song.usm-index"]).expect(0, out, "");
    folder.usm(&["seek", "song.usm", "0", "700", "1453", "--index", "song.usm-index", "--check"]).expect(0, out, "");
}

/// Every byte, with the stored index and without: the byte that is extracted there.
#[test]
fn every_byte_is_where_it_says() {
    let folder = Folder::with_films();
    let mut film = Film::new(&Header { audio: Some(Some(2)), ..Header::default() });
    for payload in [&b""[..], b"one", b"", b"twelve bytes", b"", b"three"] {
        film.chunk(b"@SFV", 0, 0, payload);
        film.chunk(b"@SFA", 0, 0, &[5; 0x20]);
    }
    film.end(b"@SFV");
    folder.write("gaps.usm", &film.bytes);
    for name in ["song.usm", "gaps.usm"] {
        let bytes = folder.read(name);
        let video = usm::extract(&bytes, usm::Reading::default(), None).unwrap().video;
        folder.usm(&["index", "-q", name, "-o", "index"]).expect(0, "", "");
        let places: Vec<String> = (0..=video.len()).map(|byte| byte.to_string()).collect();
        let words: Vec<&str> = ["seek", "--json", name].into_iter().chain(places.iter().map(String::as_str)).collect();
        let run = folder.usm(&words);
        assert_eq!(folder.usm(&[&words[..], &["--index", "index"]].concat()), run);
        let objects: Vec<serde_json::Value> = run.out.lines().map(|line| serde_json::from_str(line).unwrap()).collect();
        assert_eq!(objects.len(), video.len() + 1);
        for (byte, object) in objects.iter().enumerate() {
            let at = object["chunk"].as_u64().zip(object["offset"].as_u64());
            let stored = at.map(|(chunk, offset)| bytes[(chunk + 0x20 + offset) as usize]);
            assert_eq!(stored.as_ref(), video.get(byte), "{name} {byte}");
        }
        fs::remove_file(folder.path("index")).unwrap();
    }
}

const OTHER: &str = "it is the index of another film, or of this one before it was changed; usm index makes it anew";

/// Lets a film's file look as if it had not changed for a while, so that its time counts.
fn is_old(folder: &Folder, film: &str) {
    assert_eq!(folder.shell(&format!("touch -d '1 hour ago' {film}")).status, 0);
}

#[test]
fn an_index_of_another_film() {
    let folder = Folder::with_films();
    is_old(&folder, "song.usm");
    folder.usm(&["index", "-q", "song.usm"]).expect(0, "", "");
    let seek = |film: &str| folder.usm(&["seek", film, "700", "--index", "song.usm-index"]);
    let found = "700: byte 92 of the payload of the chunk at 1,792\n";
    let refused = |film: &str| format!("usm: {film}: song.usm-index: {OTHER}\n");
    seek("song.usm").expect(0, found, "");
    seek("f.usm").expect(2, "", &refused("f.usm"));
    // The same film in another file, or with a new time.
    fs::copy(folder.path("song.usm"), folder.path("copy.usm")).unwrap();
    seek("copy.usm").expect(0, found, "");
    assert_eq!(folder.shell("touch song.usm").status, 0);
    seek("song.usm").expect(0, found, "");
    folder.usm_with(&["seek", "-", "700", "--index", "song.usm-index"], &example("song.usm")).expect(0, found, "");
    folder.shell("$USM seek - 700 --index song.usm-index < song.usm").expect(0, found, "");
    // A byte is another.
    let mut changed = example("song.usm");
    changed[2000] ^= 1;
    folder.write("song.usm", &changed);
    seek("song.usm").expect(2, "", &refused("song.usm"));
    folder.usm_with(&["seek", "-", "700", "--index", "song.usm-index"], &changed).expect(2, "", &refused("-"));
    let run = folder.usm(&["seek", "--json", "song.usm", "700", "--index", "song.usm-index"]);
    assert!(run.status == 2 && run.out.contains("\"kind\":\"failure\""), "{run:?}");
}

/// By its file's time a film is not read; --check reads it all the same.
#[test]
fn a_change_that_the_time_does_not_show() {
    let folder = Folder::with_films();
    is_old(&folder, "song.usm");
    folder.usm(&["index", "-q", "song.usm"]).expect(0, "", "");
    let line = "touch -r song.usm time && printf x | dd of=song.usm bs=1 seek=2000 conv=notrunc status=none && touch -r time song.usm";
    assert_eq!(folder.shell(line).status, 0);
    assert_eq!(folder.usm(&["seek", "song.usm", "700", "--index", "song.usm-index"]).status, 0);
    let run = folder.usm(&["seek", "song.usm", "700", "--index", "song.usm-index", "--check"]);
    run.expect(2, "", &format!("usm: song.usm: song.usm-index: {OTHER}\n"));
    // A film that has just been written may change again within one tick of the clock, so that its time counts for nothing.
    folder.write("new.usm", &example("song.usm"));
    folder.usm(&["index", "-q", "new.usm"]).expect(0, "", "");
    let line = line.replace("song.usm", "new.usm");
    assert_eq!(folder.shell(&line).status, 0);
    assert_eq!(folder.usm(&["seek", "new.usm", "700", "--index", "new.usm-index"]).status, 2);
}

#[test]
fn what_is_no_index() {
    let folder = Folder::with_films();
    folder.usm(&["index", "-q", "song.usm"]).expect(0, "", "");
    let index = folder.read("song.usm-index");
    let newer = [b"usm-index 2\n", &index[12..]].concat();
    let mut damaged = index.clone();
    damaged[150] ^= 1;
    let mut many = index.clone();
    many[84..92].copy_from_slice(&u64::MAX.to_le_bytes());
    let damage = "the index is damaged; usm index makes it anew";
    for (bytes, why) in [
        (&b""[..], "it is no index of a film"),
        (&example("song.usm"), "it is no index of a film"),
        (b"usm-index ", "it is an index of another version; usm index makes it anew"),
        (&newer, "it is an index of another version; usm index makes it anew"),
        (&index[..50], damage),
        (&index[..index.len() - 1], damage),
        (&[&index[..], b"x"].concat(), damage),
        (&damaged, damage),
        (&many, damage),
    ] {
        folder.write("wrong", bytes);
        let run = folder.usm(&["seek", "song.usm", "700", "--index", "wrong"]);
        run.expect(2, "", &format!("usm: wrong: {why}\n"));
    }
    let run = folder.usm(&["seek", "song.usm", "700", "--index", "none"]);
    run.expect(2, "", "usm: none: No such file or directory\n");
    let run = folder.usm(&["seek", "song.usm", "700", "--index", "."]);
    run.expect(2, "", "usm: .: Is a directory\n");
}

#[test]
fn words_that_are_wrong() {
    let folder = Folder::with_films();
    for words in [
        &["seek", "song.usm"][..],
        &["seek", "song.usm", "x"],
        &["seek", "song.usm", "-1"],
        &["seek", "song.usm", "1", "--check"],
        &["index"],
        &["index", "song.usm", "f.usm"],
    ] {
        assert_eq!(folder.usm(words).status, 2, "{words:?}");
    }
    folder.usm(&["index", "cut.usm"]).expect(1, "", "usm: cut.usm: refused 1 at 384: bytes run out\n");
    folder.usm(&["seek", "cut.usm", "0"]).expect(1, "", "usm: cut.usm: refused 1 at 384: bytes run out\n");
    folder.usm(&["index", "none.usm"]).expect(2, "", "usm: none.usm: No such file or directory\n");
    folder.usm(&["index", "."]).expect(2, "", "usm: .: Is a directory\n");
    assert_eq!(folder.names().len(), 4, "nothing is left");
}

#[test]
fn files_that_are_there() {
    let folder = Folder::with_films();
    folder.write("song.usm-index", b"old");
    let there = "usm: song.usm: song.usm-index: the file is there already; --force replaces it\n";
    folder.usm(&["index", "song.usm"]).expect(2, "", there);
    folder.usm(&["index", "-q", "--force", "song.usm"]).expect(0, "", "");
    assert_eq!(folder.usm(&["seek", "song.usm", "0", "--index", "song.usm-index"]).status, 0);
    let own = "usm: song.usm: song.usm: it is the film\n";
    folder.usm(&["index", "--force", "song.usm", "-o", "song.usm"]).expect(2, "", own);
    assert_eq!(folder.read("song.usm"), example("song.usm"));
    let piped = folder.usm_with(&["index", "-"], &example("song.usm"));
    piped.expect(0, "-: 3 video payloads, 1,453 bytes: film.usm-index\n", "");
    let Some(_disk) = SmallDisk::new(&folder) else {
        eprintln!("SKIPPED: no small disk can be mounted");
        return;
    };
    let mut film = Film::new(&Header::default());
    (0..4000).for_each(|_| film.chunk(b"@SFV", 0, 0, b"x"));
    folder.write("many.usm", &film.bytes);
    let run = folder.usm(&["index", "many.usm", "-o", "disk/index"]);
    run.expect(2, "", "usm: many.usm: disk/index: No space left on device\n");
    assert!(names(&folder.path("disk")).is_empty());
}
