//! from-old and to-old.

use std::fs;

use crate::support::{Folder, KEY, SmallDisk, example, names};

const FOREIGN: &str = "neither a film of the old builder nor one moved from it";

/// A folder with films of the old builder: old.usm, and dubbed.usm with two audios.
fn with_old_films() -> Folder {
    let folder = Folder::new();
    folder.write("old.usm", &example("old.usm"));
    folder.write("dubbed.usm", &example("old-dubbed.usm"));
    folder
}

/// An old film of about so many bytes.
fn large(length: usize) -> Vec<u8> {
    let video: Vec<u8> = (0..length as u32).map(|at| (at.wrapping_mul(2_654_435_761) >> 24) as u8).collect();
    usm::to_old(&usm::pack(usm::Streams::new(b"large", &video), None).unwrap()).unwrap()
}

#[test]
fn there_and_back() {
    let folder = with_old_films();
    folder.usm(&["from-old", "old.usm", "--video-codec", "1", "--audio-codec", "2"]).expect(
        0,
        "old.usm\nwritten  3104 bytes: ./old.moved.usm\n",
        "",
    );
    folder.usm(&["extract", "-q", "-k", KEY, "old.moved.usm"]).expect(0, "", "");
    assert_eq!(folder.read("lark.m2v"), example("song.video"));
    assert_eq!(folder.read("lark.adx"), example("song.audio"));
    folder.usm(&["to-old", "old.moved.usm"]).expect(0, "old.moved.usm\nwritten  2680 bytes: ./old.moved.old.usm\n", "");
    assert_eq!(folder.read("old.moved.old.usm"), example("old.usm"));
    assert_eq!(folder.names(), ["dubbed.usm", "lark.adx", "lark.m2v", "old.moved.old.usm", "old.moved.usm", "old.usm"]);
}

#[test]
fn no_codec_is_made_up() {
    let folder = with_old_films();
    folder.usm(&["from-old", "-q", "old.usm"]).expect(0, "", "");
    let run = folder.usm(&["info", "old.moved.usm"]);
    assert!(run.out.contains("video   m2v, no codec, 1453 bytes, closed\n"), "{}", run.out);
    assert_eq!(folder.usm(&["extract", "-q", "-k", KEY, "old.moved.usm"]).status, 0);
    assert_eq!(folder.read("lark.m2v"), example("song.video"));
    assert_ne!(folder.read("lark.adx"), example("song.audio"), "masked audio takes codec 2");
}

#[test]
fn a_film_that_is_refused_does_not_stop_the_others() {
    let folder = with_old_films();
    folder.write("cut.usm", &example("old.usm")[..2600]);
    folder.write("song.usm", &example("song.usm"));
    folder.usm(&["from-old", "dubbed.usm", "cut.usm", "none.usm", "song.usm", "old.usm"]).expect(
        2,
        "old.usm\nwritten  3040 bytes: ./old.moved.usm\n",
        &format!(
            "usm: dubbed.usm: refused 20 at 0: more than one audio\n\
             usm: cut.usm: refused 19 at 0: {FOREIGN}\n\
             usm: none.usm: No such file or directory\n\
             usm: song.usm: refused 19 at 0: {FOREIGN}\n"
        ),
    );
    let foreign = format!("usm: old.usm: refused 19 at 0: {FOREIGN}\nusm: song.usm: refused 19 at 0: {FOREIGN}\n");
    folder.usm(&["to-old", "-q", "old.usm", "song.usm", "old.moved.usm"]).expect(1, "", &foreign);
    assert_eq!(folder.read("old.moved.old.usm"), example("old.usm"));
}

#[test]
fn films_that_can_not_be_written() {
    let folder = Folder::new();
    let silent = usm::to_old(&usm::pack(usm::Streams::new(b"", b"-CONTENTS END"), None).unwrap()).unwrap();
    folder.write("silent.usm", &silent);
    let alone = "usm: silent.usm: refused 23 at 0: an audio codec without audio\n";
    folder.usm(&["from-old", "silent.usm", "--audio-codec", "2"]).expect(1, "", alone);
    let mut marked = silent;
    let payload = marked.windows(13).position(|bytes| bytes == b"-CONTENTS END").unwrap();
    marked[payload] = b'#';
    folder.write("marked.usm", &marked);
    let reason = "a payload begins with the end marker";
    folder.usm(&["from-old", "--json", "marked.usm"]).expect(
        1,
        &format!(
            "{{\"kind\":\"failure\",\"schema\":1,\"file\":\"marked.usm\",\"file_hex\":\"6d61726b65642e75736d\",\
             \"refused\":{{\"number\":15,\"place\":0,\"reason\":\"{reason}\"}}}}\n"
        ),
        &format!("usm: marked.usm: refused 15 at 0: {reason}\n"),
    );
    assert_eq!(folder.names(), ["marked.usm", "silent.usm"]);
}

#[test]
fn the_same_names_in_a_folder_of_their_own() {
    let folder = with_old_films();
    folder.usm(&["from-old", "-q", "-o", "new", "old.usm"]).expect(0, "", "");
    assert_eq!(names(&folder.path("new")), ["old.usm"]);
    let there = "usm: old.usm: new/old.usm: the file is there already; --force replaces it\n";
    folder.usm(&["from-old", "-o", "new", "old.usm"]).expect(2, "", there);
    folder.usm(&["from-old", "-q", "--force", "-o", "new", "old.usm"]).expect(0, "", "");
    let own = "usm: old.usm: ./old.usm: it is a film of this run\n";
    folder.usm(&["from-old", "--force", "-o", ".", "old.usm"]).expect(2, "", own);
    assert_eq!(folder.read("old.usm"), example("old.usm"));
    // A whole folder there and back.
    fs::remove_file(folder.path("dubbed.usm")).unwrap();
    folder.usm(&["to-old", "-q", "-o", "back", "new"]).expect(0, "", "");
    assert_eq!(folder.read("back/old.usm"), example("old.usm"));
}

#[test]
fn json_and_standard_input() {
    let folder = Folder::new();
    folder.usm_with(&["from-old", "--json", "-"], &example("old.usm")).expect(
        0,
        "{\"kind\":\"rewritten\",\"schema\":1,\"file\":\"-\",\"file_hex\":\"2d\",\"path\":\"./film.moved.usm\",\
         \"path_hex\":\"2e2f66696c6d2e6d6f7665642e75736d\",\"bytes\":3040}\n",
        "",
    );
    let moved = folder.read("film.moved.usm");
    folder.usm_with(&["to-old", "--json", "-"], &moved).expect(
        0,
        "{\"kind\":\"rewritten\",\"schema\":1,\"file\":\"-\",\"file_hex\":\"2d\",\"path\":\"./film.old.usm\",\
         \"path_hex\":\"2e2f66696c6d2e6f6c642e75736d\",\"bytes\":2680}\n",
        "",
    );
    assert_eq!(folder.read("film.old.usm"), example("old.usm"));
}

#[test]
fn many_at_once_in_the_order_of_the_arguments() {
    let folder = Folder::new();
    fs::create_dir(folder.path("in")).unwrap();
    for number in 0..24 {
        let film = if number % 7 == 3 { b"no film".to_vec() } else { large(number * 30_000) };
        folder.write(&format!("in/{number:02}.usm"), &film);
    }
    let one = folder.usm(&["from-old", "-o", "one", "in"]);
    let many = folder.usm(&["from-old", "-j", "-o", "many", "in"]);
    assert_eq!((one.status, many.status), (1, 1));
    assert_eq!(one.out.replace("one/", "many/"), many.out);
    assert_eq!(one.err, many.err);
    assert_eq!(names(&folder.path("many")), names(&folder.path("one")));
    folder.usm(&["to-old", "-j", "-q", "-o", "back", "many"]).expect(0, "", "");
    assert_eq!(names(&folder.path("back")).len(), 21);
    for name in names(&folder.path("back")) {
        assert_eq!(folder.read(&format!("back/{name}")), folder.read(&format!("in/{name}")), "{name}");
    }
}

#[test]
fn the_longest_film_and_one_byte_more() {
    let folder = Folder::new();
    assert_eq!(folder.shell("truncate -s 1073741824 longest.usm; truncate -s 1073741825 longer.usm").status, 0);
    for command in ["from-old", "to-old"] {
        let foreign = format!("usm: longest.usm: refused 19 at 0: {FOREIGN}\n");
        folder.usm(&[command, "longest.usm"]).expect(1, "", &foreign);
        let long = "usm: longer.usm: refused 11 at 0: longer than 1,073,741,824 bytes\n";
        folder.usm(&[command, "longer.usm"]).expect(1, "", long);
    }
    assert_eq!(folder.names(), ["longer.usm", "longest.usm"]);
}

#[test]
fn wrong_arguments() {
    let folder = with_old_films();
    for words in ["from-old", "to-old", "from-old old.usm --audio-codec x", "to-old old.usm --audio-codec 2"] {
        let run = folder.shell(&format!("$USM {words}"));
        assert_eq!((run.status, run.out.as_str()), (2, ""), "{words}");
    }
    assert_eq!(folder.names(), ["dubbed.usm", "old.usm"]);
}

#[test]
fn a_full_disk_leaves_no_film() {
    let folder = Folder::new();
    let Some(_disk) = SmallDisk::new(&folder) else {
        eprintln!("SKIPPED: a full disk needs root and mount");
        return;
    };
    let old = large(200_000);
    folder.write("film.usm", &old);
    folder.write("moved.usm", &usm::from_old(&old, usm::Codecs::default()).unwrap());
    for (command, film) in [("from-old", "film.usm"), ("to-old", "moved.usm")] {
        let full = format!("usm: {film}: disk/{film}: No space left on device\n");
        folder.usm(&[command, film, "-o", "disk"]).expect(2, "", &full);
        assert_eq!(names(&folder.path("disk")), [""; 0]);
    }
}
