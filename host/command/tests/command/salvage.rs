use crate::support::{Folder, SmallDisk, example, names};

#[test]
fn what_arrived_is_written() {
    let folder = Folder::with_films();
    folder.write("song.usm", &example("song.usm")[..2000]);
    folder.usm(&["salvage", "cut.usm", "f.usm", "song.usm"]).expect(
        0,
        "cut.usm\nwritten  384 bytes: ./cut.salvaged.usm\ndropped  44 bytes: bytes run out\n\
         \n\
         f.usm\nskipped: the film is whole\n\
         \n\
         song.usm\nwritten  1792 bytes: ./song.salvaged.usm\ndropped  208 bytes: bytes run out\n",
        "",
    );
    assert_eq!(folder.read("cut.salvaged.usm"), films::f()[..384]);
    assert!(!folder.path("f.salvaged.usm").exists());
    folder.usm(&["salvage", "--all", "f.usm"]).expect(
        0,
        "f.usm\nwritten  448 bytes: ./f.salvaged.usm\ndropped  none: the film is whole\n",
        "",
    );
    assert_eq!(folder.read("f.salvaged.usm"), films::f());
    assert_eq!(folder.usm(&["info", "song.salvaged.usm"]).status, 0);
}

#[test]
fn the_same_names_in_a_folder_of_their_own() {
    let folder = Folder::with_films();
    folder.usm(&["salvage", "-q", "--all", "-o", "saved", "cut.usm", "f.usm"]).expect(0, "", "");
    assert_eq!(names(&folder.path("saved")), ["cut.usm", "f.usm"]);
    let there = "usm: cut.usm: saved/cut.usm: the file is there already; --force replaces it\n";
    folder.usm(&["salvage", "-o", "saved", "cut.usm"]).expect(2, "", there);
    folder.usm(&["salvage", "-q", "--force", "-o", "saved", "cut.usm"]).expect(0, "", "");
    let own = "usm: cut.usm: ./cut.usm: it is a film of this run\n";
    folder.usm(&["salvage", "--force", "-o", ".", "cut.usm"]).expect(2, "", own);
    assert_eq!(folder.read("cut.usm").len(), 428);
}

#[test]
fn a_header_is_not_mended() {
    let folder = Folder::with_films();
    folder.write("torn.usm", &films::f()[..200]);
    folder.write("not.usm", b"no film");
    let run = folder.usm(&["salvage", "torn.usm", "not.usm", "cut.usm"]);
    assert_eq!(run.status, 1);
    assert!(run.err.starts_with("usm: torn.usm: refused "), "{}", run.err);
    assert!(run.out.starts_with("cut.usm\nwritten  384 bytes"), "{}", run.out);
    assert!(!folder.path("torn.salvaged.usm").exists());
}

#[test]
fn json_and_standard_input() {
    let folder = Folder::new();
    folder.usm_with(&["salvage", "--json", "-"], &films::f()[..428]).expect(
        0,
        "{\"kind\":\"rewritten\",\"schema\":1,\"file\":\"-\",\"file_hex\":\"2d\",\"path\":\"./film.salvaged.usm\",\
         \"path_hex\":\"2e2f66696c6d2e73616c76616765642e75736d\",\"bytes\":384,\"dropped\":44,\"cause\":1,\
         \"reason\":\"bytes run out\"}\n",
        "",
    );
    let whole = folder.usm_with(&["salvage", "--json", "--force", "--all", "-"], &films::f());
    assert!(whole.out.ends_with("\"dropped\":0,\"cause\":0,\"reason\":null}\n"), "{}", whole.out);
    folder.usm_with(&["salvage", "--json", "--force", "-"], &films::f()).expect(
        0,
        "{\"kind\":\"skipped\",\"schema\":1,\"file\":\"-\",\"file_hex\":\"2d\",\"why\":\"the film is whole\"}\n",
        "",
    );
    assert_eq!(folder.usm(&["salvage"]).status, 2);
}

#[test]
fn a_full_disk_leaves_no_film() {
    let folder = Folder::new();
    let Some(_disk) = SmallDisk::new(&folder) else {
        eprintln!("SKIPPED: a full disk needs root and mount");
        return;
    };
    folder.write("film.usm", &films::large(b"x", 200_000));
    let full = "usm: film.usm: disk/film.usm: No space left on device\n";
    folder.usm(&["salvage", "--all", "film.usm", "-o", "disk"]).expect(2, "", full);
    assert_eq!(names(&folder.path("disk")), [""; 0]);
}

#[test]
fn what_was_salvaged_is_not_salvaged_again() {
    let folder = Folder::new();
    folder.write("cut.usm", &films::f()[..428]);
    for _ in 0..3 {
        folder.usm(&["salvage", "-q", "--skip-existing", "."]).expect(0, "", "");
        assert_eq!(folder.names(), ["cut.salvaged.usm", "cut.usm"]);
    }
}
