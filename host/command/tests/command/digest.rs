use sha2::{Digest, Sha256};

use crate::support::{Folder, KEY, example};

pub fn sha256(bytes: &[u8]) -> String {
    Sha256::digest(bytes).iter().map(|byte| format!("{byte:02x}")).collect()
}

const EMPTY: &str = "e3b0c44298fc1c149afbf4c8996fb92427ae41e4649b934ca495991b7852b855";

#[test]
fn digests_of_both_streams() {
    let folder = Folder::with_films();
    let [video, audio] = ["song.video", "song.audio"].map(|name| sha256(&example(name)));
    let song = format!("{video}  song.usm video, 1453 bytes\n{audio}  song.usm audio, 736 bytes\n");
    folder.usm(&["digest", "song.usm", "--key", KEY]).expect(0, &song, "");
    let f = format!("{}  f.usm video, 32 bytes\n{EMPTY}  f.usm audio, 0 bytes\n", sha256(&[0; 32]));
    folder.usm(&["digest", "-k", KEY, "song.usm", "cut.usm", "f.usm"]).expect(
        1,
        &[song, f].concat(),
        "usm: cut.usm: refused 1 at 384: bytes run out\n",
    );
    assert_eq!(folder.usm(&["digest", "f.usm", "--key", "xyz"]).status, 2);
}

/// They are what `sha256sum` says of the files that `extract` writes, with a key and without one.
#[test]
fn digests_are_those_of_the_extracted_files() {
    let folder = Folder::with_films();
    for key in ["--key 1", "--key FFFF", ""] {
        let run = folder.shell(&format!(
            "$USM extract song.usm {key} -q --force && sha256sum lark.m2v lark.adx | cut -d' ' -f1 && \
             $USM digest song.usm {key} | cut -d' ' -f1"
        ));
        let lines: Vec<&str> = run.out.lines().collect();
        assert_eq!(lines.len(), 4, "{}", run.err);
        assert_eq!(lines[..2], lines[2..], "{key}");
    }
}

#[test]
fn digests_as_json() {
    let folder = Folder::with_films();
    let run = folder.usm(&["digest", "--json", "-k", KEY, "song.usm"]);
    let [video, audio] = ["song.video", "song.audio"].map(|name| sha256(&example(name)));
    let object = format!(
        "{{\"kind\":\"digest\",\"schema\":1,\"file\":\"song.usm\",\"file_hex\":\"736f6e672e75736d\",\
         \"video\":{{\"bytes\":1453,\"sha256\":\"{video}\"}},\"audio\":{{\"bytes\":736,\"sha256\":\"{audio}\"}}}}\n"
    );
    run.expect(0, &object, "");
}
