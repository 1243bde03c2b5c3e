use films::{Film, Header};

use crate::support::Folder;

#[test]
fn plain_films_and_others() {
    let folder = Folder::with_films();
    folder.usm(&["profile", "f.usm"]).expect(0, "f.usm: plain\n", "");
    let mut unclosed = Film::new(&Header { audio: Some(None), ..Header::default() });
    unclosed.chunk(b"@SFV", 0, 0, &[1; 64]);
    unclosed.end(b"@SFV");
    let length = unclosed.bytes.len();
    folder.write("unclosed.usm", &unclosed.bytes);
    folder.usm(&["profile", "song.usm", "f.usm", "empty.usm", "unclosed.usm", "cut.usm"]).expect(
        1,
        &format!(
            "song.usm: not plain, rule 1 at 3104: its header size is not 0x18\n\
             f.usm: plain\n\
             empty.usm: not plain, rule 3 at 301: video is not closed by exactly one end chunk with no payload after it\n\
             unclosed.usm: not plain, rule 3 at {length}: audio is not closed by exactly one end chunk with no payload \
             after it\n"
        ),
        "usm: cut.usm: refused 1 at 384: bytes run out\n",
    );
}

#[test]
fn each_rule() {
    let folder = Folder::new();
    let mut film = Film::new(&Header::default());
    let start = film.bytes.len();
    film.chunk(b"@SFV", 0, 0, &[1; 64]);
    film.end(b"@SFV");
    let bytes = film.bytes;
    let changed = |at: usize, to: u8| {
        let mut copy = bytes.clone();
        copy[start + at] = to;
        copy
    };
    // A header size of 0x19, and a block that is one byte longer, the chunk after it too.
    folder.write("1.usm", &changed(9, 0x19));
    let mut longer = changed(7, bytes[start + 7] + 1);
    longer.insert(start + 100, 0);
    folder.write("2.usm", &longer);
    let mut twice = bytes.clone();
    twice.extend(&bytes[bytes.len() - 64..]);
    folder.write("3.usm", &twice);
    let mut other = bytes.clone();
    other.extend(&bytes[bytes.len() - 64..]);
    other[bytes.len()..bytes.len() + 4].copy_from_slice(b"@SBT");
    folder.write("4.usm", &other);
    let end = bytes.len();
    folder.usm(&["profile", "."]).expect(
        1,
        &format!(
            "./1.usm: not plain, rule 1 at {start}: its header size is not 0x18\n\
             ./2.usm: not plain, rule 2 at {start}: its block size plus 8 is no multiple of 0x20\n\
             ./3.usm: not plain, rule 3 at {end}: video is not closed by exactly one end chunk with no payload after it\n\
             ./4.usm: not plain, rule 4 at {end}: its letters are neither @SFV nor @SFA\n"
        ),
        "",
    );
}

#[test]
fn what_pack_writes_is_plain() {
    let folder = Folder::with_films();
    assert_eq!(folder.usm(&["pack", "song.usm", "f.usm", "-o", "a.usm", "-q"]).status, 0);
    folder.usm(&["profile", "a.usm"]).expect(0, "a.usm: plain\n", "");
}

#[test]
fn json_has_rule_and_place() {
    let folder = Folder::with_films();
    folder.usm(&["profile", "--json", "f.usm", "song.usm"]).expect(
        1,
        "{\"kind\":\"profile\",\"schema\":1,\"file\":\"f.usm\",\"file_hex\":\"662e75736d\",\"plain\":true,\"rule\":null,\"place\":null,\"reason\":null}\n\
         {\"kind\":\"profile\",\"schema\":1,\"file\":\"song.usm\",\"file_hex\":\"736f6e672e75736d\",\"plain\":false,\"rule\":1,\"place\":3104,\
         \"reason\":\"its header size is not 0x18\"}\n",
        "",
    );
}
