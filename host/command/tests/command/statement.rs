use films::{Film, Header};

use crate::support::{Folder, KEY};

/// A folder with films, and three tenants: two whose keys give the same streams for the song, and another.
fn with_tenants() -> Folder {
    let folder = Folder::with_films();
    folder.write("tenants.csv", format!("tenant,key\r\n7,{KEY}\r\n3,0xFF23456789abcdef\r\n9,0\r\n").as_bytes());
    folder
}

#[test]
fn shares_and_totals() {
    let folder = with_tenants();
    folder.usm(&["statement", "tenants.csv", "song.usm", "cut.usm", "f.usm"]).expect(
        1,
        "song.usm\n\
        \x20             tenant                 group         bytes\n\
        \x20                  3                     3          1095\n\
        \x20                  7                     3          1094\n\
        \x20                  9                     9          2189\n\
         \n\
         f.usm\n\
        \x20             tenant                 group         bytes\n\
        \x20                  3                     3            11\n\
        \x20                  7                     3            11\n\
        \x20                  9                     3            10\n\
         \n\
         total of 2 films, 1 not done: this statement is incomplete\n\
        \x20             tenant                               bytes\n\
        \x20                  3                                1106\n\
        \x20                  7                                1105\n\
        \x20                  9                                2199\n",
        "usm: cut.usm: refused 1 at 384: bytes run out\n",
    );
    folder.usm(&["statement", "tenants.csv", "cut.usm"]).expect(
        1,
        "total of 0 films, 1 not done: this statement is incomplete\n",
        "usm: cut.usm: refused 1 at 384: bytes run out\n",
    );
}

#[test]
fn the_order_of_tenants_moves_no_line() {
    let folder = with_tenants();
    folder.write("sorted.csv", format!("9,0\n3,FF23456789ABCDEF\n7,{KEY}\n").as_bytes());
    let [one, other] =
        ["tenants.csv", "sorted.csv"].map(|tenants| folder.usm(&["statement", tenants, "song.usm", "f.usm"]));
    assert_eq!(one, other);
    assert_eq!(one.status, 0);
}

#[test]
fn csv_and_json() {
    let folder = with_tenants();
    let head = "file,tenant,group,bytes,error\r\n";
    let why = "refused 1 at 384: bytes run out";
    folder.usm(&["statement", "--csv", "tenants.csv", "song.usm", "cut.usm", "f.usm"]).expect(
        1,
        &format!(
            "{head}song.usm,3,3,1095,\r\nsong.usm,7,3,1094,\r\nsong.usm,9,9,2189,\r\ncut.usm,,,,{why}\r\n\
             f.usm,3,3,11,\r\nf.usm,7,3,11,\r\nf.usm,9,3,10,\r\n"
        ),
        &format!("usm: cut.usm: {why}\n"),
    );
    folder.usm(&["statement", "--csv", "--totals", "tenants.csv", "song.usm", "f.usm"]).expect(
        0,
        "tenant,bytes\r\n3,1106\r\n7,1105\r\n9,2199\r\n",
        "",
    );
    let run = folder.usm(&["statement", "--csv", "tenants.csv", "none.usm"]);
    assert!(run.status == 2 && run.out.starts_with(&format!("{head}none.usm,,,,No such file")), "{}", run.out);
    folder.write("=1+1.usm", &films::f());
    let run = folder.usm(&["statement", "--csv", "--spreadsheet", "tenants.csv", "=1+1.usm"]);
    assert!(run.out.contains("\r\n'=1+1.usm,3,3,11,\r\n"), "{}", run.out);
    folder.write("one.csv", b"18446744073709551615,0");
    folder.usm(&["statement", "--json", "one.csv", "f.usm"]).expect(
        0,
        "{\"kind\":\"shares\",\"schema\":1,\"file\":\"f.usm\",\"file_hex\":\"662e75736d\",\"shares\":[{\"tenant\":\"18446744073709551615\",\
         \"group\":\"18446744073709551615\",\"bytes\":32}]}\n\
         {\"kind\":\"totals\",\"schema\":1,\"films\":1,\"failed\":0,\"totals\":[{\"tenant\":\"18446744073709551615\",\"bytes\":32}]}\n",
        "",
    );
    assert_eq!(folder.usm(&["statement", "--csv", "--json", "one.csv", "f.usm"]).status, 2);
}

#[test]
fn tenants_that_can_not_be() {
    let folder = with_tenants();
    let none = "no line has a tenant";
    let seventeen: String = (0..17).map(|number| format!("{number},0\n")).collect();
    for (text, what) in [
        ("", none),
        ("tenant,key\n", none),
        ("1,2\n1,3\n", "line 2: tenant 1 is there already, in line 1"),
        (&seventeen, "17 tenants, and a statement is for 16 at most; usm bill takes any number"),
        ("1,2\nx,3\n", "line 2: x is no tenant's number"),
        ("-1,3\n", "line 1: -1 is no tenant's number"),
        ("18446744073709551616,3\n", "line 1: 18446744073709551616 is no tenant's number"),
        ("1,xyz\n", "line 1: xyz is no key: a key is 1 to 16 hex digits, with or without 0x"),
        ("1\n", "line 1: 1 field, and 2 are expected: NUMBER,KEY"),
        ("1,2,3\n", "line 1: 3 fields, and 2 are expected: NUMBER,KEY"),
    ] {
        folder.write("wrong.csv", text.as_bytes());
        folder.usm(&["statement", "wrong.csv", "f.usm"]).expect(2, "", &format!("usm: wrong.csv: {what}\n"));
    }
    let run = folder.usm(&["statement", "none.csv", "f.usm"]);
    assert_eq!((run.status, run.out.as_str()), (2, ""));
    assert!(run.err.starts_with("usm: none.csv: "), "{}", run.err);
    folder.write("decimal.csv", b"1,99\n");
    let run = folder.usm(&["statement", "decimal.csv", "f.usm"]);
    assert!(run.status == 0 && run.err.starts_with("usm: note: decimal.csv: line 1: 99 is read as hex"), "{}", run.err);
    assert_eq!(folder.usm(&["statement", "tenants.csv"]).status, 2);
}

#[test]
fn a_film_that_is_named_twice_is_billed_once() {
    let folder = with_tenants();
    std::fs::hard_link(folder.path("song.usm"), folder.path("copy.usm")).unwrap();
    let run = folder.usm(&["statement", "tenants.csv", "song.usm", "./song.usm", "copy.usm"]);
    assert!(run.out.contains("\ntotal of 1 film\n"), "{}", run.out);
    assert_eq!(
        run.err,
        "usm: note: ./song.usm: passed over: it is the same file as song.usm\n\
         usm: note: copy.usm: passed over: it is the same file as song.usm\n"
    );
    let by_input = folder.usm_with(&["statement", "-", "song.usm"], b"7;1\n9;2\n");
    assert!(by_input.status == 0 && by_input.out.contains("total of 1 film"), "{by_input:?}");
    assert_eq!(folder.usm_with(&["statement", "-", "-"], b"7,1\n").status, 2);
}

#[test]
fn why_tenants_share_a_copy() {
    let folder = with_tenants();
    let run = folder.usm(&["statement", "--why", "tenants.csv", "song.usm"]);
    let plain = folder.usm(&["statement", "tenants.csv", "song.usm"]);
    let (lines, totals) = plain.out.split_once("\ntotal of").unwrap();
    run.expect(
        0,
        &format!(
            "{lines}\n\
             --++++-+++++++++  + counts for this film, - does not\n\
             copy 1 of 2: 2,189 bytes, tenants 3, 7\n\
             \x20 Its keys agree in every digit that counts. They differ only in digits that never reach a picture or a \
             sound.\n\
             \x20 ^^..............  ^ differs, and does not count\n\
             copy 2 of 2: 2,189 bytes, tenant 9\n\
             \x20 No other tenant has these streams.\n\
             \x20 It is not copy 1: the keys differ in the third, the fourth, the fifth, the sixth, the eighth, the ninth, \
             the tenth, the eleventh, the twelfth, the thirteenth, the fourteenth, the fifteenth and the sixteenth digit.\n\
             \x20 ..^^^^.^^^^^^^^^  ^ differs and counts\n\
             \x20 First byte that differs: 128 of the video, in the chunk at 704.\n\
             \ntotal of{totals}"
        ),
        "",
    );
    assert!(!run.out.contains("89ABCDEF"), "no key is shown");
}

/// A film of one ADX payload, which shows the bits of a key that its length says.
fn clip(length: usize) -> Vec<u8> {
    let mut film = Film::new(&Header { audio: Some(Some(2)), ..Header::default() });
    film.chunk(b"@SFA", 0, 0, &vec![7; length]);
    film.bytes
}

#[test]
fn every_reason() {
    let folder = Folder::new();
    folder.write("nothing.usm", &clip(0x140));
    folder.write("short.usm", &clip(0x158));
    folder.write("whole.usm", &clip(0x159));
    folder.write("agree.csv", b"1,0\n2,FF00000000000000\n");
    folder.write("differ.csv", b"1,0\n2,FF00FF0000000000\n");
    folder.write("one.csv", b"1,5\n2,5\n");
    for (tenants, film, why) in [
        ("one.csv", "whole.usm", "one_key"),
        ("one.csv", "nothing.usm", "one_key"),
        ("agree.csv", "whole.usm", "keys_agree"),
        ("agree.csv", "nothing.usm", "keys_agree"),
        ("differ.csv", "short.usm", "not_shown"),
        ("differ.csv", "nothing.usm", "nothing_shown"),
        ("differ.csv", "whole.usm", "alone"),
    ] {
        let run = folder.usm(&["statement", "--why", "--json", tenants, film]);
        assert!(run.out.contains(&format!("\"why\":\"{why}\"")), "{tenants} {film}: {}", run.out);
        let csv = folder.usm(&["statement", "--why", "--csv", tenants, film]);
        assert!(csv.out.contains(&format!(",,{why},")), "{tenants} {film}: {}", csv.out);
    }
    let run = folder.usm(&["statement", "--why", "--csv", "differ.csv", "short.usm", "whole.usm", "none.usm"]);
    let lines: Vec<&str> = run.out.lines().collect();
    assert_eq!(
        lines[..5],
        [
            "file,tenant,group,bytes,error,why,apart_from,apart_in,apart_byte,apart_chunk",
            "short.usm,1,1,172,,not_shown,,,,",
            "short.usm,2,1,172,,not_shown,,,,",
            "whole.usm,1,1,345,,alone,,,,",
            &format!("whole.usm,2,2,345,,alone,1,audio,344,{}", clip(0).len() - 0x20),
        ]
    );
    assert_eq!(lines[5].split(',').count(), 10, "{}", lines[5]);
    assert_eq!(folder.usm(&["statement", "--why", "--csv", "--totals", "one.csv", "whole.usm"]).status, 2);
}

#[test]
fn keys_on_films() {
    let folder = with_tenants();
    let run = folder.usm(&["keys", KEY, "FF23456789ABCDEF", "song.usm"]);
    assert!(run.out.ends_with("\nsong.usm: the same streams under both keys\n"), "{}", run.out);
    let run = folder.usm(&["keys", KEY, "0", "f.usm", "cut.usm", "song.usm"]);
    assert_eq!((run.status, run.err.as_str()), (1, "usm: cut.usm: refused 1 at 384: bytes run out\n"));
    let films = "\nf.usm: the same streams under both keys\n\
                 \nsong.usm: different streams, first in the video payload of the chunk at 704\n";
    assert!(run.out.ends_with(films), "{}", run.out);
    let run = folder.usm(&["keys", "--json", KEY, "0", "song.usm", "f.usm"]);
    let films = "{\"kind\":\"film-keys\",\"schema\":1,\"file\":\"song.usm\",\"file_hex\":\"736f6e672e75736d\",\"same_streams\":false,\
                 \"differs_in\":\"video\",\"differs_at\":704}\n\
                 {\"kind\":\"film-keys\",\"schema\":1,\"file\":\"f.usm\",\"file_hex\":\"662e75736d\",\"same_streams\":true}\n";
    assert!(run.out.ends_with(films), "{}", run.out);
    assert_eq!(run.out.lines().count(), 3);
}

/// The first payload that shows two keys, for all lengths around the edges: as unmasking under both has it.
#[test]
fn the_first_payload_that_shows_it() {
    let folder = Folder::new();
    let keys = [0x0123_4567_89AB_CDEF_u64, 0x0123_4567_89AB_CDEE, 0x0123_FF67_89AB_CDEF, 0xFF23_4567_89AB_CDEF];
    let lengths = [0x100, 0x13F, 0x140, 0x141, 0x142, 0x150, 0x158, 0x159, 0x160, 0x23F, 0x240, 0x241];
    for key in &keys[1..] {
        for letters in [b"@SFV", b"@SFA"] {
            let mut film = Film::new(&Header { audio: Some(Some(2)), ..Header::default() });
            let mut shown = None;
            for length in lengths {
                let start = film.bytes.len();
                film.chunk(letters, 0, 0, &vec![7; length]);
                let stream = if letters == b"@SFV" { usm::Stream::Video } else { usm::Stream::Audio };
                let [one, other] = [keys[0], *key].map(|key| {
                    let mut payload = vec![7; length];
                    usm::unmask(stream, key, &mut payload);
                    payload
                });
                if one != other {
                    shown.get_or_insert(start);
                }
            }
            folder.write("film.usm", &film.bytes);
            let run = folder.usm(&["keys", "--json", &format!("{:x}", keys[0]), &format!("{key:x}"), "film.usm"]);
            let expected = match shown {
                Some(at) => format!("\"differs_at\":{at}}}\n"),
                None => "\"same_streams\":true}\n".to_string(),
            };
            assert!(run.out.ends_with(&expected), "{key:x} {expected} {}", run.out);
        }
    }
}
