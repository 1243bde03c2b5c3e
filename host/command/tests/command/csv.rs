use films::{Film, Header, Value};

use crate::support::{Folder, SmallDisk, names};

#[test]
fn a_file_for_each_table_with_columns() {
    let folder = Folder::with_films();
    folder.usm(&["csv", "song.usm", "f.usm"]).expect(
        0,
        "song.usm\nwritten  26 bytes: ./song.crid-32.csv\nwritten  15 bytes: ./song.sfv-160.csv\n\
         written  16 bytes: ./song.sfa-256.csv\n\
         \n\
         f.usm\nwritten  nothing: no table has a column\n",
        "",
    );
    assert_eq!(folder.read("song.crid-32.csv"), b"filename\r\nsongs/lark.usm\r\n");
    assert_eq!(folder.read("song.sfv-160.csv"), b"mpeg_codec\r\n1\r\n");
    assert_eq!(folder.read("song.sfa-256.csv"), b"audio_codec\r\n2\r\n");
    let there = "usm: song.usm: ./song.crid-32.csv: the file is there already; --force replaces it\n";
    folder.usm(&["csv", "song.usm"]).expect(2, "", there);
    folder.usm(&["csv", "-q", "--force", "song.usm"]).expect(0, "", "");
}

#[test]
fn one_table_of_any_file() {
    let folder = Folder::new();
    folder.write("table", &films::table(&[b"a,b", b"c"], &[&[Value::SignedByte(-1), Value::Data(b"\0\xAB")]]));
    folder.usm(&["csv", "--at", "0", "--json", "-o", "out", "table"]).expect(
        0,
        "{\"kind\":\"csv\",\"schema\":1,\"file\":\"table\",\"file_hex\":\"7461626c65\",\"files\":[{\"path\":\"out/table.0.csv\",\
         \"path_hex\":\"6f75742f7461626c652e302e637376\",\"bytes\":18}]}\n",
        "",
    );
    assert_eq!(folder.read("out/table.0.csv"), b"\"a,b\",c\r\n-1,00ab\r\n");
    let no_table = "usm: table: refused 3 at 1: no @UTF where a table begins\n";
    folder.usm(&["csv", "--at", "1", "table"]).expect(1, "", no_table);
    assert_eq!(folder.usm(&["csv", "--at", "x", "table"]).status, 2);
    assert_eq!(folder.usm(&["csv"]).status, 2);
}

#[test]
fn a_table_that_makes_too_much() {
    let folder = Folder::new();
    // 64 columns and 256 rows, whose cells all share a string: over a thousand million bytes of text.
    let (names, row) = (vec![&b"n"[..]; 64], vec![Value::Number(0); 64]);
    let mut table = films::table(&names, &vec![&row[..]; 256]);
    for column in 0..64 {
        table[32 + 5 * column] = 0x5A;
    }
    table.truncate(table.len() - 128);
    table.extend(vec![b'x'; 66_000]);
    table.push(0);
    let size = (table.len() - 8) as u32;
    table[4..8].copy_from_slice(&size.to_be_bytes());
    table[16..20].copy_from_slice(&size.to_be_bytes());
    folder.write("table", &table);
    let run = folder.usm(&["csv", "--at", "0", "table"]);
    assert_eq!((run.status, run.out.as_str()), (2, ""));
    let much = "usm: table: it makes more than 67108864 bytes of text, which is the limit; --limit sets another\n";
    assert_eq!(run.err, much);
    folder.usm(&["table", "--at", "0", "--csv", "table"]).expect(2, "", much);
    let run = folder.usm(&["table", "--at", "0", "--json", "table"]);
    assert_eq!((run.status, run.err.as_str(), run.out.lines().count()), (2, much, 1));
    assert_eq!(folder.names(), ["table"]);
    // For a person texts are cut.
    let run = folder.usm(&["table", "--at", "0", "table"]);
    assert!(run.status == 0 && run.out.len() < 8_000_000, "{} {}", run.status, run.out.len());
    assert!(run.out.contains("xx..\" 66000 bytes\n"), "{}", &run.out[..500]);
    let run = folder.usm(&["csv", "--at", "0", "--limit", "1K", "table"]);
    assert!(run.err.contains("more than 1024 bytes"), "{}", run.err);
}

#[test]
fn formulas_are_texts_for_spreadsheets() {
    let folder = Folder::new();
    folder.write("table", &films::table(&[b"=a", b"c"], &[&[Value::SignedByte(-1), Value::Text(b"@x")]]));
    folder.usm(&["csv", "-q", "--at", "0", "table"]).expect(0, "", "");
    assert_eq!(folder.read("table.0.csv"), b"=a,c\r\n-1,@x\r\n", "exact");
    folder.usm(&["csv", "-q", "--at", "0", "--force", "--spreadsheet", "table"]).expect(0, "", "");
    assert_eq!(folder.read("table.0.csv"), b"'=a,c\r\n-1,'@x\r\n");
    folder.usm(&["table", "--at", "0", "--csv", "--spreadsheet", "table"]).expect(0, "'=a,c\r\n-1,'@x\r\n", "");
}

#[test]
fn columns_that_store_nothing() {
    let folder = Folder::new();
    let mut table = films::table(&[b"a", b"b"], &[&[Value::Number(7), Value::Number(7)]]);
    table[32] = 0x14;
    folder.write("table", &table);
    let original = "a,b\r\n7,7\r\n";
    folder.usm(&["table", "--at", "0", "--csv", "table"]).expect(0, original, "");
    folder.usm(&["table", "--at", "0", "--csv", "--tables", "zero-columns", "table"]).expect(0, "a,b\r\n0,7\r\n", "");
    folder.usm(&["csv", "-q", "--at", "0", "--tables", "zero-columns", "table"]).expect(0, "", "");
    assert_eq!(folder.read("table.0.csv"), b"a,b\r\n0,7\r\n");
    table[32] = 0x24;
    folder.write("table", &table);
    let unknown = "usm: table: refused 18 at 0: unknown storage of a column\n";
    folder.usm(&["table", "--at", "0", "--tables", "zero-columns", "table"]).expect(1, "", unknown);
}

#[test]
fn a_full_disk_leaves_no_table() {
    let folder = Folder::new();
    let Some(_disk) = SmallDisk::new(&folder) else {
        eprintln!("SKIPPED: a full disk needs root and mount");
        return;
    };
    let name = vec![b'n'; 40_000];
    folder.write("film.usm", &Film::new(&Header { name: Some(&name), video_codec: Some(1), audio: None }).bytes);
    let full = "usm: film.usm: disk/film.crid-32.csv: No space left on device\n";
    folder.usm(&["csv", "film.usm", "-o", "disk"]).expect(2, "", full);
    assert_eq!(names(&folder.path("disk")), [""; 0]);
}
