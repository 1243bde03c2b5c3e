use films::Value;

use crate::support::{Folder, named};

#[test]
fn the_tables_of_a_header() {
    let folder = Folder::with_films();
    folder.usm(&["table", "song.usm"]).expect(
        0,
        "\
song.usm: CRID table at 32: columns 1, rows 1
  filename  \"songs/lark.usm\"

song.usm: @SFV table at 160: columns 1, rows 1
  mpeg_codec  1

song.usm: @SFA table at 256: columns 1, rows 1
  audio_codec  2

song.usm: @SFV table at 480: columns 0, rows 0

song.usm: @SFA table at 544: columns 0, rows 0
",
        "",
    );
    folder.usm(&["table", "cut.usm"]).expect(1, "", "usm: cut.usm: refused 1 at 384: bytes run out\n");
}

#[test]
fn a_table_at_a_place_of_any_file() {
    let folder = Folder::with_films();
    let at_32 = "cut.usm: table at 32: columns 0, rows 0\n";
    folder.usm(&["table", "--at", "32", "cut.usm"]).expect(0, at_32, "");
    folder.usm(&["table", "--at", "0x20", "cut.usm"]).expect(0, at_32, "");
    let no_table = "usm: cut.usm: refused 3 at 33: no @UTF where a table begins\n";
    folder.usm(&["table", "--at", "33", "cut.usm"]).expect(1, "", no_table);
    let past = "usm: cut.usm: refused 1 at 18446744073709551615: bytes run out\n";
    folder.usm(&["table", "--at", "0xFFFFFFFFFFFFFFFF", "cut.usm"]).expect(1, "", past);
    assert_eq!(folder.usm(&["table", "--at", "-1", "cut.usm"]).status, 2);
    assert_eq!(folder.usm(&["table", "--at", "18446744073709551616", "cut.usm"]).status, 2);
}

fn values() -> Vec<u8> {
    films::table(
        &[b"signed", b"float", b"text", b"data", b"text", b"a,\"b\""],
        &[
            &[
                Value::SignedByte(-1),
                Value::Float(0x3FC0_0000),
                Value::Text(b"one, \"two\"\r\nthree"),
                Value::Data(b"\0\xAB"),
                Value::Text(b"plain \xE9"),
                Value::Long(u64::MAX),
            ],
            &[
                Value::SignedByte(7),
                Value::Float(0xFFC0_0001),
                Value::Text(b""),
                Value::Data(b""),
                Value::Text(b"x"),
                Value::Long(0),
            ],
        ],
    )
}

#[test]
fn values_for_a_person() {
    let folder = Folder::new();
    folder.write("table", &values());
    let run = folder.shell("$USM table --at 0 table | head -c 4000");
    assert_eq!(
        run.out,
        "table: table at 0: columns 6, rows 2\n\
         row 0\n  signed  -1\n  float  1.5 (3fc00000)\n  text  \"one, \"two\"\\u{d}\\u{a}three\"\n  data  00ab 2 bytes\n  \
         text  \"plain \u{FFFD}\"\n  a,\"b\"  18446744073709551615\n\
         row 1\n  signed  7\n  float  NaN (ffc00001)\n  text  \"\"\n  data   0 bytes\n  text  \"x\"\n  a,\"b\"  0\n"
    );
}

#[test]
fn csv_is_that_of_the_rfc() {
    let folder = Folder::new();
    folder.write("table", &values());
    let output = std::process::Command::new(crate::support::USM)
        .args(["table", "--at", "0", "--csv"])
        .arg(folder.path("table"))
        .output()
        .unwrap();
    let expected = [
        &b"signed,float,text,data,text,\"a,\"\"b\"\"\"\r\n"[..],
        b"-1,3fc00000,\"one, \"\"two\"\"\r\nthree\",00ab,plain \xE9,18446744073709551615\r\n",
        b"7,ffc00001,,,x,0\r\n",
    ]
    .concat();
    assert_eq!(output.stdout, expected);
    folder.write("empty", &films::table(&[b"only"], &[&[Value::Text(b"")]]));
    folder.usm(&["table", "--at", "0", "--csv", "empty"]).expect(0, "only\r\n\r\n", "");
    folder.write("none", &films::table(&[], &[]));
    folder.usm(&["table", "--at", "0", "--csv", "none"]).expect(0, "", "");
    assert_eq!(folder.usm(&["table", "--csv", "table"]).status, 2, "which table");
    folder.usm(&["table", "--at", "0", "--csv", "table", "none"]).expect(
        2,
        "",
        "usm: --csv writes one table: name one file\n",
    );
    assert_eq!(folder.usm(&["table", "--at", "0", "--csv", "."]).status, 2);
}

#[test]
fn json_loses_no_digit() {
    let folder = Folder::new();
    let row = [
        Value::Long(u64::MAX),
        Value::SignedNumber(i32::MIN),
        Value::Float(0x7F80_0001),
        Value::Text(b"\xFF"),
        Value::Data(b"\x01"),
    ];
    folder.write("t", &films::table(&[b"a", b"b", b"c", b"d", b"e"], &[&row]));
    let run = folder.usm(&["table", "--at", "0", "--json", "t"]);
    let rows = concat!(
        r#""rows":[[{"is":"unsigned","value":"18446744073709551615"},{"is":"signed","value":"-2147483648"},"#,
        r#"{"is":"float","bits":"7f800001"},{"is":"string","text":"#,
        "\"\u{FFFD}\"",
        r#","hex":"ff"},{"is":"data","hex":"01"}]]}]}"#,
        "\n"
    );
    assert!(run.out.ends_with(rows), "{}", run.out);
    assert!(run.out.starts_with(r#"{"kind":"tables","schema":1,"file":"t","file_hex":"74","tables":[{"place":0,"columns":[{"name":"a","name_hex":"61","type":86,"constant":false},"#));
}

#[test]
fn data_that_is_text_is_shown_as_text() {
    let folder = Folder::new();
    let shown = |name: &[u8]| {
        folder.write("film.usm", &named(name, b"", b""));
        let run = folder.usm(&["table", "film.usm"]);
        run.out.lines().nth(1).unwrap().to_string()
    };
    assert_eq!(shown(b"lark.usm"), "  filename  \"lark.usm\" (data, 8 bytes)");
    assert_eq!(shown("é".as_bytes()), "  filename  \"é\" (data, 2 bytes)");
    assert_eq!(shown(b"a\x1B"), "  filename  611b 2 bytes");
    assert_eq!(shown(b"a\xFF"), "  filename  61ff 2 bytes");
    assert_eq!(shown(&[b'n'; 300]), format!("  filename  \"{}..\" (data, 300 bytes)", "n".repeat(200)));
}
