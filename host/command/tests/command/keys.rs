use crate::support::Folder;

/// The answers that the proved program two_keys is held to in the gate.
const RECORDED: &str = include_str!(concat!(env!("CARGO_MANIFEST_DIR"), "/../../crates/gate_two_keys/stdout"));

#[test]
fn the_answers_are_those_of_two_keys() {
    let folder = Folder::new();
    let mut compared = 0;
    let starts: Vec<usize> = RECORDED.match_indices("first key   ").map(|(at, _)| at).collect();
    for (number, &start) in starts.iter().enumerate() {
        let answer = &RECORDED[start..starts.get(number + 1).copied().unwrap_or(RECORDED.len())];
        let key = |row: &str| answer.lines().find_map(|line| line.strip_prefix(row)).unwrap().to_string();
        let run = folder.usm(&["keys", &format!("0x{}", key("first key   ")), &format!("0x{}", key("second key  "))]);
        assert_eq!((run.status, run.err.as_str()), (0, ""));
        assert!(answer.starts_with(&run.out), "{answer}\n{}", run.out);
        assert!(run.out.lines().count() >= 6, "{}", run.out);
        compared += 1;
    }
    assert!(compared > 10, "only {compared} were compared");
}

#[test]
fn words_that_are_no_keys() {
    let folder = Folder::new();
    let rule = "is no key: a key is 1 to 16 hex digits, with or without 0x";
    folder.usm(&["keys", "0x", "1"]).expect(2, "", &format!("usm: 0x {rule}\n"));
    folder.usm(&["keys", "1", "12345678901234567"]).expect(
        2,
        "",
        &format!("usm: 12345678901234567 {rule}; the decimal number 12345678901234567 is the key 002BDC545D6B4B87\n"),
    );
    folder.usm(&["keys", "1", "a\x1Bb"]).expect(2, "", &format!("usm: a\\u{{1b}}b {rule}\n"));
    assert_eq!(folder.usm(&["keys", "1"]).status, 2);
    assert_eq!(folder.usm(&["keys", "1", "2", "3"]).status, 2);
}

#[test]
fn decimal_numbers_are_pointed_out() {
    let run = Folder::new().usm(&["keys", "5613126134333697", "0x5613126134333697"]);
    assert_eq!(run.status, 0);
    assert!(run.out.ends_with("Both are the same key, so they give the same streams for every film.\n"));
    let note = "5613126134333697 is read as hex, as all keys are; the decimal number 5613126134333697 is the key 0013F11BC5510101";
    assert_eq!(run.err, format!("usm: note: {note}\n"));
}

#[test]
fn json() {
    Folder::new().usm(&["keys", "--json", "7F123456789ABCDE", "0x1234f6789abcde"]).expect(
        0,
        concat!(
            r#"{"kind":"keys","schema":1,"first":"7F123456789ABCDE","second":"001234F6789ABCDE","same_key":false,"same_streams":true,"#,
            r#""differing_digits":[0,1,6],"counting_digits":[2,3,4,5,7,8,9,10,11,12,13,14,15]}"#,
            "\n"
        ),
        "",
    );
}
