use std::fs;

use films::{Film, Header};

use crate::support::{Folder, KEY, SmallDisk, dubbed, example, named, names};

const BOTH: &str = "song.usm\nvideo  1453 bytes: ./lark.m2v\naudio  736 bytes: ./lark.adx\n";

#[test]
fn both_streams_under_a_key() {
    let folder = Folder::with_films();
    folder.usm(&["extract", "song.usm", "--key", KEY]).expect(0, BOTH, "");
    assert_eq!(folder.read("lark.m2v"), example("song.video"));
    assert_eq!(folder.read("lark.adx"), example("song.audio"));
    assert_eq!(folder.names(), ["cut.usm", "empty.usm", "f.usm", "lark.adx", "lark.m2v", "song.usm"]);
}

#[test]
fn audio_of_one_channel() {
    let folder = Folder::new();
    folder.write("film.usm", &dubbed());
    for channel in ["0", "1", "2"] {
        folder.usm(&["extract", "-q", "film.usm", "--channel", channel, "-o", channel]).expect(0, "", "");
    }
    assert_eq!(folder.read("0/film.adx"), b"english english");
    assert_eq!(folder.read("1/film.adx"), b"francais...francais...");
    assert_eq!(folder.read("2/film.adx"), b"");
    assert_eq!(folder.usm(&["extract", "-q", "film.usm", "-o", "all"]).status, 0);
    assert_eq!(folder.read("all/film.adx"), b"english francais...englishfrancais...");
    let info = folder.usm(&["info", "--channel", "1", "film.usm"]).out;
    assert!(info.contains("audio   adx, codec 2 (ADX), 22 bytes, closed\n"), "{info}");
    assert!(info.contains("        audio  channel 0: 2, 0 bytes\n        audio  channel 1: 2, 22 bytes\n"), "{info}");
}

#[test]
fn payloads_after_longer_headers() {
    let folder = Folder::new();
    let mut film = Film::new(&Header::default());
    let start = film.bytes.len();
    film.chunk(b"@SFV", 0, 0, b"header, 16 bytesthe picture");
    film.end(b"@SFV");
    film.bytes[start + 9] = 0x28;
    folder.write("film.usm", &film.bytes);
    let words = ["extract", "-q", "film.usm", "-o"];
    folder.usm(&[&words[..], &["new", "--payloads", "after-header"]].concat()).expect(0, "", "");
    assert_eq!(folder.read("new/film.m2v"), b"the picture");
    folder.usm(&[&words[..], &["old", "--payloads", "original"]].concat()).expect(0, "", "");
    assert_eq!(folder.read("old/film.m2v"), b"header, 16 ");
    assert_eq!(folder.usm(&[&words[..], &["old", "--payloads", "elsewhere"]].concat()).status, 2);
    film.bytes[start + 9] = 0x10;
    folder.write("short.usm", &film.bytes);
    let short = format!("usm: short.usm: refused 17 at {start}: a header that is too short\n");
    folder.usm(&["list", "short.usm", "--payloads", "after-header"]).expect(1, "", &short);
    assert_eq!(folder.usm(&["list", "short.usm"]).status, 0);
}

#[test]
fn as_stored_without_a_key() {
    let folder = Folder::with_films();
    assert_eq!(folder.usm(&["extract", "song.usm", "--quiet"]).out, "");
    let stored = usm::extract(&example("song.usm"), usm::Reading::default(), None).map(|film| film.video).unwrap();
    assert_eq!(folder.read("lark.m2v"), stored);
    assert_ne!(stored, example("song.video"));
}

#[test]
fn a_wrong_key_is_told_before_anything_is_done() {
    let folder = Folder::with_films();
    let run = folder.usm(&["extract", "song.usm", "-k", "0x", "-o", "new"]);
    run.expect(2, "", "usm: --key 0x is no key: a key is 1 to 16 hex digits, with or without 0x\n");
    assert!(!folder.path("new").exists());
    let run = folder.usm(&["extract", "f.usm", "-k", "99"]);
    assert_eq!(run.status, 0);
    assert_eq!(
        run.err,
        "usm: note: 99 is read as hex, as all keys are; the decimal number 99 is the key 0000000000000063\n"
    );
}

#[test]
fn a_folder_is_made() {
    let folder = Folder::with_films();
    let run = folder.usm(&["extract", "song.usm", "f.usm", "empty.usm", "-k", KEY, "-o", "a/b"]);
    assert_eq!((run.status, run.err.as_str()), (0, ""));
    assert_eq!(names(&folder.path("a/b")), ["empty.m2v", "f.m2v", "lark.adx", "lark.m2v"]);
    assert_eq!(folder.read("a/b/f.m2v"), [0; 32]);
    assert!(folder.read("a/b/empty.m2v").is_empty());
}

#[test]
fn without_audio_there_is_one_file() {
    let folder = Folder::with_films();
    folder.usm(&["extract", "song.usm", "--no-audio"]).expect(0, "song.usm\nvideo  1453 bytes: ./lark.m2v\n", "");
    assert!(!folder.path("lark.adx").exists());
}

#[test]
fn no_file_is_replaced() {
    for there in ["lark.m2v", "lark.adx"] {
        let folder = Folder::with_films();
        folder.write(there, b"mine");
        let before = folder.names();
        let run = folder.usm(&["extract", "song.usm"]);
        run.expect(2, "", &format!("usm: song.usm: ./{there}: the file is there already; --force replaces it\n"));
        assert_eq!(folder.read(there), b"mine");
        assert_eq!(folder.names(), before, "nothing is left over");
        folder.usm(&["extract", "song.usm", "--key", KEY, "--force"]).expect(0, BOTH, "");
        assert_eq!(folder.read("lark.adx"), example("song.audio"));
        assert_eq!(folder.names().len(), 6, "nothing is left over");
    }
}

#[test]
fn a_link_that_leads_nowhere_is_there_too() {
    let folder = Folder::with_films();
    std::os::unix::fs::symlink("elsewhere", folder.path("lark.adx")).unwrap();
    assert_eq!(folder.usm(&["extract", "song.usm"]).status, 2);
    assert!(!folder.path("elsewhere").exists() && !folder.path("lark.m2v").exists());
    let run = folder.usm(&["extract", "song.usm", "--force"]);
    run.expect(2, "", "usm: song.usm: ./lark.adx: it is no regular file, and --force replaces no others\n");
    assert!(!folder.path("elsewhere").exists() && !folder.path("lark.m2v").exists());
}

#[test]
fn a_second_file_that_fails_undoes_the_first() {
    let folder = Folder::with_films();
    folder.write("lark.m2v", b"mine");
    fs::create_dir(folder.path("lark.adx")).unwrap();
    let before = folder.names();
    let run = folder.usm(&["extract", "song.usm", "--force"]);
    run.expect(2, "", "usm: song.usm: ./lark.adx: it is no regular file, and --force replaces no others\n");
    assert_eq!(folder.read("lark.m2v"), b"mine", "what was replaced is back");
    assert_eq!(folder.names(), before);
    fs::remove_file(folder.path("lark.m2v")).unwrap();
    assert_eq!(folder.usm(&["extract", "song.usm", "--force"]).status, 2);
    assert_eq!(folder.names(), ["cut.usm", "empty.usm", "f.usm", "lark.adx", "song.usm"], "what was new is gone");
}

#[test]
fn two_films_with_one_name() {
    let folder = Folder::new();
    let first = b"first".repeat(800_000);
    folder.write("a.usm", &named(b"lark", &first, b"one"));
    folder.write("b.usm", &named(b"x/lark.usm", b"second", b"two"));
    let run = folder.usm(&["extract", "a.usm", "b.usm", "--quiet"]);
    run.expect(2, "", "usm: b.usm: ./lark.m2v: this run writes it for a.usm\n");
    assert_eq!((folder.read("lark.m2v"), folder.read("lark.hca")), (first.clone(), b"one".to_vec()));
    for words in
        [&["extract", "a.usm", "b.usm", "--quiet", "--force"][..], &["extract", "-j", "--force", "--quiet", "."]]
    {
        let run = folder.usm(words);
        let film = if words.contains(&".") { "./b.usm" } else { "b.usm" };
        let other = if words.contains(&".") { "./a.usm" } else { "a.usm" };
        run.expect(2, "", &format!("usm: {film}: ./lark.m2v: this run writes it for {other}\n"));
        assert_eq!((folder.read("lark.m2v"), folder.read("lark.hca")), (first.clone(), b"one".to_vec()));
    }
    assert_eq!(folder.names(), ["a.usm", "b.usm", "lark.hca", "lark.m2v"]);
}

#[test]
fn names_with_slashes_and_zero_bytes() {
    let folder = Folder::new();
    let name = |stored: &[u8]| {
        folder.write("film.usm", &named(stored, b"video", b"audio"));
        fs::remove_dir_all(folder.path("out")).ok();
        let run = folder.usm(&["extract", "film.usm", "-o", "out"]);
        assert_eq!((run.status, run.err.as_str()), (0, ""));
        assert_eq!(folder.names(), ["film.usm", "out"], "nothing outside");
        let names = names(&folder.path("out"));
        assert_eq!(names.len(), 2);
        names[1].strip_suffix(".m2v").unwrap().to_string()
    };
    assert_eq!(name(b"../../../tmp/evil.usm"), "evil");
    assert_eq!(name(b"/etc/cron.d/evil"), "evil");
    assert_eq!(name(b"a\0b/c\0d.usm"), "c_d");
    assert_eq!(name(b".."), "film", "nothing is left, so it is the file's");
    assert_eq!(name(b""), "film");
    assert_eq!(name(b"\x83\x81\x83C\x83\x93.usm"), "メイン");
    assert_eq!(name(&b"x".repeat(70_000)), "x".repeat(180));
}

#[test]
fn a_refused_film_writes_nothing_and_stops_nothing() {
    let folder = Folder::with_films();
    let run = folder.usm(&["extract", "cut.usm", "none.usm", "song.usm", "-o", "out"]);
    assert_eq!(run.status, 2);
    assert_eq!(run.err, "usm: cut.usm: refused 1 at 384: bytes run out\nusm: none.usm: No such file or directory\n");
    assert_eq!(names(&folder.path("out")), ["lark.adx", "lark.m2v"]);
    assert_eq!(folder.usm(&["extract", "cut.usm", "f.usm", "-o", "out2"]).status, 1);
}

#[test]
fn json_tells_the_files() {
    let folder = Folder::with_films();
    folder.usm(&["extract", "song.usm", "f.usm", "--json", "-o", "o"]).expect(
        0,
        concat!(
            r#"{"kind":"extracted","schema":1,"file":"song.usm","file_hex":"736f6e672e75736d","name":"songs/lark.usm","name_hex":"736f6e67732f6c61726b2e75736d","#,
            r#""video":{"path":"o/lark.m2v","path_hex":"6f2f6c61726b2e6d3276","bytes":1453},"#,
            r#""audio":{"path":"o/lark.adx","path_hex":"6f2f6c61726b2e616478","bytes":736}}"#,
            "\n",
            r#"{"kind":"extracted","schema":1,"file":"f.usm","file_hex":"662e75736d","name":null,"name_hex":null,"#,
            r#""video":{"path":"o/f.m2v","path_hex":"6f2f662e6d3276","bytes":32},"audio":null}"#,
            "\n",
        ),
        "",
    );
}

#[test]
fn from_standard_input_to_this_folder() {
    let folder = Folder::new();
    folder.usm_with(&["extract", "-"], &films::f()).expect(0, "-\nvideo  32 bytes: ./film.m2v\n", "");
    folder.usm_with(&["extract", "-", "-k", KEY], &example("song.usm"));
    assert_eq!(folder.read("lark.m2v"), example("song.video"));
}

#[test]
fn a_full_disk_leaves_nothing() {
    let folder = Folder::new();
    let Some(_disk) = SmallDisk::new(&folder) else {
        eprintln!("SKIPPED: a full disk needs root and mount");
        return;
    };
    // The video fits, the audio does not; then neither does.
    for (video, audio) in [(20_000, 60_000), (100_000, 10)] {
        folder.write("film.usm", &named(b"film", &vec![1; video], &vec![2; audio]));
        let run = folder.usm(&["extract", "film.usm", "-o", "disk"]);
        // Which of the two has no room left depends on what is gathered.
        let full = ["m2v", "hca"].map(|which| format!("usm: film.usm: disk/film.{which}: No space left on device\n"));
        assert!(run.status == 2 && run.out.is_empty() && full.contains(&run.err), "{run:?}");
        assert_eq!(names(&folder.path("disk")), [""; 0]);
    }
    folder.write("film.usm", &named(b"film", &[1; 20_000], &[2; 20_000]));
    assert_eq!(folder.usm(&["extract", "film.usm", "-o", "disk"]).status, 0);
    // By force into the same disk: the old pair stays whole.
    folder.write("film.usm", &named(b"film", &[3; 20_000], &[4; 20_000]));
    assert_eq!(folder.usm(&["extract", "film.usm", "-o", "disk", "--force"]).status, 2);
    assert_eq!((folder.read("disk/film.m2v"), folder.read("disk/film.hca")), (vec![1; 20_000], vec![2; 20_000]));
    assert_eq!(names(&folder.path("disk")), ["film.hca", "film.m2v"]);
}

#[test]
fn many_at_once_as_one_after_the_other() {
    let folder = Folder::new();
    // A large one before each small one, so that whoever has the small one is done first.
    for number in 0..40_u8 {
        let length = if number % 2 == 0 { 3_000_000 } else { 10 };
        let film = named(format!("name{number}").as_bytes(), &vec![number; length], &[number; 7]);
        folder.write(&format!("{number:02}.usm"), &film[..film.len() - usize::from(number % 5 == 4) * 20]);
    }
    let one = folder.usm(&["extract", ".", "-o", "out"]);
    let files = |folder: &Folder| -> Vec<(String, Vec<u8>)> {
        names(&folder.path("out")).into_iter().map(|name| (name.clone(), folder.read(&format!("out/{name}")))).collect()
    };
    let one_by_one = files(&folder);
    assert_eq!((one.status, one_by_one.len()), (1, 64));
    fs::remove_dir_all(folder.path("out")).unwrap();
    let many = folder.usm(&["extract", "-j", ".", "-o", "out"]);
    assert_eq!(many, one);
    assert_eq!(files(&folder), one_by_one);
}

#[test]
fn a_film_of_the_run_is_not_replaced() {
    let folder = Folder::new();
    let film = named(b"lark", b"video", b"audio");
    folder.write("lark.m2v", &film);
    folder.write("other.usm", &named(b"lark", b"", b""));
    let run = folder.usm(&["extract", "--force", "lark.m2v", "other.usm"]);
    let why = "./lark.m2v: it is a film of this run";
    run.expect(2, "", &format!("usm: lark.m2v: {why}\nusm: other.usm: {why}\n"));
    assert_eq!(folder.read("lark.m2v"), film);
    assert_eq!(folder.names(), ["lark.m2v", "other.usm"]);
}
