use std::fs;

use usm::Streams;

use crate::bill::stream;
use crate::input::{GROWING, SHRINKING};
use crate::support::{Folder, KEY, SmallDisk, example, names};

/// A folder with the clear streams of the song: video and audio.
fn with_streams() -> Folder {
    let folder = Folder::new();
    folder.write("video", &example("song.video"));
    folder.write("audio", &example("song.audio"));
    folder
}

#[test]
fn what_is_packed_is_extracted() {
    let folder = with_streams();
    folder
        .usm(&["pack", "video", "audio", "-o", "lark.usm", "-k", KEY, "--video-codec", "1", "--audio-codec", "2"])
        .expect(0, "lark.usm: 3072 bytes, video 1453, audio 736\n", "");
    let run = folder.usm(&["info", "lark.usm"]);
    assert!(run.out.contains("name    lark.usm\n"), "{}", run.out);
    assert!(run.out.contains("video   m2v, codec 1 (MPEG), 1453 bytes, closed\n"), "{}", run.out);
    assert!(run.out.contains("audio   adx, codec 2 (ADX), 736 bytes, closed\n"), "{}", run.out);
    assert_eq!(folder.usm(&["extract", "lark.usm", "-q", "-k", KEY]).status, 0);
    assert_eq!(folder.read("lark.m2v"), example("song.video"));
    assert_eq!(folder.read("lark.adx"), example("song.audio"));
    assert_eq!(folder.usm(&["extract", "lark.usm", "-q", "-o", "stored"]).status, 0);
    assert_ne!(folder.read("stored/lark.m2v"), example("song.video"), "it is masked");
}

/// Lengths around those of a payload and of what chunks are padded to.
const LENGTHS: [usize; 9] = [0, 1, 31, 32, 33, 65_535, 65_536, 65_537, 200_001];

/// A film of files is, byte for byte, that of the function that packs streams in memory.
#[test]
fn a_film_of_files_is_that_of_streams_in_memory() {
    let folder = Folder::new();
    for video_bytes in LENGTHS {
        let video = stream(1, video_bytes);
        folder.write("video", &video);
        for audio_bytes in LENGTHS.map(Some).into_iter().chain([None]) {
            let audio = audio_bytes.map(|bytes| stream(2, bytes));
            audio.iter().for_each(|audio| drop(folder.write("audio", audio)));
            for (key, words) in [(None, ""), (Some(0), "-k 0"), (Some(0x0123_4567_89AB_CDEF), "-k 123456789ABCDEF")] {
                let mut streams = Streams::new(b"lark", &video).with_codecs(Some(9), None);
                let mut line =
                    format!("pack video -o film.usm --force --no-sync -q --name lark --video-codec 9 {words}");
                if let Some(audio) = &audio {
                    streams = streams.with_audio(audio).with_codecs(Some(9), Some(2));
                    line.push_str(" --audio-codec 2 audio");
                }
                folder.usm(&line.split(' ').filter(|word| !word.is_empty()).collect::<Vec<_>>()).expect(0, "", "");
                let film = usm::pack(streams, key).unwrap();
                assert!(folder.read("film.usm") == film, "{line}: {video_bytes} {audio_bytes:?}");
            }
        }
    }
}

/// Wherever streams come from and the film goes, it is the same.
#[test]
fn by_pipes_and_from_the_middle_of_a_file() {
    let folder = Folder::new();
    folder.write("video", &stream(1, 200_001));
    folder.write("audio", &stream(2, 70_000));
    folder.write("two", &[b"in front".to_vec(), stream(1, 200_001)].concat());
    let pack = "$USM pack -q --no-sync --name x -k 5 --audio-codec 2";
    folder.shell(&format!("{pack} video audio -o film")).expect(0, "", "");
    for line in [
        "PACK - audio -o a < video",
        "PACK - audio -o b < <(cat video)",
        "PACK video - -o c < <(cat audio)",
        "(head -c 8 > /dev/null; PACK - audio -o d) < two",
        "mkfifo v s; (cat video > v; cat audio > s) & PACK v s -o e",
        "PACK video audio -o - > f",
        "PACK - audio -o - < <(cat video) | cat > g",
    ] {
        folder.shell(&line.replace("PACK", pack)).expect(0, "", "");
    }
    for name in ["a", "b", "c", "d", "e", "f", "g"] {
        assert!(folder.read(name) == folder.read("film"), "{name}");
    }
}

#[test]
fn names_are_any_bytes() {
    let folder = with_streams();
    folder.shell("$USM pack video -o a.usm --name $'\\x83\\x81/x' -q").expect(0, "", "");
    let run = folder.usm(&["info", "--json", "a.usm"]);
    assert!(run.out.contains("\"name\":\"メ/x\",\"name_hex\":\"83812f78\""), "{}", run.out);
    assert!(run.out.contains("\"audio\":null"), "{}", run.out);
    folder.usm(&["pack", "video", "-o", "b.usm", "--name", "", "-q"]).expect(0, "", "");
    assert!(folder.usm(&["info", "b.usm"]).out.contains("name    \n"));
}

#[test]
fn standard_input_is_a_stream() {
    let folder = with_streams();
    let run = folder.usm_with(&["pack", "-", "audio", "-o", "a.usm", "--json"], b"moving pictures");
    run.expect(
        0,
        "{\"kind\":\"packed\",\"schema\":1,\"file\":\"a.usm\",\"file_hex\":\"612e75736d\",\"bytes\":1568,\"video_bytes\":15,\"audio_bytes\":736}\n",
        "",
    );
    folder.usm(&["pack", "-", "-", "-o", "b.usm"]).expect(2, "", "usm: standard input can't be both streams\n");
    let run = folder.usm_with(&["pack", "-", "-o", "empty.usm"], b"");
    run.expect(0, "empty.usm: 416 bytes, video 0, no audio\n", "");
}

#[test]
fn a_film_to_standard_output() {
    let folder = with_streams();
    let line = "$USM pack video audio -k 1 -o - | $USM extract -q -k 1 --video - - | cmp - video";
    folder.shell(line).expect(0, "", "");
    assert_eq!(folder.names(), ["audio", "video"]);
    let full = "usm: standard output: No space left on device\n";
    folder.shell("$USM pack video -o - > /dev/full").expect(2, "", full);
}

#[test]
fn what_can_not_be_packed() {
    let folder = with_streams();
    folder.write("marked", b"#CONTENTS END of the film");
    let marked = "a payload begins with the end marker";
    folder.usm(&["pack", "marked", "-o", "a.usm"]).expect(1, "", &format!("usm: a.usm: refused 15 at 0: {marked}\n"));
    folder.usm(&["pack", "marked", "-o", "a.usm", "--json"]).expect(
        1,
        &format!(
            "{{\"kind\":\"failure\",\"schema\":1,\"file\":\"a.usm\",\"file_hex\":\"612e75736d\",\"refused\":{{\"number\":15,\"place\":0,\"reason\":\"{marked}\"}}}}\n"
        ),
        &format!("usm: a.usm: refused 15 at 0: {marked}\n"),
    );
    let alone = "usm: a.usm: refused 23 at 0: an audio codec without audio\n";
    folder.usm(&["pack", "video", "-o", "a.usm", "--audio-codec", "2"]).expect(1, "", alone);
    let none = "usm: none: No such file or directory\n";
    folder.usm(&["pack", "none", "-o", "a.usm"]).expect(2, "", none);
    assert_eq!(folder.names(), ["audio", "marked", "video"]);
}

/// A payload far into a stream is refused when its turn comes: nothing is left of the film, and on standard output
/// nothing was written.
#[test]
fn what_is_refused_late_leaves_nothing() {
    let folder = with_streams();
    folder.write("marked", &[stream(1, 2 * 65_536), b"#CONTENTS END".to_vec()].concat());
    folder.write("film.usm", b"mine");
    let refused = |film: &str| format!("usm: {film}: refused 15 at 0: a payload begins with the end marker\n");
    for words in ["video marked -k 1 --audio-codec 2", "marked audio", "marked"] {
        folder.shell(&format!("$USM pack {words} -o a.usm")).expect(1, "", &refused("a.usm"));
        folder.shell(&format!("$USM pack {words} -o film.usm --force")).expect(1, "", &refused("film.usm"));
        folder.shell(&format!("$USM pack {words} -o -")).expect(1, "", &refused("-"));
    }
    folder.shell("$USM pack - -o - < <(cat marked)").expect(1, "", &refused("-"));
    assert_eq!(folder.read("film.usm"), b"mine");
    assert_eq!(folder.names(), ["audio", "film.usm", "marked", "video"]);
}

/// What lengths and codecs refuse is refused before a file is begun.
#[test]
fn a_refusal_comes_before_the_file() {
    let folder = with_streams();
    let alone = "usm: none/a.usm: refused 23 at 0: an audio codec without audio\n";
    folder.usm(&["pack", "video", "-o", "none/a.usm", "--audio-codec", "2"]).expect(1, "", alone);
    let none = "usm: none/a.usm: No such file or directory\n";
    folder.usm(&["pack", "video", "-o", "none/a.usm"]).expect(2, "", none);
}

/// So is a name that the film can't have: the streams are not read for it, which here would be an error too.
#[test]
fn a_name_that_is_taken_comes_before_the_streams() {
    let folder = with_streams();
    folder.write("film.usm", b"mine");
    let pack = |output, more: &str| folder.shell(&format!("$USM pack {SHRINKING} -o {output} {more}"));
    pack("film.usm", "").expect(2, "", "usm: film.usm: the file is there already; --force replaces it\n");
    for more in ["", "--force"] {
        let device = "usm: /dev/null: it is no regular file, and --force replaces no others\n";
        pack("/dev/null", more).expect(2, "", device);
    }
    assert_eq!(folder.read("film.usm"), b"mine");
}

/// Each error names the file that it is of: a stream or the film.
#[test]
fn streams_that_change_or_can_not_be_read() {
    let folder = with_streams();
    fs::create_dir(folder.path("folder")).unwrap();
    let left = fs::read(SHRINKING).unwrap().len();
    for (changing, what) in [
        (SHRINKING, &*format!("it shrank while it was read: {left} of 4096 bytes are left")),
        (GROWING, "it grew while it was read: it had 0 bytes"),
        ("folder", "Is a directory"),
        ("none", "No such file or directory"),
        ("/proc/self/mem", "Input/output error"),
    ] {
        let err = format!("usm: {changing}: {what}\n");
        for output in ["a.usm", "-"] {
            folder.usm(&["pack", changing, "audio", "-o", output]).expect(2, "", &err);
            folder.usm(&["pack", "video", changing, "-o", output]).expect(2, "", &err);
        }
    }
    assert_eq!(folder.names(), ["audio", "folder", "video"]);
}

/// A signal that comes in the middle of the film, here at its byte 1,024,000, leaves nothing of it.
#[test]
fn a_run_that_is_killed_leaves_nothing() {
    let folder = Folder::new();
    folder.write("video", &stream(1, 3_000_000));
    folder.write("film.usm", b"mine");
    let killed = |words: &str| folder.shell(&format!("ulimit -c 0; ulimit -f 1000; $USM pack video {words}; echo $?"));
    for words in ["-o a.usm", "-o film.usm --force"] {
        let run = killed(words);
        assert_eq!(run.out, "153\n", "by SIGXFSZ: {run:?}");
    }
    assert_eq!(folder.read("film.usm"), b"mine");
    assert_eq!(folder.names(), ["film.usm", "video"]);
}

#[test]
fn the_longest_film_and_one_that_is_too_long() {
    let folder = Folder::new();
    assert_eq!(folder.shell("truncate -s 1073741825 long").status, 0);
    let long = "usm: a.usm: refused 11 at 0: longer than 1,073,741,824 bytes\n";
    folder.usm(&["pack", "long", "-o", "a.usm"]).expect(1, "", long);
    assert_eq!(folder.shell("truncate -s 1073741824 long").status, 0);
    folder.usm(&["pack", "long", "-o", "a.usm"]).expect(1, "", long);
    assert_eq!(folder.names(), ["long"]);
}

#[test]
fn wrong_arguments() {
    let folder = with_streams();
    for words in [
        "",
        "video",
        "-o a.usm",
        "video audio more -o a.usm",
        "video -o a.usm --audio-codec x",
        "video -o a.usm --json -q",
    ] {
        let run = folder.shell(&format!("$USM pack {words}"));
        assert_eq!((run.status, run.out.as_str()), (2, ""), "{words}");
    }
    let run = folder.usm(&["pack", "video", "-o", "a.usm", "-k", "xyz"]);
    run.expect(2, "", "usm: --key xyz is no key: a key is 1 to 16 hex digits, with or without 0x\n");
    assert_eq!(folder.names(), ["audio", "video"]);
}

#[test]
fn a_film_that_is_there_stays() {
    let folder = with_streams();
    folder.write("a.usm", b"mine");
    let there = "usm: a.usm: the file is there already; --force replaces it\n";
    folder.usm(&["pack", "video", "-o", "a.usm"]).expect(2, "", there);
    assert_eq!(folder.read("a.usm"), b"mine");
    folder.usm(&["pack", "video", "-o", "a.usm", "--force", "-q"]).expect(0, "", "");
    assert_eq!(folder.usm(&["info", "a.usm"]).status, 0);
    assert_eq!(folder.names(), ["a.usm", "audio", "video"]);
}

#[test]
fn a_full_disk_leaves_no_film() {
    let folder = Folder::new();
    let Some(_disk) = SmallDisk::new(&folder) else {
        eprintln!("SKIPPED: a full disk needs root and mount");
        return;
    };
    folder.write("video", &vec![7; 100_000]);
    let full = "usm: disk/a.usm: No space left on device\n";
    folder.usm(&["pack", "video", "-o", "disk/a.usm"]).expect(2, "", full);
    assert_eq!(names(&folder.path("disk")), [""; 0]);
    folder.write("disk/a.usm", b"mine");
    folder.usm(&["pack", "video", "video", "-k", "1", "-o", "disk/a.usm", "--force"]).expect(2, "", full);
    assert_eq!(folder.read("disk/a.usm"), b"mine");
    assert_eq!(names(&folder.path("disk")), ["a.usm"]);
}
