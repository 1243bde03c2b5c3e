use films::{Film, Header, Value};

use crate::support::{Folder, described, named, talkie};

const SONG: &str = "\
song.usm
name    songs/lark.usm
bytes   3296
video   m2v, codec 1 (MPEG), 1453 bytes, closed
audio   adx, codec 2 (ADX), 736 bytes, closed
key     matters: in video from the chunk at 704, in audio from the chunk at 1344
chunks  video  channel 0: 3, 1453 bytes
        audio  channel 0: 2, 736 bytes
        other  channel 0: 1, 0 bytes
        end    channel 0: 2, 0 bytes
";

#[test]
fn the_song_and_f() {
    let folder = Folder::with_films();
    folder.usm(&["info", "song.usm"]).expect(0, SONG, "");
    let f = "\
f.usm
name    none
bytes   448
video   m2v, no codec, 32 bytes, closed
audio   none
key     does not matter: every payload is the same under all keys
chunks  video  channel 0: 1, 32 bytes
        end    channel 0: 1, 0 bytes
";
    folder.usm(&["info", "song.usm", "f.usm"]).expect(0, &format!("{SONG}\n{f}"), "");
}

#[test]
fn a_film_without_chunks_is_unclosed() {
    let run = Folder::with_films().usm(&["info", "empty.usm"]);
    assert_eq!(run.status, 0);
    assert!(run.out.contains("video   m2v, no codec, 0 bytes, unclosed: it has no end chunk\n"), "{}", run.out);
    assert!(run.out.ends_with("chunks  none\n"), "{}", run.out);
}

#[test]
fn a_film_that_is_cut_at_a_chunks_start_is_unclosed() {
    let folder = Folder::with_films();
    let song = folder.read("song.usm");
    let closed = |length: usize| {
        folder.write("part.usm", &song[..length]);
        let run = folder.usm(&["info", "part.usm"]);
        let line = |stream| run.out.lines().find(|line| line.starts_with(stream)).unwrap().ends_with(", closed");
        (run.status, line("video"), line("audio"))
    };
    assert_eq!(closed(3296), (0, true, true));
    assert_eq!(closed(3232), (0, true, false), "without the end of audio");
    assert_eq!(closed(3168), (0, false, false), "without both ends");
    assert_eq!(closed(704), (0, false, false), "without chunks");
}

#[test]
fn a_stream_that_goes_on_after_its_end_is_unclosed() {
    let folder = Folder::new();
    let mut film = Film::new(&Header { audio: Some(None), ..Header::default() });
    film.end(b"@SFV");
    film.end(b"@SFA");
    film.chunk(b"@SFV", 0, 1, b"late");
    folder.write("late.usm", &film.bytes);
    let run = folder.usm(&["info", "late.usm"]);
    assert!(
        run.out.contains("video   m2v, no codec, 4 bytes, unclosed: it goes on after its end chunk\n"),
        "{}",
        run.out
    );
    assert!(run.out.contains("audio   adx, no codec, 0 bytes, closed\n"), "{}", run.out);
    film.end(b"@SFV");
    folder.write("late.usm", &film.bytes);
    assert!(folder.usm(&["info", "late.usm"]).out.contains("video   m2v, no codec, 4 bytes, closed\n"));
}

#[test]
fn a_key_shows_from_certain_lengths_on() {
    let folder = Folder::new();
    let shows = |audio_codec, video: usize, audio: usize, data_type| {
        let mut film = Film::new(&Header { audio: Some(Some(audio_codec)), ..Header::default() });
        film.chunk(b"@SFV", 0, data_type, &vec![0; video]);
        film.chunk(b"@SFA", 0, data_type, &vec![0; audio]);
        folder.write("film.usm", &film.bytes);
        let run = folder.usm(&["info", "film.usm"]);
        let line = run.out.lines().find(|line| line.starts_with("key")).unwrap().to_string();
        (line.contains("in video"), line.contains("in audio"))
    };
    assert_eq!(shows(2, 0x23F, 0x140, 0), (false, false));
    assert_eq!(shows(2, 0x240, 0x140, 0), (true, false));
    assert_eq!(shows(2, 0x23F, 0x141, 0), (false, true));
    assert_eq!(shows(2, 0x240, 0x141, 1), (false, false));
    assert_eq!(shows(2, 0x240, 0x141, 4), (true, true), "type 4 is type 0");
    assert_eq!(shows(4, 0x240, 0x1000, 0), (true, false), "HCA is not masked");
}

#[test]
fn chunks_are_counted_by_kind_and_channel() {
    let folder = Folder::new();
    let mut film = Film::new(&Header { audio: Some(Some(4)), ..Header::default() });
    film.chunk(b"@SFV", 0, 0, b"12");
    for channel in [1, 0, 1] {
        film.chunk(b"@SFA", channel, 0, b"345");
    }
    film.chunk(b"@CUE", 9, 0, b"678");
    folder.write("dub.usm", &film.bytes);
    let run = folder.usm(&["info", "dub.usm"]);
    let chunks = "\
chunks  video  channel 0: 1, 2 bytes
        audio  channel 0: 1, 3 bytes
        audio  channel 1: 2, 6 bytes
        other  channel 9: 1, 0 bytes
";
    assert!(run.out.ends_with(chunks), "{}", run.out);
}

#[test]
fn a_header_may_say_more_of_the_streams() {
    let folder = Folder::new();
    folder.write("a.usm", &talkie());
    let text = "\
video   ivf, codec 9 (VP9), 0 bytes, unclosed: it has no end chunk
        1280 x 720 pixels, 29.97 frames/s, 300 frames, 0:00:10.010
audio   hca, codec 4 (HCA), 0 bytes, unclosed: it has no end chunk
        48000 Hz, stereo, 480,480 samples, 0:00:10.010
key     does not";
    let run = folder.usm(&["info", "a.usm"]);
    assert!(run.out.contains(text), "{}", run.out);
    let run = folder.usm(&["info", "--json", "a.usm"]);
    let video = r#""video":{"codec":9,"codec_name":"VP9","format":"ivf","bytes":0,"closed":false,"shows_key_at":null,"width":1280,"height":720,"frame_rate":"30000/1001","frames":300,"duration_ms":10010}"#;
    let audio = r#""audio":{"codec":4,"codec_name":"HCA","format":"hca","bytes":0,"closed":false,"shows_key_at":null,"sampling_rate":48000,"sound_channels":2,"samples":480480,"duration_ms":10010}"#;
    assert!(run.out.contains(video) && run.out.contains(audio), "{}", run.out);
}

#[test]
fn what_a_header_says_need_not_make_sense() {
    let folder = Folder::new();
    let said = |video: &[(&str, Value)], audio: &[(&str, Value)]| {
        folder.write("a.usm", &described(video, audio));
        let run = folder.usm(&["info", "a.usm"]);
        assert_eq!((run.status, run.err.as_str()), (0, ""));
        let lines =
            run.out.lines().skip_while(|line| !line.starts_with("video")).take_while(|line| !line.starts_with("key"));
        lines.filter_map(|line| line.strip_prefix("        ")).collect::<Vec<_>>().join("; ")
    };
    let codec = ("audio_codec", Value::Byte(7));
    assert_eq!(said(&[("width", Value::Number(5))], &[codec]), "", "a width without a height");
    let rate =
        [("framerate_n", Value::Number(0)), ("framerate_d", Value::Number(1)), ("total_frames", Value::Number(1))];
    assert_eq!(said(&rate, &[codec]), "1 frame", "no frame in any second");
    let rate = [("framerate_n", Value::Number(1)), ("framerate_d", Value::Number(0))];
    assert_eq!(said(&rate, &[codec]), "", "a fraction by 0");
    let odd = [("total_frames", Value::SignedNumber(-1)), ("width", Value::Text(b"5")), ("height", Value::Float(0))];
    assert_eq!(said(&odd, &[codec]), "", "neither negative numbers nor texts nor floats");
    let most = Value::Long(u64::MAX);
    let longest = [("framerate_n", Value::Byte(1)), ("framerate_d", most), ("total_frames", most)];
    let text = "0 frames/s, 18,446,744,073,709,551,615 frames; 1 Hz, 6 channels, 18,446,744,073,709,551,615 samples, \
                5124095576030431:00:15.000";
    let audio = [("num_channels", Value::Byte(6)), ("sampling_rate", Value::Byte(1)), ("total_samples", most)];
    assert_eq!(said(&longest, &audio), text, "no duration where it is too long");
    let run = folder.usm(&["info", "--json", "a.usm"]);
    assert!(
        run.out.contains(r#""frame_rate":"1/18446744073709551615","frames":"18446744073709551615"}"#),
        "{}",
        run.out
    );
    assert!(run.out.contains(r#""sound_channels":6,"samples":"18446744073709551615"}"#), "{}", run.out);
}

#[test]
fn names_move_nothing_on_a_terminal() {
    let folder = Folder::new();
    folder.write("film.usm", &named(b"a\x1B[2J\n\0b", b"", b""));
    let run = folder.usm(&["info", "film.usm"]);
    assert!(run.out.contains("name    a\\u{1b}[2J\\u{a}\\u{0}b\n"), "{}", run.out);
}

#[test]
fn json_has_one_object_a_film() {
    let folder = Folder::with_films();
    let run = folder.usm(&["info", "--json", "song.usm", "cut.usm", "f.usm", "none.usm"]);
    let objects = [
        concat!(
            r#"{"kind":"film","schema":1,"file":"song.usm","file_hex":"736f6e672e75736d","bytes":3296,"#,
            r#""name":"songs/lark.usm","name_hex":"736f6e67732f6c61726b2e75736d","#,
            r#""video":{"codec":1,"codec_name":"MPEG","format":"m2v","bytes":1453,"closed":true,"shows_key_at":704},"#,
            r#""audio":{"codec":2,"codec_name":"ADX","format":"adx","bytes":736,"closed":true,"shows_key_at":1344},"shows_key":true,"#,
            r#""chunks":[{"kind":"video","channel":0,"count":3,"bytes":1453},"#,
            r#"{"kind":"audio","channel":0,"count":2,"bytes":736},{"kind":"other","channel":0,"count":1,"bytes":0},"#,
            r#"{"kind":"end","channel":0,"count":2,"bytes":0}]}"#,
        ),
        r#"{"kind":"failure","schema":1,"file":"cut.usm","file_hex":"6375742e75736d","refused":{"number":1,"place":384,"reason":"bytes run out"}}"#,
        concat!(
            r#"{"kind":"film","schema":1,"file":"f.usm","file_hex":"662e75736d","bytes":448,"name":null,"name_hex":null,"#,
            r#""video":{"codec":null,"format":"m2v","bytes":32,"closed":true,"shows_key_at":null},"audio":null,"#,
            r#""shows_key":false,"chunks":[{"kind":"video","channel":0,"count":1,"bytes":32},"#,
            r#"{"kind":"end","channel":0,"count":1,"bytes":0}]}"#,
        ),
        r#"{"kind":"failure","schema":1,"file":"none.usm","file_hex":"6e6f6e652e75736d","error":"No such file or directory"}"#,
    ];
    let err = "usm: cut.usm: refused 1 at 384: bytes run out\nusm: none.usm: No such file or directory\n";
    run.expect(2, &objects.map(|object| format!("{object}\n")).concat(), err);
}

#[test]
fn names_in_json_are_text_and_hex() {
    let folder = Folder::new();
    folder.write("a.usm", &named(b"\x83\x81\x83C\x83\x93\0\"", b"", b""));
    let run = folder.usm(&["info", "--json", "a.usm"]);
    assert!(
        run.out.contains(r#""name":"メイン\u0000\"","name_hex":"83818343839300227"#.trim_end_matches('7')),
        "{}",
        run.out
    );
    folder.write("b.usm", &named(b"\xFF", b"", b""));
    let run = folder.usm(&["info", "--json", "b.usm"]);
    assert!(run.out.contains("\"name\":\"\u{FFFD}\",\"name_hex\":\"ff\""), "{}", run.out);
}
