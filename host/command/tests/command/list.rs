use films::{Film, Header};

use crate::support::{Folder, dubbed};

const F: &str = "\
f.usm: 2 chunks
 start  kind   type  channel  length  letters
   320  video     0        0      32  @SFV
   384  end       0        0       0  @SFV
";

#[test]
fn chunks_in_their_order() {
    let folder = Folder::with_films();
    folder.usm(&["list", "f.usm"]).expect(0, F, "");
    folder.usm(&["list", "empty.usm", "f.usm"]).expect(0, &format!("empty.usm: 0 chunks\n\n{F}"), "");
    let run = folder.usm(&["list", "song.usm"]);
    assert_eq!(run.out.lines().count(), 10);
    assert!(run.out.contains("\n  2080  audio     1        0     336  @SFA\n"), "{}", run.out);
    assert!(
        folder.usm(&["list", "--no-audio", "song.usm"]).out.contains("\n  2080  audio     1        0       0  @SFA\n")
    );
}

/// More chunks than are held while a film is looked at.
#[test]
fn many_chunks() {
    let folder = Folder::new();
    let mut film = Film::new(&Header::default());
    let first = film.bytes.len();
    const COUNT: usize = 140_000;
    for number in 0..COUNT {
        film.chunk(b"@SFV", 0, (number % 4) as u8, &[7; 32][..number % 33]);
    }
    folder.write("film.usm", &film.bytes);
    let chunks = usm::list(&film.bytes, usm::Reading::default()).unwrap();
    let wide = film.bytes.len().to_string().len();
    let mut expected =
        format!("film.usm: {COUNT} chunks\n{:>wide$}  kind   type  channel  {:>wide$}  letters\n", "start", "length");
    for chunk in &chunks {
        let (start, data_type, length) = (chunk.start, chunk.data_type, chunk.payload.len());
        expected += &format!("{start:>wide$}  video  {data_type:>4}  {:>7}  {length:>wide$}  @SFV\n", 0);
    }
    assert_eq!(chunks.iter().next().unwrap().start, first);
    let run = folder.usm(&["list", "film.usm"]);
    assert!(run.out == expected, "the lists differ");
    assert_eq!(folder.usm(&["list", "--csv", "film.usm"]).out.lines().count(), COUNT + 1);
}

#[test]
fn audio_of_one_channel() {
    let folder = Folder::new();
    folder.write("film.usm", &dubbed());
    let run = folder.usm(&["list", "--csv", "--channel", "1", "film.usm"]);
    let lengths: Vec<&str> = run.out.lines().skip(1).map(|line| line.rsplit(',').nth(1).unwrap()).collect();
    assert_eq!(lengths, ["7", "0", "11", "0", "11", "0", "0"]);
    assert_eq!(folder.usm(&["list", "--channel", "256", "film.usm"]).status, 2);
    assert_eq!(folder.usm(&["list", "--channel", "1", "--no-audio", "film.usm"]).status, 2);
}

#[test]
fn csv_names_the_film_of_each_chunk() {
    let folder = Folder::with_films();
    folder.write("a,b.usm", &films::f());
    folder.usm(&["list", "--csv", "cut.usm", "f.usm", "empty.usm", "a,b.usm"]).expect(
        1,
        "file,start,kind,type,channel,length,letters\r\n\
         f.usm,320,video,0,0,32,@SFV\r\nf.usm,384,end,0,0,0,@SFV\r\n\
         \"a,b.usm\",320,video,0,0,32,@SFV\r\n\"a,b.usm\",384,end,0,0,0,@SFV\r\n",
        "usm: cut.usm: refused 1 at 384: bytes run out\n",
    );
    assert_eq!(folder.usm(&["list", "--csv", "--json", "f.usm"]).status, 2);
}

#[test]
fn json_has_an_object_for_each_chunk() {
    let folder = Folder::new();
    let mut film = Film::new(&Header { audio: Some(None), ..Header::default() });
    let start = film.bytes.len();
    film.chunk(b"@SFA", 7, 3, b"sound");
    folder.write("film.usm", &film.bytes);
    folder.usm(&["list", "--json", "film.usm"]).expect(
        0,
        &format!(
            "{{\"kind\":\"chunks\",\"schema\":1,\"file\":\"film.usm\",\"file_hex\":\"66696c6d2e75736d\",\"chunks\":\
             [{{\"start\":{start},\"kind\":\"audio\",\"type\":3,\"channel\":7,\"length\":5,\"letters\":\"@SFA\"}}]}}\n"
        ),
        "",
    );
}

#[test]
fn letters_may_be_any_bytes() {
    let folder = Folder::new();
    let mut film = Film::new(&Header::default());
    film.chunk(b"\x1B[2J", 0, 0, &[0; 32]);
    film.chunk(b"@ \x83\\", 0, 0, &[0; 32]);
    folder.write("film.usm", &film.bytes);
    let run = folder.usm(&["list", "film.usm"]);
    let letters: Vec<&str> = run.out.lines().skip(2).map(|line| line.rsplit("  ").next().unwrap()).collect();
    assert_eq!(letters, ["\\u{1b}[2J", "@ ソ"], "{}", run.out);
    let run = folder.usm(&["list", "--json", "film.usm"]);
    assert!(run.out.contains(r#""letters":"\u001b[2J""#) && run.out.contains(r#""letters":"@ ソ""#), "{}", run.out);
}
