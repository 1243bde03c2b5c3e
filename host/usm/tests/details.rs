//! What a header's tables say of the streams beyond their codecs.

use std::io::Cursor;
use std::time::Duration;

use films::{Film, ShortReads, Value, table};
use usm::{AudioDetails, Details, FrameRate, Reader, Reading, Tables, VideoDetails};

fn row(columns: &[(&str, Value)]) -> Vec<u8> {
    let names: Vec<&[u8]> = columns.iter().map(|(name, _)| name.as_bytes()).collect();
    let values: Vec<Value> = columns.iter().map(|(_, value)| *value).collect();
    table(&names, &[&values])
}

fn details_of(film: &[u8]) -> Details {
    let details = |film: &[u8], most| {
        let reader = Reader::new(ShortReads::new(Cursor::new(film), most), Reading::default()).unwrap();
        reader.header().details
    };
    let whole = details(film, usize::MAX);
    assert_eq!(details(film, 7), whole, "however the film is read");
    whole
}

const VIDEO: [(&str, Value); 4] = [
    ("width", Value::Short(640)),
    ("framerate_n", Value::Number(25)),
    ("framerate_d", Value::Byte(1)),
    ("total_frames", Value::Long(51)),
];

#[test]
fn what_is_there_is_said() {
    let audio = [("total_samples", Value::Number(22051)), ("sampling_rate", Value::SignedNumber(22050))];
    let film = Film::with_tables(&row(&[("width", Value::Byte(1))]), &row(&VIDEO), Some(&row(&audio)));
    let Details { video, audio, .. } = details_of(&film.bytes);
    assert_eq!((video.width, video.height, video.frames), (Some(640), None, Some(51)));
    assert_eq!(video.frame_rate, FrameRate::new(25, 1));
    assert_eq!(video.duration(), Some(Duration::from_millis(2040)));
    assert_eq!((audio.sampling_rate, audio.channels, audio.samples), (Some(22050), None, Some(22051)));
    assert_eq!(audio.duration(), Some(Duration::new(1, 45_351)));
}

#[test]
fn nothing_is_said_without_columns() {
    let film = films::f();
    assert_eq!(details_of(&film), Details::default());
    assert_eq!((VideoDetails::default().duration(), AudioDetails::default().duration()), (None, None));
}

/// The name may be so long that it is not copied, and the header so long that it is read in several pieces.
#[test]
fn a_long_name_hides_nothing() {
    for length in [10, 20_000, 100_000, 1 << 20] {
        let name = vec![b'n'; length];
        let film = Film::with_tables(&row(&[("filename", Value::Data(&name))]), &row(&VIDEO), None);
        assert_eq!(details_of(&film.bytes).video.width, Some(640), "{length}");
    }
}

/// A table may be longer than its block, and even than the header: more of the film is read then.
#[test]
fn tables_that_reach_over_their_block() {
    let mut film = Film::with_tables(&row(&[]), &row(&VIDEO), None);
    film.chunk(b"@SFV", 0, 0, &[7; 50_000]);
    let video_table = film.bytes.windows(4).enumerate().filter(|(_, part)| *part == b"@UTF").nth(1).unwrap().0;
    film.bytes[video_table + 4..][..4].copy_from_slice(&40_000_u32.to_be_bytes());
    assert_eq!(details_of(&film.bytes).video.frames, Some(51));
}

/// The last column of a name counts, as for codecs.
#[test]
fn columns_are_read_as_the_others_are() {
    let twice = [("width", Value::Byte(1)), ("width", Value::Byte(2))];
    let film = Film::with_tables(&row(&[]), &row(&twice), None);
    assert_eq!(details_of(&film.bytes).video.width, Some(2));
    // A column of storage 1 has nothing in the rows in one reading of tables, and its value there in the other.
    let mut film = Film::with_tables(&row(&[]), &row(&[("width", Value::Byte(9))]), None).bytes;
    let column = film.windows(5).position(|part| part == [0x50, 0, 0, 0, 0]).unwrap();
    film[column] = 0x10;
    let width = |tables| {
        let reader = Reader::new(Cursor::new(&film), Reading::default().with_tables(tables)).unwrap();
        reader.header().details.video.width
    };
    assert_eq!((width(Tables::Original), width(Tables::ZeroColumns)), (Some(9), Some(0)));
}
