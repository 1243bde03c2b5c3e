//! Memory: a window where a film is read piece by piece, and the longest masked payload where it gets another key or is
//! billed; its length where it is read whole; where there is less, an error.

use films::{Film, Header};

use crate::support::Folder;

const MIB: usize = 1 << 20;

/// Runs the command with so many bytes for all that it allocates.
fn with_memory(folder: &Folder, bytes: usize, words: &str) -> (i32, String) {
    let run = folder.shell(&format!("ulimit -d {}; $USM {words} > /dev/null", bytes / 1024));
    (run.status, run.err)
}

/// What a film takes that is read piece by piece, whatever its length.
const WINDOW: usize = 24 * MIB;

#[test]
fn films_that_are_read_piece_by_piece_take_a_window() {
    let folder = Folder::new();
    let film = films::large(b"large", 200 * MIB);
    folder.write("large.usm", &film);
    folder.write("holdings.csv", b"tenant,key,film\n1,1,large.usm\n2,2,large.usm\n3,FF00000000000001,large.usm\n");
    for words in [
        "extract large.usm -k 1",
        "extract --force large.usm",
        "extract --force -k 1 - < large.usm",
        "info large.usm",
        "profile large.usm",
        "table large.usm",
        "table --json large.usm",
        "csv large.usm",
        "list large.usm",
        "list --csv large.usm",
        "list --json large.usm",
        "keys 1 2 large.usm",
        "keys 1 1 large.usm",
        "statement <(echo 1,2) large.usm",
        "statement --why <(printf '1,1\\n2,2\\n') large.usm",
        "rekey --from 1 --to 2 large.usm",
        "index large.usm",
        "seek large.usm 1000",
        "seek large.usm 1000 --index large.usm-index --check",
        "digest -k 1 large.usm",
        "digest large.usm",
        "bill holdings.csv",
        "bill --ledger ledger holdings.csv 2>/dev/null",
    ] {
        assert_eq!(with_memory(&folder, WINDOW, words), (0, String::new()), "{words}");
    }
}

/// One payload of 300 MB, which the command makes clear piece by piece. To give it another key it holds the payload.
#[test]
fn a_masked_payload_takes_a_window() {
    let folder = Folder::new();
    let mut film = Film::new(&Header::default());
    let payload = vec![7; 300_000_000];
    film.chunk(b"@SFV", 0, 0, &payload);
    folder.write("film.usm", &film.bytes);
    folder.write("small.usm", &films::f());
    for words in ["extract film.usm", "extract --force -k 1 film.usm", "digest -k 1 film.usm"] {
        assert_eq!(with_memory(&folder, WINDOW, words), (0, String::new()), "{words}");
    }
    let mut clear = payload;
    usm::Mask::Video.clear(1, &mut clear);
    assert!(std::fs::read(folder.path("film.m2v")).unwrap() == clear, "it is another stream");
    let rekey = "rekey --from 1 --to 2";
    assert_eq!(with_memory(&folder, clear.len() + WINDOW, &format!("{rekey} film.usm")), (0, String::new()));
    let (status, err) = with_memory(&folder, clear.len() / 2, &format!("{rekey} --force film.usm small.usm"));
    assert_eq!((status, err), (2, format!("usm: film.usm: no memory for {} bytes\n", clear.len())));
    assert!(folder.path("small.rekeyed.usm").exists(), "the others go on");
}

/// Tenants go through a bill one by one: their names, 40 MB in all, are never in memory together.
#[test]
fn a_bill_takes_no_memory_for_its_tenants() {
    let folder = Folder::new();
    folder.write("film.usm", &films::f());
    let name = "n".repeat(1000);
    let lines: String = (0..40_000).map(|tenant| format!("{tenant},0x1,film.usm,{name}\n")).collect();
    folder.write("holdings.csv", format!("tenant,key,film,name\n{lines}").as_bytes());
    for form in ["", "--csv", "--json", "--totals", "--html page.html", "--html page.html --tenant 7"] {
        let words = format!("bill {form} holdings.csv");
        assert_eq!(with_memory(&folder, 40 * MIB, &words), (0, String::new()), "{form}");
    }
}

/// Commands that read a film whole.
#[test]
fn films_that_are_read_whole_take_their_length() {
    let folder = Folder::new();
    let film = films::large(b"large", 200 * MIB);
    folder.write("large.usm", &film);
    folder.write("small.usm", &films::f());
    for words in ["table --at 32 large.usm", "salvage --all --force large.usm"] {
        assert_eq!(with_memory(&folder, film.len() + 64 * MIB, words), (0, String::new()), "{words}");
        let (status, err) = with_memory(&folder, film.len() / 2, &format!("{words} small.usm"));
        assert_eq!((status, err), (2, format!("usm: large.usm: no memory for {} bytes\n", film.len())));
    }
}

/// A table of the header that runs over later blocks is no reason to unpack the film.
#[test]
fn a_table_that_reaches_over_the_chunks() {
    let folder = Folder::new();
    let mut film = Film::new(&Header::default());
    film.chunk(b"@SFV", 0, 0, &vec![0; 100 * MIB]);
    film.end(b"@SFV");
    film.bytes[36..40].copy_from_slice(&424_u32.to_be_bytes());
    folder.write("reach.usm", &film.bytes);
    folder.write("plain.usm", &films::f());
    for words in ["info reach.usm plain.usm", "keys 1 2 reach.usm plain.usm", "list reach.usm"] {
        assert_eq!(with_memory(&folder, WINDOW, words), (0, String::new()), "{words}");
    }
}

#[test]
fn packing_takes_a_window() {
    let folder = Folder::new();
    folder.write("video", &vec![1; 150 * MIB]);
    folder.write("audio", &vec![2; 50 * MIB]);
    for words in [
        "pack video audio -o film.usm -k 1 --audio-codec 2",
        "pack video audio -o other.usm",
        "pack - audio -o third.usm < video",
        "pack video audio -o - -k 1",
    ] {
        assert_eq!(with_memory(&folder, WINDOW, words), (0, String::new()), "{words}");
    }
}

#[test]
fn a_stream_by_a_pipe_takes_its_length() {
    let folder = Folder::new();
    folder.write("video", &vec![1; 150 * MIB]);
    folder.write("audio", b"sound");
    let words = "pack - audio -o film.usm -k 1 < <(cat video)";
    assert_eq!(with_memory(&folder, 150 * MIB + 16 * MIB + WINDOW, words), (0, String::new()));
    let (status, err) = with_memory(&folder, 100 * MIB, &words.replace("film.usm", "other.usm"));
    assert_eq!(status, 2);
    assert!(err.starts_with("usm: -: no memory for "), "{err}");
    assert_eq!(folder.names(), ["audio", "film.usm", "video"]);
}

#[test]
fn moving_takes_both_films() {
    let folder = Folder::new();
    let film = usm::pack(usm::Streams::new(b"large", &vec![1; 200 * MIB]), None).unwrap();
    folder.write("moved.usm", &film);
    let most = 2 * film.len() + 64 * MIB;
    assert_eq!(with_memory(&folder, most, "to-old moved.usm"), (0, String::new()));
    assert_eq!(with_memory(&folder, most, "from-old moved.old.usm"), (0, String::new()));
    for words in ["to-old --force moved.usm", "from-old --force moved.old.usm"] {
        let (status, err) = with_memory(&folder, film.len() + film.len() / 2, words);
        assert_eq!(status, 2);
        assert!(err.contains(": no memory for "), "{err}");
    }
}

#[test]
fn a_list_takes_no_memory_for_its_chunks() {
    let folder = Folder::new();
    let mut film = Film::new(&Header::default());
    let chunks = 6_000_000;
    for _ in 0..chunks {
        film.bytes.extend(b"tiny\0\0\0\0");
    }
    // The last one leads past the end.
    film.bytes.extend(b"last\0\0\xFF\xFF");
    film.bytes.extend([0; 37]);
    folder.write("tiny.usm", &film.bytes);
    for words in ["info tiny.usm", "list tiny.usm", "list --json tiny.usm"] {
        assert_eq!(with_memory(&folder, WINDOW, words), (0, String::new()), "{words}");
    }
}

#[test]
fn a_name_as_long_as_a_film_takes_nothing_more() {
    let folder = Folder::new();
    let name = b"\x83\x81".repeat(50 * MIB);
    let film = Film::new(&Header { name: Some(&name), ..Header::default() }).bytes;
    folder.write("name.usm", &film);
    let most = film.len() + 64 * MIB;
    for words in [
        "info name.usm",
        "info --json name.usm",
        "table name.usm",
        "table --json --limit 1G name.usm",
        "extract name.usm",
    ] {
        assert_eq!(with_memory(&folder, most, words), (0, String::new()), "{words}");
    }
}

/// Where there is no memory for something small, the command says so and ends by no signal.
#[test]
fn too_little_memory_is_an_error() {
    let folder = Folder::with_films();
    let mut refused = 0;
    for kilobytes in (300..1000).step_by(50) {
        for words in ["info song.usm", "extract --force -j2 song.usm f.usm", "bill song.usm"] {
            let run = folder.shell(&format!("ulimit -d {kilobytes}; exec $USM {words}"));
            // 127 is the loader's.
            assert!([0, 1, 2, 127].contains(&run.status), "{kilobytes} KiB: {words}: {run:?}");
            refused += usize::from(run.status == 2 && run.err.starts_with("memory allocation of "));
        }
    }
    assert!(refused > 0);
}
