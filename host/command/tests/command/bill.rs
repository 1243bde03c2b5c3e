//! The bill of a house, on real files.

use std::collections::BTreeMap;

use films::{Film, Header};
use usm::{Streams, Tenant};

use crate::digest::sha256;
use crate::support::Folder;

pub const HEADING: &str = "tenant,group,video_bytes,audio_bytes,share,video_sha256,audio_sha256\r\n";

/// A stream of this length; streams of different numbers differ.
pub fn stream(number: u8, bytes: usize) -> Vec<u8> {
    (0..bytes).map(|at| (at as u8).wrapping_mul(31).wrapping_add(number)).collect()
}

/// A film with a masked picture and masked sound.
pub fn packed(video: &[u8], audio: &[u8], key: u64) -> Vec<u8> {
    usm::pack(Streams::new(b"film", video).with_audio(audio).with_codecs(Some(1), Some(2)), Some(key)).unwrap()
}

/// A film that shows a key only by its sound, in a masked payload of this length.
pub fn sounding(bytes: usize) -> Vec<u8> {
    let mut film = Film::new(&Header { audio: Some(Some(2)), ..Header::default() });
    film.chunk(b"@SFV", 0, 0, b"picture");
    film.chunk(b"@SFA", 0, 0, &vec![7; bytes]);
    film.end(b"@SFV");
    film.end(b"@SFA");
    film.bytes
}

pub fn line(tenant: u64, group: u64, share: u64, video: &[u8], audio: &[u8]) -> String {
    let (video_bytes, audio_bytes) = (video.len(), audio.len());
    format!("{tenant},{group},{video_bytes},{audio_bytes},{share},{},{}\r\n", sha256(video), sha256(audio))
}

/// The real case: three studios, one cutscene in three containers under their own keys, and one key typed twice.
pub fn house() -> (Folder, Vec<u8>, Vec<u8>) {
    let folder = Folder::new();
    let (video, audio) = (stream(1, 3000), stream(2, 900));
    for (name, key) in [("north.usm", 0x1A), ("east.usm", 0x2B), ("south.usm", 0x3C)] {
        folder.write(name, &packed(&video, &audio, key));
    }
    folder.write(
        "house.csv",
        b"tenant,key,film\n10,1A,north.usm\n20,2B,east.usm\n30,3C,south.usm\n30,FF0000000000003C,south.usm\n",
    );
    (folder, video, audio)
}

#[test]
fn one_cutscene_in_three_containers_is_one_copy() {
    let (folder, video, audio) = house();
    let lines = [10, 20, 30].map(|tenant| line(tenant, 10, 1300, &video, &audio)).concat();
    folder.usm(&["bill", "--csv", "house.csv"]).expect(0, &format!("{HEADING}{lines}"), "");
}

#[test]
fn a_remainder_goes_to_the_lowest_tenants() {
    let folder = Folder::new();
    let (video, audio) = (stream(1, 1000), stream(2, 3));
    folder.write("film.usm", &packed(&video, &audio, 1));
    let highest = u64::MAX;
    folder.write(
        "house.csv",
        format!("film,key,tenant\nfilm.usm,1,{highest}\nfilm.usm,1,0\nfilm.usm,1,9223372036854775808\nfilm.usm,1,10\n")
            .as_bytes(),
    );
    let shares = [(0, 251), (10, 251), (1 << 63, 251), (highest, 250)];
    let lines = shares.map(|(tenant, share)| line(tenant, 0, share, &video, &audio)).concat();
    folder.usm(&["bill", "--csv", "house.csv"]).expect(0, &format!("{HEADING}{lines}"), "");
}

/// A tenant that holds a copy under two keys and in two films bears one share of it.
#[test]
fn twice_is_once() {
    let folder = Folder::new();
    let (video, audio) = (stream(1, 1000), stream(2, 1000));
    folder.write("a.usm", &packed(&video, &audio, 1));
    folder.write("b.usm", &packed(&video, &audio, 2));
    let clear = usm::pack(Streams::new(b"x", &video).with_audio(&audio).with_codecs(Some(1), Some(2)), None).unwrap();
    folder.write("clear.usm", &clear);
    folder.write(
        "house.csv",
        b"tenant,key,film\n1,1,a.usm\n1,FF00000000000001,a.usm\n1,2,b.usm\n2,2,b.usm\n3,,clear.usm\n3,,./clear.usm\n",
    );
    let lines = [(1, 667), (2, 667), (3, 666)].map(|(tenant, share)| line(tenant, 1, share, &video, &audio)).concat();
    folder.usm(&["bill", "--csv", "house.csv"]).expect(0, &format!("{HEADING}{lines}"), "");
    folder.usm(&["bill", "--csv", "--totals", "house.csv"]).expect(
        0,
        "tenant,copies,before,share\r\n1,1,5000,667\r\n2,1,1000,667\r\n3,1,2000,666\r\n",
        "",
    );
}

/// Different streams of the same sizes, and absent audio beside empty audio.
#[test]
fn copies_differ_by_their_bytes() {
    let folder = Folder::new();
    let (one, other) = (stream(1, 1000), stream(9, 1000));
    folder.write("one.usm", &packed(&one, b"", 5));
    folder.write("other.usm", &packed(&other, b"", 5));
    folder.write("silent.usm", &usm::pack(Streams::new(b"film", &one), Some(5)).unwrap());
    folder.write("house.csv", b"tenant,key,film\n1,5,one.usm\n2,5,other.usm\n3,5,silent.usm\n");
    let lines = [line(1, 1, 500, &one, b""), line(2, 2, 1000, &other, b""), line(3, 1, 500, &one, b"")].concat();
    folder.usm(&["bill", "--csv", "house.csv"]).expect(0, &format!("{HEADING}{lines}"), "");
}

#[test]
fn the_order_of_holdings_does_not_matter() {
    let (folder, ..) = house();
    folder.write("other.usm", &packed(&stream(4, 2000), b"", 7));
    let mut holdings = [
        "10,1A,north.usm",
        "20,2B,east.usm",
        "30,3C,south.usm",
        "30,3D,south.usm",
        "7,7,other.usm",
        "8,8,other.usm",
        "7,,other.usm",
    ];
    let mut runs = Vec::new();
    for _ in 0..holdings.len() {
        holdings.rotate_left(1);
        folder.write("house.csv", format!("tenant,key,film\n{}\n", holdings.join("\n")).as_bytes());
        for words in [&["bill", "house.csv"][..], &["bill", "--csv", "house.csv"]] {
            runs.push(folder.usm(words));
        }
        holdings.swap(0, 3);
    }
    assert_eq!(runs[0].status, 0, "{}", runs[0].err);
    assert!(runs.iter().step_by(2).all(|run| *run == runs[0]));
    assert!(runs.iter().skip(1).step_by(2).all(|run| *run == runs[1]));
}

#[test]
fn headings_delimiters_and_further_columns() {
    let (folder, video, audio) = house();
    let lines = [10, 20].map(|tenant| line(tenant, 10, 1950, &video, &audio)).concat();
    for text in [
        "tenant,key,film\n10,1A,north.usm\n20,2B,east.usm\n",
        "Film;TENANT;Key\r\nnorth.usm;10;1a\r\neast.usm;20;0x2B\r\n",
        "\u{FEFF}tenant,key,film\n10,1A,north.usm\n\n20,2B,east.usm",
        "name,key,title,film,tenant\nNorth,1A,Four,north.usm,10\nEast,2B,,east.usm,20\n",
        "tenant, key, film\n 10 , 1A , north.usm \n020,\"2B\",\"east.usm\"\n",
    ] {
        folder.write("house.csv", text.as_bytes());
        folder.usm(&["bill", "--csv", "house.csv"]).expect(0, &format!("{HEADING}{lines}"), "");
        let run = folder.usm_with(&["bill", "--csv", "-"], text.as_bytes());
        run.expect(0, &format!("{HEADING}{lines}"), "");
    }
    std::fs::create_dir(folder.path("lists")).unwrap();
    folder.write("lists/house.csv", b"tenant,key,film\n10,1A,../north.usm\n20,2B,../east.usm\n");
    folder.usm(&["bill", "--csv", "lists/house.csv"]).expect(0, &format!("{HEADING}{lines}"), "");
}

#[test]
fn every_wrong_line_is_reported_before_a_film_is_read() {
    let (folder, ..) = house();
    folder.write(
        "house.csv",
        b"tenant,key,film\n10,11,missing.usm\nx,zz,\n-1,1,north.usm\n1,2\n1,2,3,4\n18446744073709551616,1,north.usm\n,1,north.usm\n5,1,\"a\nb\"\n",
    );
    let rule = "no key: a key is 1 to 16 hex digits, with or without 0x";
    folder.usm(&["bill", "house.csv"]).expect(
        2,
        "",
        &format!(
            "usm: house.csv: line 3: x is no tenant's number; zz is {rule}; no film\n\
             usm: house.csv: line 4: -1 is no tenant's number\n\
             usm: house.csv: line 5: it has 2 fields, and the heading has 3\n\
             usm: house.csv: line 6: it has 4 fields, and the heading has 3\n\
             usm: house.csv: line 7: 18446744073709551616 is no tenant's number\n\
             usm: house.csv: line 8: no tenant\n\
             usm: house.csv: line 9: a quotation mark is left open\n\
             usm: house.csv: line 10: it has 1 field, and the heading has 3\n\
             usm: house.csv: 8 wrong lines; no film was read\n"
        ),
    );
    for (text, what) in [
        ("", "line 1: the heading has no column `tenant`; it needs tenant, key and film"),
        ("1,2,3\n", "line 1: the heading has no column `tenant`; it needs tenant, key and film"),
        ("tenant,film\n", "line 1: the heading has no column `key`; it needs tenant, key and film"),
        ("tenant,key,film,Film\n", "line 1: the heading has the column `film` twice"),
    ] {
        folder.write("house.csv", text.as_bytes());
        folder.usm(&["bill", "house.csv"]).expect(2, "", &format!("usm: house.csv: {what}\n"));
    }
    folder.write("house.csv", b"tenant,key,film\n");
    folder.usm(&["bill", "--csv", "house.csv"]).expect(0, HEADING, "");
    let run = folder.usm(&["bill", "none.csv"]);
    assert!(run.status == 2 && run.err.starts_with("usm: none.csv: "), "{}", run.err);
}

#[test]
fn keys_that_may_be_decimal_are_noted_once() {
    let (folder, ..) = house();
    folder.write("house.csv", b"tenant,key,film\n10,0x1A,north.usm\n20,22,east.usm\n30,33,south.usm\n");
    let run = folder.usm(&["bill", "--csv", "house.csv"]);
    let note = "usm: note: house.csv: 2 keys of decimal digits alone, the first in line 3; all keys are read as hex\n";
    assert_eq!((run.status, run.err.as_str()), (0, note));
}

/// What is refused, missing or unreadable is listed first, and the rest is billed.
#[test]
fn what_is_not_billed() {
    let (folder, video, audio) = house();
    folder.write("cut.usm", &films::f()[..428]);
    std::fs::create_dir(folder.path("folder.usm")).unwrap();
    assert_eq!(folder.shell("mkfifo pipe.usm").status, 0);
    folder.write(
        "house.csv",
        b"tenant,key,film\n10,0x1A,north.usm\n20,0x1,cut.usm\n10,,cut.usm\n5,,gone.usm\n6,,folder.usm\n7,,pipe.usm\n",
    );
    let run = folder.usm(&["bill", "house.csv"]);
    assert_eq!((run.status, run.err.as_str()), (1, ""));
    let first = "This bill is incomplete: 4 films with 5 holdings could not be billed.\n  \
         cut.usm: refused 1 at 384: bytes run out\n    line 4: tenant 10\n    line 3: tenant 20\n  \
         folder.usm: it is no regular file\n    line 6: tenant 6\n  \
         gone.usm: No such file or directory\n    line 5: tenant 5\n  \
         pipe.usm: it is no regular file\n    line 7: tenant 7\n\n\
         6 holdings by 5 tenants of 5 films\n";
    assert!(run.out.starts_with(first), "{}", run.out);
    let run = folder.usm(&["bill", "--csv", "house.csv"]);
    assert_eq!((run.status, run.out), (1, format!("{HEADING}{}", line(10, 10, 3900, &video, &audio))));
    assert!(run.err.starts_with("usm: line 4: tenant 10: cut.usm: refused 1 at 384: bytes run out\n"), "{}", run.err);
    assert!(run.err.ends_with("usm: this bill is incomplete: 4 films could not be billed\n"), "{}", run.err);
    let run = folder.usm(&["bill", "--csv", "--totals", "house.csv"]);
    assert_eq!(
        run.out,
        "tenant,copies,before,share\r\n5,0,0,0\r\n6,0,0,0\r\n7,0,0,0\r\n10,1,3900,3900\r\n20,0,0,0\r\n"
    );
    let run = folder.usm(&["bill", "--json", "house.csv"]);
    let unbilled = run.out.lines().nth(1).unwrap();
    assert!(
        unbilled.starts_with("{\"kind\":\"unbilled\",\"schema\":1,\"line\":4,\"tenant\":\"10\",\"file\":\"cut.usm\"")
    );
    assert!(run.out.contains("{\"kind\":\"bill\",\"schema\":1,") && run.out.contains("\"incomplete\":true"));
}

/// A film that shows only some digits: keys that differ elsewhere are one class.
#[test]
fn keys_that_differ_where_a_film_shows_nothing() {
    let folder = Folder::new();
    folder.write("short.usm", &sounding(0x141));
    folder.write("plain.usm", &sounding(0x140));
    folder.write(
        "house.csv",
        b"tenant,key,film\n1,0x10,short.usm\n2,0x4410,short.usm\n3,0x11,short.usm\n4,0x1,plain.usm\n5,,plain.usm\n",
    );
    let run = folder.usm(&["bill", "house.csv"]);
    assert_eq!((run.status, run.err.as_str()), (0, ""), "{}", run.out);
    for part in [
        "Its keys differ only where this film shows nothing",
        "It shows nothing of a key",
        "    --------------++  + counts for this film, - does not\n",
        "    ----------------  + counts for this film, - does not\n",
        "    as stored         tenant 5\n",
    ] {
        assert!(run.out.contains(part), "{part}: {}", run.out);
    }
    assert_eq!(groups(&folder), [(1, 1), (2, 1), (3, 3), (4, 4), (5, 4)]);
}

/// The group of each tenant, where each holds one film.
fn groups(folder: &Folder) -> Vec<(u64, u64)> {
    let run = folder.usm(&["bill", "--csv", "house.csv"]);
    let number = |word: Option<&str>| word.unwrap().parse().unwrap();
    run.out.lines().skip(1).map(|line| (number(line.split(',').next()), number(line.split(',').nth(1)))).collect()
}

/// For one film and at most 16 tenants the bill is the proved statement.
#[test]
fn the_bill_of_one_film_is_the_statement() {
    let folder = Folder::new();
    let films =
        [packed(&stream(1, 5000), &stream(2, 700), 9), sounding(0x141), sounding(0x143), sounding(0x159), films::f()];
    for (number, film) in films.iter().enumerate() {
        folder.write("film.usm", film);
        for seed in 0..12_u64 {
            let tenants: Vec<Tenant> = (0..=seed)
                .map(|at| Tenant {
                    number: at.wrapping_mul(0x9E37_79B9_7F4A_7C15) >> 7,
                    key: [9, 0xFF09, 0xFF00_0000_0000_0009, 0x0A09, 0x0900_0009][at as usize % 5] + (at % 3) / 2,
                })
                .collect();
            let text: String =
                tenants.iter().map(|tenant| format!("{},0x{:x},film.usm\n", tenant.number, tenant.key)).collect();
            folder.write("house.csv", format!("tenant,key,film\n{text}").as_bytes());
            let stated: Vec<String> = usm::statement(film, &tenants)
                .unwrap()
                .iter()
                .map(|share| format!("{},{},{}", share.tenant, share.group, share.bytes))
                .collect();
            let run = folder.usm(&["bill", "--csv", "house.csv"]);
            let billed: Vec<String> = run
                .out
                .lines()
                .skip(1)
                .map(|line| {
                    let fields: Vec<&str> = line.split(',').collect();
                    [fields[0], fields[1], fields[4]].join(",")
                })
                .collect();
            assert_eq!(billed, stated, "film {number}, {} tenants", tenants.len());
        }
    }
}

/// The first byte at which two copies of a film differ, as unpacking under both keys has it.
#[test]
fn where_two_copies_of_a_film_part() {
    let folder = Folder::new();
    let film = packed(&stream(1, 5000), &stream(2, 700), 9);
    folder.write("film.usm", &film);
    folder.write("sound.usm", &sounding(0x150));
    folder.write(
        "house.csv",
        b"tenant,key,film\n1,0x9,film.usm\n2,0x8,film.usm\n3,,film.usm\n1,0x9,sound.usm\n2,0x909,sound.usm\n",
    );
    let run = folder.usm(&["bill", "--json", "house.csv"]);
    for (name, bytes, keys) in [
        ("film.usm", film.clone(), [Some(9), Some(8)]),
        ("film.usm", film, [Some(9), None]),
        ("sound.usm", sounding(0x150), [Some(9), Some(0x909)]),
    ] {
        let [one, other] = keys.map(|key| usm::extract(&bytes, usm::Reading::default(), key).unwrap());
        let parts = |one: &[u8], other: &[u8]| one.iter().zip(other).position(|(one, other)| one != other);
        let audio = parts(one.audio.as_ref().unwrap(), other.audio.as_ref().unwrap());
        let (stream, byte) = match parts(&one.video, &other.video) {
            Some(byte) => ("video", byte),
            None => ("audio", audio.unwrap()),
        };
        let letters = if stream == "video" { b"@SFV" } else { b"@SFA" };
        let chunk = usm::list(&bytes, usm::Reading::default())
            .unwrap()
            .iter()
            .find(|chunk| chunk.letters == *letters && !chunk.payload.is_empty())
            .unwrap()
            .start;
        let class = keys[1].map_or("null".to_string(), |key: u64| format!("\"{key:016X}\""));
        let part = format!("\"stream\":\"{stream}\",\"byte\":{byte},\"chunk\":{chunk},");
        let found = run.out.lines().any(|line| {
            line.contains("\"kind\":\"copy\"")
                && line.contains(&format!("\"file\":\"{name}\""))
                && line.contains(&format!("\"key\":{class},"))
                && line.contains(&part)
        });
        assert!(found, "{name} {class} {part}\n{}", run.out);
    }
}

/// The numbers of all forms are those of the CSV.
#[test]
fn all_forms_say_the_same() {
    let (folder, ..) = house();
    folder.write("other.usm", &packed(&stream(4, 2000), &stream(5, 11), 7));
    folder.write("house.csv", b"tenant,key,film,name,month\n10,0x1A,north.usm,North,May\n20,0x2B,east.usm,East,June\n30,0x3C,south.usm,,\n30,0x3D,south.usm,South,\n10,0x7,other.usm,,\n20,0x7,other.usm,,\n");
    let csv = folder.usm(&["bill", "--csv", "house.csv"]);
    let mut sums: BTreeMap<u64, u64> = BTreeMap::new();
    let mut copies: BTreeMap<(String, String), u64> = BTreeMap::new();
    for line in csv.out.lines().skip(1) {
        let fields: Vec<&str> = line.split(',').collect();
        *sums.entry(fields[0].parse().unwrap()).or_default() += fields[4].parse::<u64>().unwrap();
        *copies.entry((fields[5].to_string(), fields[6].to_string())).or_default() += fields[4].parse::<u64>().unwrap();
    }
    assert_eq!(copies.len(), 3);
    let json = folder.usm(&["bill", "--json", "house.csv"]);
    let objects: Vec<serde_json::Value> = json.out.lines().map(|line| serde_json::from_str(line).unwrap()).collect();
    assert!(objects.iter().all(|object| object["schema"] == 1 && object["kind"].is_string()));
    let of_kind = |kind: &'static str| objects.iter().filter(move |object| object["kind"] == kind);
    let totals: BTreeMap<u64, u64> = of_kind("total")
        .map(|object| (object["tenant"].as_str().unwrap().parse().unwrap(), object["share"].as_u64().unwrap()))
        .collect();
    assert_eq!(totals, sums);
    for copy in of_kind("copy") {
        let digests = ["video", "audio"].map(|stream| copy[stream]["sha256"].as_str().unwrap().to_string());
        let bytes: u64 = copy["shares"].as_array().unwrap().iter().map(|share| share["bytes"].as_u64().unwrap()).sum();
        assert_eq!(copies[&digests.into()], bytes);
        assert_eq!(copy["video"]["bytes"].as_u64().unwrap() + copy["audio"]["bytes"].as_u64().unwrap(), bytes);
    }
    assert_eq!(of_kind("holding").count(), 6);
    let june = of_kind("holding").find(|object| object["further"]["month"] == "June").unwrap();
    let shared = of_kind("copy").find(|copy| copy["copy"] == june["copy"]).unwrap();
    assert!(shared["films"].as_array().unwrap().iter().any(|film| film["file"] == "east.usm"), "{shared}");
    assert!(of_kind("bill").all(|bill| bill["before"]["copies"] == 5 && bill["now"]["copies"] == 3));
    let text = folder.usm(&["bill", "house.csv"]);
    assert!(text.out.contains("Copy 3 of 3") && !text.out.contains("Copy 4"), "{}", text.out);
    assert!(text.out.contains("filed before                 5"), "{}", text.out);
    for (tenant, sum) in &sums {
        let row = text.out.lines().find(|row| row.split_whitespace().next() == Some(&tenant.to_string())).unwrap();
        assert_eq!(row.split_whitespace().nth(3).unwrap().replace(',', ""), sum.to_string());
    }
    let totals = folder.usm(&["bill", "--totals", "house.csv"]);
    assert!(text.out.contains(&totals.out), "{}", totals.out);
    assert_eq!(folder.usm(&["bill", "--csv", "--json", "house.csv"]).status, 2);
}
