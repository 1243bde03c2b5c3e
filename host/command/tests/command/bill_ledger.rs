//! The ledger: what is known is not read again, a killed run loses nothing, and damage is refused.

use std::fs::{self, File};
use std::process::{Command, Stdio};
use std::time::{Duration, SystemTime};

use rusqlite::Connection;

use crate::bill::{packed, stream};
use crate::support::{Folder, USM};

/// A house with this many films, each held by three tenants under three keys, two of which are one class.
fn house(films: u64) -> Folder {
    let folder = Folder::new();
    let mut text = "tenant,key,film\n".to_string();
    for number in 0..films {
        let name = format!("{number}.usm");
        write_old(&folder, &name, &packed(&stream(number as u8, 9000), &stream(2, 700), number));
        for (tenant, key) in [(1, number), (2, number | 0xFF << 56), (3 + number % 5, number + 1)] {
            text.push_str(&format!("{tenant},0x{key:X},{name}\n"));
        }
    }
    folder.write("house.csv", text.as_bytes());
    folder
}

/// Writes a file that was last changed an hour ago: a ledger does not recognise a newer one by its time.
fn write_old(folder: &Folder, name: &str, bytes: &[u8]) {
    let path = folder.write(name, bytes);
    File::options()
        .write(true)
        .open(path)
        .unwrap()
        .set_modified(SystemTime::now() - Duration::from_secs(3600))
        .unwrap();
}

fn note(known: u64, read: u64) -> String {
    format!("usm: note: ledger: {known} films were known, {read} were read\n")
}

const WORDS: [&str; 5] = ["bill", "--csv", "house.csv", "--ledger", "ledger"];

#[test]
fn what_is_known_is_not_read_again() {
    let folder = house(9);
    let plain = folder.usm(&["bill", "--csv", "house.csv"]).out;
    folder.usm(&WORDS).expect(0, &plain, &note(0, 9));
    folder.usm(&WORDS).expect(0, &plain, &note(9, 0));
    for words in [&["bill", "house.csv"][..], &["bill", "--json", "house.csv"]] {
        let with_ledger = folder.usm(&[words, &["--ledger", "ledger"]].concat());
        assert_eq!(with_ledger.out, folder.usm(words).out, "reasons and all");
        assert_eq!(with_ledger.err, note(9, 0));
    }
    // One film is changed, one is moved, one is copied.
    write_old(&folder, "3.usm", &packed(&stream(99, 5000), b"", 3));
    fs::rename(folder.path("4.usm"), folder.path("moved.usm")).unwrap();
    fs::copy(folder.path("5.usm"), folder.path("copy.usm")).unwrap();
    let text = String::from_utf8(folder.read("house.csv")).unwrap();
    folder.write("house.csv", format!("{}4,1,copy.usm\n", text.replace("4.usm", "moved.usm")).as_bytes());
    let plain = folder.usm(&["bill", "--csv", "house.csv"]).out;
    folder.usm(&WORDS).expect(0, &plain, &note(7, 3));
    // The copy is too new to be known by its time.
    folder.usm(&WORDS).expect(0, &plain, &note(9, 1));
}

#[test]
fn a_new_key_is_learnt_and_a_refusal_is_known() {
    let folder = house(2);
    write_old(&folder, "cut.usm", &films::f()[..428]);
    folder.usm(&WORDS);
    let text = String::from_utf8(folder.read("house.csv")).unwrap();
    // A class of keys that is known, one that is not, a lower tenant with another, and a film that is refused.
    folder.write(
        "house.csv",
        format!("{text}9,0xAA00000000000000,0.usm\n9,0x77,1.usm\n0,0x78,1.usm\n9,1,cut.usm\n").as_bytes(),
    );
    let plain = folder.usm(&["bill", "--json", "house.csv"]);
    assert_eq!(plain.status, 1);
    let words = ["bill", "--json", "house.csv", "--ledger", "ledger"];
    folder.usm(&words).expect(1, &plain.out, &note(1, 2));
    folder.usm(&words).expect(1, &plain.out, &note(3, 0));
}

#[test]
fn a_film_that_changes_back_and_forth() {
    let folder = house(1);
    let films = [1, 2].map(|number| packed(&stream(number, 4000), b"", 0));
    let bills = films.each_ref().map(|film| {
        write_old(&folder, "0.usm", film);
        folder.usm(&["bill", "--csv", "house.csv"]).out
    });
    assert_ne!(bills[0], bills[1]);
    for turn in [0, 1, 0, 1, 1] {
        folder.write("0.usm", &films[turn]);
        let run = folder.usm(&WORDS);
        assert_eq!((run.status, &run.out), (0, &bills[turn]));
    }
}

#[test]
fn what_is_not_a_ledger_is_left_unchanged() {
    let folder = house(2);
    folder.usm(&WORDS);
    let good = folder.read("ledger");
    let refused = |bytes: &[u8], why: &str| {
        folder.write("ledger", bytes);
        let run = folder.usm(&WORDS);
        assert_eq!((run.status, run.out.as_str()), (2, ""), "{}", run.err);
        assert!(run.err.starts_with("usm: ledger: ") && run.err.contains(why), "{}", run.err);
        assert_eq!(folder.read("ledger"), bytes);
        let beside: Vec<String> = folder.names().into_iter().filter(|name| name.starts_with("ledger")).collect();
        assert_eq!(beside, ["ledger"]);
    };
    refused(
        b"This is a text, and it is longer than the header of a database, which has one hundred bytes, is it not?",
        "not a ledger",
    );
    refused(&good[..good.len() - 100], "damaged");
    folder.write("ledger", &good);
    change(&folder, "PRAGMA user_version = 2");
    refused(&folder.read("ledger"), "its schema is 2, and this command knows 1");
    fs::remove_file(folder.path("ledger")).unwrap();
    change(&folder, "CREATE TABLE customers (name)");
    refused(&folder.read("ledger"), "not a ledger of this command");
    // A digest that is not the one that was kept.
    folder.write("ledger", &good);
    change(&folder, "UPDATE streams SET video_sha256 = zeroblob(32) WHERE class = 1");
    refused(&folder.read("ledger"), "damaged");
    // Damage in the names of columns, which SQLite and the seals do not see, before a film that the ledger does not know.
    write_old(&folder, "0.usm", &packed(&stream(9, 4000), b"", 0));
    refused(&replaced(&good, b"in_audio", b"in_\xE1udio"), "damaged");
    refused(&replaced(&good, b"video_bytes INTEGER, audio_bytes", b"audio_bytes INTEGER, video_bytes"), "damaged");
}

/// A ledger with other bytes in the place of some.
fn replaced(ledger: &[u8], old: &[u8], new: &[u8]) -> Vec<u8> {
    let at = ledger.windows(old.len()).position(|bytes| bytes == old).expect("these bytes");
    [&ledger[..at], new, &ledger[at + old.len()..]].concat()
}

fn change(folder: &Folder, text: &str) {
    Connection::open(folder.path("ledger")).unwrap().execute_batch(text).unwrap();
}

/// Wherever a ledger is damaged, the bill is right or there is none.
#[test]
fn damage_never_makes_a_wrong_bill() {
    let folder = house(3);
    let plain = folder.usm(&["bill", "--csv", "house.csv"]).out;
    folder.usm(&WORDS);
    let good = folder.read("ledger");
    let mut refused = 0;
    for place in (0..good.len()).step_by(good.len() / 150 + 1) {
        let mut bad = good.clone();
        for byte in &mut bad[place..(place + 3).min(good.len())] {
            *byte ^= 0x5A;
        }
        folder.write("ledger", &bad);
        let run = folder.usm(&WORDS);
        match run.status {
            0 => assert_eq!(run.out, plain, "{place}"),
            status => {
                assert_eq!((status, run.out.as_str()), (2, ""), "{place}: {}", run.err);
                assert_eq!(folder.read("ledger"), bad, "{place}");
                refused += 1;
            }
        }
        fs::remove_file(folder.path("ledger-journal")).ok();
    }
    assert!(refused > 10, "{refused}");
}

/// A run that is killed loses nothing that was done, and counts nothing twice.
#[test]
fn killed_at_random() {
    kill_at_random(&WORDS, 100);
}

#[test]
fn killed_at_random_with_several_films_at_once() {
    kill_at_random(&[&WORDS[..], &["-j", "3"]].concat(), 50);
}

fn kill_at_random(words: &[&str], turns: u32) {
    let folder = house(40);
    let plain = folder.usm(&["bill", "--csv", "house.csv"]).out;
    let mut wait = 7_u64;
    let (mut killed, mut finished, mut most) = (0, 0, 0);
    for turn in 0..turns {
        if turn % 10 == 0 {
            fs::remove_file(folder.path("ledger")).ok();
            fs::remove_file(folder.path("ledger-journal")).ok();
            most = 0;
        }
        let mut run = Command::new(USM)
            .args(words)
            .current_dir(&folder.0)
            .stdout(Stdio::null())
            .stderr(Stdio::null())
            .spawn()
            .unwrap();
        wait = wait.wrapping_mul(6_364_136_223_846_793_005).wrapping_add(1);
        std::thread::sleep(Duration::from_micros((wait >> 33) % 40_000));
        run.kill().unwrap();
        if run.wait().unwrap().success() {
            finished += 1
        } else {
            killed += 1
        }
        let kept = films_kept(&folder);
        assert!(kept >= most, "{kept} after {most}");
        most = kept;
        if turn % 10 == 9 {
            folder.usm(words).expect(0, &plain, &note(kept, 40 - kept));
            folder.usm(words).expect(0, &plain, &note(40, 0));
        }
    }
    assert!(killed >= turns / 5, "{killed} killed, {finished} finished");
}

/// The films that a ledger knows; it is sound, and whole for each of them.
fn films_kept(folder: &Folder) -> u64 {
    let ledger = Connection::open(folder.path("ledger")).unwrap();
    let number = |text: &str| ledger.query_row(text, [], |row| row.get::<_, u64>(0));
    let Ok(films) = number("SELECT COUNT(*) FROM film") else { return 0 };
    assert_eq!(number("SELECT COUNT(*) FROM container").unwrap(), films);
    assert_eq!(number("SELECT COUNT(*) FROM streams").unwrap(), 2 * films);
    assert_eq!(number("SELECT COUNT(*) FROM apart").unwrap(), films);
    films
}

/// Runs on one ledger wait for each other, and no film is read by two of them.
#[test]
fn runs_at_once_wait_for_each_other() {
    assert_eq!(run_at_once(&WORDS), 60);
}

/// With several films at once another run may come in between, and read what is being read.
#[test]
fn runs_at_once_with_several_films_at_once() {
    let read = run_at_once(&[&WORDS[..], &["-j", "2"]].concat());
    assert!((60..=240).contains(&read), "{read}");
}

/// Four runs on one ledger, each with the right bill. Gives how many films they read.
fn run_at_once(words: &[&str]) -> u64 {
    let folder = house(60);
    let plain = folder.usm(&["bill", "--csv", "house.csv"]).out;
    let runs: Vec<_> = (0..4)
        .map(|_| {
            let mut command = Command::new(USM);
            command.args(words).current_dir(&folder.0).stdout(Stdio::piped()).stderr(Stdio::piped()).spawn().unwrap()
        })
        .collect();
    let mut read = 0;
    for run in runs {
        let output = run.wait_with_output().unwrap();
        let said = String::from_utf8(output.stderr).unwrap();
        assert_eq!(String::from_utf8(output.stdout).unwrap(), plain, "{said}");
        read += said.split_whitespace().rev().nth(2).unwrap().parse::<u64>().unwrap();
    }
    read
}

/// However many films are read at once, the bill is the same to its last byte.
#[test]
fn several_films_at_once() {
    let folder = house(30);
    write_old(&folder, "cut.usm", &films::f()[..428]);
    write_old(&folder, "copy.usm", &folder.read("5.usm"));
    let text = String::from_utf8(folder.read("house.csv")).unwrap();
    let more = "9,1,cut.usm\n9,5,copy.usm\n1,5,none.usm\n8,,7.usm\n";
    folder.write("house.csv", format!("{text}{more}").as_bytes());
    for form in ["--csv", "--json", "--totals"] {
        let plain = folder.usm(&["bill", form, "house.csv"]);
        assert_eq!(plain.status, 1, "{}", plain.err);
        for jobs in ["-j=2", "-j=7", "-j=100", "-j"] {
            assert_eq!(folder.usm(&["bill", form, "house.csv", jobs]), plain, "{form} {jobs}");
            fs::remove_file(folder.path("ledger")).ok();
            let words = ["bill", form, "house.csv", jobs, "--ledger", "ledger"];
            for (known, read) in [(0, 32), (32, 0)] {
                let run = folder.usm(&words);
                assert_eq!((run.status, &run.out), (1, &plain.out), "{form} {jobs}");
                assert_eq!(run.err, format!("{}{}", note(known, read), plain.err), "{form} {jobs}");
            }
        }
    }
}
