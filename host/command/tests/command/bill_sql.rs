//! bill.sql by itself: what it gives on SQLite is what a plain count gives, and the same text gives the same on
//! PostgreSQL.

use std::collections::{BTreeMap, BTreeSet};
use std::fs;
use std::path::Path;
use std::process::Command;

use rusqlite::Connection;
use rusqlite::types::Value;

const BILL: &str = include_str!("../../src/commands/bill/bill.sql");

const TABLES: &str = "
    CREATE TABLE held (tenant BIGINT NOT NULL, entry BIGINT NOT NULL);
    CREATE TABLE entry (entry BIGINT PRIMARY KEY, streams BIGINT);
    CREATE TABLE streams (streams BIGINT PRIMARY KEY, video_bytes BIGINT NOT NULL, audio_bytes BIGINT NOT NULL,
        video_sha256 TEXT NOT NULL, audio_sha256 TEXT NOT NULL);";

/// Sizes and digests of two streams.
type Streams = (u64, u64, String, String);

/// A house: who holds which entry, the streams of each entry, and all streams.
struct House {
    held: Vec<(u64, u64)>,
    entries: Vec<(u64, Option<u64>)>,
    streams: Vec<Streams>,
}

/// Numbers that look random, and are the same in every run.
struct Numbers(u64);

impl Numbers {
    fn below(&mut self, limit: u64) -> u64 {
        self.0 = self.0.wrapping_mul(6_364_136_223_846_793_005).wrapping_add(1_442_695_040_888_963_407);
        (self.0 >> 33) % limit
    }
}

const TENANTS: [u64; 8] = [0, 1, 9, 10, (1 << 63) - 1, 1 << 63, u64::MAX - 1, u64::MAX];

impl House {
    fn of(numbers: &mut Numbers) -> House {
        let digest = |number: u64| format!("{number:x}").repeat(64);
        let streams: Vec<Streams> = (0..1 + numbers.below(6))
            .map(|_| {
                let (video, audio) = (numbers.below(3), numbers.below(2));
                (1000 + 7 * video, 5 * audio, digest(8 + video), digest(audio))
            })
            .collect();
        let entries: Vec<(u64, Option<u64>)> = (0..1 + numbers.below(9))
            .map(|entry| {
                let number = numbers.below(streams.len() as u64 + 1);
                (entry, Some(number).filter(|&number| number < streams.len() as u64))
            })
            .collect();
        let held = (0..numbers.below(20))
            .map(|_| (TENANTS[numbers.below(8) as usize], numbers.below(entries.len() as u64)))
            .collect();
        House { held, entries, streams }
    }

    /// The rows of its tables, as SQL.
    fn rows(&self) -> String {
        let held = self
            .held
            .iter()
            .map(|&(tenant, entry)| format!("INSERT INTO held VALUES ({}, {entry});\n", signed(tenant)));
        let entries = self.entries.iter().map(|(entry, streams)| {
            let streams = streams.map_or("NULL".to_string(), |number| number.to_string());
            format!("INSERT INTO entry VALUES ({entry}, {streams});\n")
        });
        let streams = self.streams.iter().enumerate().map(|(number, (video, audio, picture, sound))| {
            format!("INSERT INTO streams VALUES ({number}, {video}, {audio}, '{picture}', '{sound}');\n")
        });
        held.chain(entries).chain(streams).collect()
    }

    /// The lines that bill.sql has to give, by plain counting: way, tenant, lowest, sizes, share and digests.
    fn lines(&self) -> Vec<String> {
        let mut lines = Vec::new();
        let of_entry = |entry: u64| self.entries[entry as usize].1.map(|number| &self.streams[number as usize]);
        for way in [0, 1] {
            let mut copies: BTreeMap<(&str, &str, u64), BTreeSet<u64>> = BTreeMap::new();
            let mut sizes = BTreeMap::new();
            for &(tenant, entry) in &self.held {
                let Some((video, audio, picture, sound)) = of_entry(entry) else { continue };
                let copy = if way == 0 { ("", "", entry) } else { (picture.as_str(), sound.as_str(), 0) };
                copies.entry(copy).or_default().insert(tenant);
                sizes.insert(copy, (*video, *audio, picture, sound));
            }
            let mut of_way = Vec::new();
            for (rank, (copy, tenants)) in copies.iter().enumerate() {
                let (video, audio, picture, sound) = sizes[copy];
                let (bytes, count) = (video + audio, tenants.len() as u64);
                for (place, tenant) in tenants.iter().enumerate() {
                    let share = bytes / count + u64::from((place as u64) < bytes % count);
                    let lowest = signed(*tenants.first().unwrap());
                    let line = format!("{way},{},{lowest},{video},{audio},{share},{picture},{sound}", signed(*tenant));
                    of_way.push((*tenant, rank, line));
                }
            }
            of_way.sort();
            lines.extend(of_way.into_iter().map(|(_, _, line)| line));
        }
        lines
    }

    fn on_sqlite(&self) -> Vec<String> {
        let database = Connection::open_in_memory().unwrap();
        database.execute_batch(TABLES).unwrap();
        database.execute_batch(&self.rows()).unwrap();
        let mut statement = database.prepare(BILL).unwrap();
        let rows = statement.query_map([], |row| {
            let words = (0..8).map(|at| match row.get::<_, Value>(at).unwrap() {
                Value::Integer(number) => number.to_string(),
                Value::Text(text) => text,
                other => panic!("{other:?}"),
            });
            Ok(words.collect::<Vec<_>>().join(","))
        });
        rows.unwrap().map(Result::unwrap).collect()
    }
}

/// A tenant as the books have it: less 2^63.
fn signed(tenant: u64) -> i64 {
    (i128::from(tenant) - (1 << 63)) as i64
}

#[test]
fn groups_and_shares_are_those_of_a_plain_count() {
    let mut numbers = Numbers(1);
    for number in 0..2000 {
        let house = House::of(&mut numbers);
        assert_eq!(house.on_sqlite(), house.lines(), "house {number}");
    }
}

/// A PostgreSQL server on a socket in a folder of its own, until it is dropped.
struct Server(String);

/// `as` runs a program that does not run as root, and `folder` is the server's.
const AS: &str = r#"
    set -e
    folder=$1
    bin=$(ls -d /usr/lib/postgresql/*/bin | tail -n 1)
    as() { if [ "$(id -u)" = 0 ]; then setpriv --reuid=postgres --regid=postgres --clear-groups "$@"; else "$@"; fi; }
    cd "$folder"
"#;

const START: &str = r#"
    if [ "$(id -u)" = 0 ]; then chown postgres "$folder"; fi
    as "$bin/initdb" -D data -A trust -U bill --no-sync -E UTF8 --locale C.UTF-8 >log
    as "$bin/pg_ctl" -D data -w -l server.log -o "-k $folder -c listen_addresses= -c fsync=off" start >log
"#;

const STOP: &str = r#"
    as "$bin/pg_ctl" -D data -m immediate -w stop
    rm -rf "$folder"
"#;

impl Server {
    /// Nothing where there is none.
    fn start() -> Option<Server> {
        let is_there = fs::read_dir("/usr/lib/postgresql").is_ok_and(|mut versions| versions.next().is_some());
        if !is_there {
            return None;
        }
        // A socket's path has to be short.
        let folder = format!("/tmp/usm-bill-{}", std::process::id());
        fs::create_dir(&folder).unwrap();
        let server = Server(folder);
        server.shell(START);
        Some(server)
    }

    fn shell(&self, lines: &str) {
        let run = Command::new("bash").args(["-c", &[AS, lines].concat(), "bash", &self.0]).output().unwrap();
        assert!(run.status.success(), "{}", String::from_utf8_lossy(&run.stderr));
    }

    fn run(&self, text: &str) -> String {
        let file = Path::new(&self.0).join("text.sql");
        fs::write(&file, text).unwrap();
        let words =
            ["-h", &self.0, "-U", "bill", "-d", "postgres", "-X", "-q", "-A", "-t", "-F", ",", "-v", "ON_ERROR_STOP=1"];
        let run = Command::new("psql").args(words).arg("-f").arg(&file).output().unwrap();
        assert!(run.status.success(), "{}", String::from_utf8_lossy(&run.stderr));
        String::from_utf8(run.stdout).unwrap()
    }
}

impl Drop for Server {
    fn drop(&mut self) {
        self.shell(STOP);
    }
}

/// The text is not changed by a letter.
#[test]
fn postgresql_gives_the_same() {
    let Some(server) = Server::start() else {
        println!("SKIPPED: no PostgreSQL: bill.sql on it");
        return;
    };
    server.run(TABLES);
    let mut numbers = Numbers(2);
    let houses: Vec<House> = (0..60).map(|_| House::of(&mut numbers)).collect();
    let text: String = houses
        .iter()
        .map(|house| format!("TRUNCATE held, entry, streams;\n{}{BILL};\nSELECT 'end';\n", house.rows()))
        .collect();
    let answers = server.run(&text);
    let mut answers = answers.split("end\n");
    for (number, house) in houses.iter().enumerate() {
        let answer = answers.next().unwrap();
        // Behind the eight columns stand the numbers of copy and streams.
        let lines: Vec<String> =
            answer.lines().map(|line| line.split(',').take(8).collect::<Vec<_>>().join(",")).collect();
        assert_eq!(lines, house.on_sqlite(), "house {number}");
    }
    assert!(houses.iter().any(|house| house.on_sqlite().len() > 10));
}
