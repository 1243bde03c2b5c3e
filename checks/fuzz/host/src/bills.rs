//! HOLDINGS of any bytes: `usm bill --csv` beside a bill that is made the plainest way, by unpacking for every holding.

use std::collections::{BTreeMap, BTreeSet};
use std::fs;
use std::os::unix::ffi::OsStrExt;
use std::path::Path;

use sha2::{Digest, Sha256};
use usm::Reading;

use crate::Harness;
use crate::house::House;
use crate::output::Status;
use crate::typed::{key_by_rule, number_by_rule};

/// A tenant, a key, and a film's path.
type Holding = (u64, Option<u64>, Vec<u8>);

/// The holdings of a text without quotation marks; `None` where the heading or a line is wrong.
fn holdings(text: &[u8]) -> Option<Vec<Holding>> {
    let text = text.strip_prefix(b"\xEF\xBB\xBF").unwrap_or(text);
    let mut lines = text.split(|&byte| byte == b'\n').map(|line| {
        let end = line.iter().rposition(|&byte| byte != b'\r').map_or(0, |last| last + 1);
        &line[..end]
    });
    let heading = lines.next()?;
    if heading.starts_with(b"\xFF\xFE") || heading.starts_with(b"\xFE\xFF") {
        return None;
    }
    let count = |wanted: u8| heading.iter().filter(|&&byte| byte == wanted).count();
    let delimiter = if count(b';') > count(b',') { b';' } else { b',' };
    let fields = |line: &'_ [u8]| -> Option<Vec<Vec<u8>>> {
        let is_one = !line.contains(&b'\r');
        is_one.then(|| line.split(|&byte| byte == delimiter).map(|field| field.trim_ascii().to_vec()).collect())
    };
    let names = fields(heading)?;
    let column = |word: &[u8]| {
        let mut found = (0..names.len()).filter(|&at| names[at].eq_ignore_ascii_case(word));
        found.next().filter(|_| found.next().is_none())
    };
    let [tenant, key, film] = [column(b"tenant")?, column(b"key")?, column(b"film")?];
    let lines = lines.filter(|line| !line.trim_ascii().is_empty());
    lines
        .map(|line| {
            let fields = fields(line)?;
            let key = match &fields.get(key)?[..] {
                b"" => None,
                word => Some(key_by_rule(std::str::from_utf8(word).ok()?)?),
            };
            let film = fields.get(film)?.clone();
            let is_whole = fields.len() == names.len() && !film.is_empty();
            is_whole.then_some((number_by_rule(&fields[tenant])?, key, film))
        })
        .collect()
}

/// A copy: the digests and sizes of both streams, by which copies are in order.
type Copy = ([u8; 32], [u8; 32], usize, usize);

fn copy(folder: &Path, film: &[u8], key: Option<u64>) -> Option<Copy> {
    let path = folder.join(std::ffi::OsStr::from_bytes(film));
    if !fs::metadata(&path).is_ok_and(|file| file.is_file()) {
        return None;
    }
    let bytes = fs::read(path).ok()?;
    let streams = usm::extract(&bytes, Reading::default(), key).ok()?;
    let audio = streams.audio.unwrap_or_default();
    let digest = |bytes: &[u8]| Sha256::digest(bytes).into();
    Some((digest(&streams.video), digest(&audio), streams.video.len(), audio.len()))
}

/// The lines of a bill, and whether a film was left out.
fn bill(folder: &Path, holdings: &[Holding]) -> (Vec<String>, bool) {
    let mut copies: BTreeMap<Copy, BTreeSet<u64>> = BTreeMap::new();
    let mut is_incomplete = false;
    for (tenant, key, film) in holdings {
        match copy(folder, film, *key) {
            Some(copy) => _ = copies.entry(copy).or_default().insert(*tenant),
            None => is_incomplete = true,
        }
    }
    let mut lines = Vec::new();
    for ((video, audio, video_bytes, audio_bytes), tenants) in &copies {
        let (bytes, count) = ((video_bytes + audio_bytes) as u64, tenants.len() as u64);
        let group = tenants.first().expect("a tenant");
        for (place, tenant) in tenants.iter().enumerate() {
            let share = bytes / count + u64::from((place as u64) < bytes % count);
            let hex = |digest: &[u8]| digest.iter().map(|byte| format!("{byte:02x}")).collect::<String>();
            let line = format!("{tenant},{group},{video_bytes},{audio_bytes},{share},{},{}", hex(video), hex(audio));
            lines.push((*tenant, line));
        }
    }
    lines.sort_by_key(|line| line.0);
    (lines.into_iter().map(|line| line.1).collect(), is_incomplete)
}

fn fuzz(house: &House, input: &[u8]) {
    let (status, printed) = house.bill(input, None);
    let printed = String::from_utf8(printed).expect("a bill is text");
    let mut lines = printed.lines();
    if status == Status::Failed {
        assert_eq!(lines.next(), None, "a bill beside an error");
    } else {
        let heading = lines.next();
        assert_eq!(heading, Some("tenant,group,video_bytes,audio_bytes,share,video_sha256,audio_sha256"), "no heading");
    }
    if input.contains(&b'"') {
        return;
    }
    let found: Vec<&str> = lines.collect();
    match holdings(input) {
        None => assert!(status == Status::Failed, "a bill of holdings that are wrong: {}", input.escape_ascii()),
        Some(holdings) => {
            assert!(status != Status::Failed, "no bill of holdings that are right: {}", input.escape_ascii());
            let (expected, is_incomplete) = bill(&house.folder, &holdings);
            assert_eq!(found, expected, "another bill");
            assert_eq!(status == Status::Refused, is_incomplete, "another status");
        }
    }
}

pub fn harness() -> Harness {
    let house = House::new("bills");
    Box::new(move |input| fuzz(&house, input))
}
