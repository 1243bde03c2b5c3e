//! include/usm.h says the same as this crate: the reasons in words, the version, the limit.

use usm::{Reading, Reason, Refusal, Tables};

const HEADER: &str = include_str!(concat!(env!("CARGO_MANIFEST_DIR"), "/../../include/usm.h"));

/// The number that a macro of the header stands for.
fn number(name: &str) -> Option<&'static str> {
    HEADER.lines().find_map(|line| {
        line.strip_prefix("#define ")?.strip_prefix(name)?.strip_prefix(' ')?.split_whitespace().next()
    })
}

/// The words of `usm_reason` for a number.
fn words(refusal: u8) -> Option<&'static str> {
    let mut lines =
        HEADER.lines().map(str::trim).skip_while(|line| !line.starts_with("static inline const char *usm_reason"));
    lines.find(|line| {
        let name = line.strip_prefix("case ").and_then(|line| line.strip_suffix(':'));
        name.and_then(number).is_some_and(|number| number == refusal.to_string())
    })?;
    lines.next()?.strip_prefix("return \"")?.strip_suffix("\";")
}

#[test]
fn reasons_are_the_same_words() {
    let f = films::f();
    let changed = |at: usize, bytes: &[u8]| {
        let mut film = f.clone();
        film[at..at + bytes.len()].copy_from_slice(bytes);
        usm::outline(&film, Reading::default()).map(|_| ()).unwrap_err()
    };
    let song = std::fs::read(concat!(env!("CARGO_MANIFEST_DIR"), "/tests/song.usm")).unwrap();
    let without_audio_end = {
        let mut film = song.clone();
        film[384] = 0;
        usm::outline(&film, Reading::default()).map(|_| ()).unwrap_err()
    };
    let refusals = [
        usm::outline(&f[..428], Reading::default()).map(|_| ()).unwrap_err(),
        changed(0, b"c"),
        changed(32, b"c"),
        changed(64, b"c"),
        without_audio_end,
        changed(160, b"c"),
        changed(288, b"c"),
        changed(328, &[0xFF]),
        changed(56, &[0, 65]),
        Refusal::by_length(u64::MAX).unwrap_err(),
    ];
    assert_eq!(refusals.map(|refusal| refusal.number), [1, 2, 3, 4, 5, 6, 7, 9, 10, 11]);
    for refusal in refusals {
        assert_eq!(words(refusal.number), Some(refusal.reason.to_string().as_str()));
    }
    assert_eq!(words(8), Some("unknown column type"));
    let mut table = films::table(&[b"a"], &[&[films::Value::Byte(1)]]);
    table[32] = 0x57;
    let unknown = usm::table(&table, 0, Tables::Original).unwrap_err();
    assert_eq!(unknown.reason.to_string(), "unknown column type 7");
}

/// The reasons that are not about reading a film.
#[test]
fn the_other_reasons_are_the_same_words_too() {
    let others = [
        Reason::MarkedPayload,
        Reason::ShortHeader,
        Reason::UnknownStorage,
        Reason::Foreign,
        Reason::ManyAudios,
        Reason::NoBeginning,
        Reason::BadTenants,
        Reason::CodecAlone,
    ];
    assert_eq!(others.map(Reason::number), [15, 17, 18, 19, 20, 21, 22, 23]);
    for reason in others {
        assert_eq!(words(reason.number()), Some(reason.to_string().as_str()));
    }
}

#[test]
fn the_version_is_that_of_this_crate() {
    let version = env!("CARGO_PKG_VERSION");
    assert_eq!(number("USM_VERSION"), Some(format!("\"{version}\"").as_str()));
    let parts = ["MAJOR", "MINOR", "PATCH"].map(|part| number(&format!("USM_VERSION_{part}")).unwrap());
    assert_eq!(parts.join("."), version);
    let changes = include_str!(concat!(env!("CARGO_MANIFEST_DIR"), "/../../CHANGELOG.md"));
    assert_eq!(changes.lines().find_map(|line| line.strip_prefix("## ")), Some(version), "the newest entry");
}

#[test]
fn the_limit_is_the_same() {
    assert_eq!(number("USM_CONTAINER_BYTES"), Some(usm::LONGEST_FILM.to_string().as_str()));
}
