//! What the man pages have beside --help: examples, which run, and the reasons for refusals.

use std::fs;
use std::path::PathBuf;

use usm::Reason;

use crate::support::{Folder, KEY, example};

fn man() -> PathBuf {
    PathBuf::from(env!("CARGO_MANIFEST_DIR")).join("../man")
}

#[test]
fn examples_run() {
    let mut tried = 0;
    for entry in fs::read_dir(man()).unwrap() {
        let path = entry.unwrap().path();
        let text = fs::read_to_string(&path).unwrap();
        let lines: Vec<&str> = text.lines().collect();
        for around in lines.windows(3).filter(|around| around[0] == ".EX" && around[2] == ".EE") {
            let folder = Folder::with_films();
            fs::remove_file(folder.path("cut.usm")).unwrap();
            folder.write("old.usm", &example("old.usm"));
            fs::write(folder.path("tenants.csv"), format!("7,{KEY}\n")).unwrap();
            folder.write("holdings.csv", format!("tenant,key,film\n7,{KEY},song.usm\n").as_bytes());
            if around[1].contains("cut.usm") {
                folder.write("cut.usm", &films::f()[..428]);
            }
            if around[1].contains(" . ") || around[1].ends_with(" .") {
                fs::remove_file(folder.path("old.usm")).unwrap();
            }
            // The command by its name, as a person has it on the PATH.
            let run = folder.shell(&format!("usm() {{ \"$USM\" \"$@\"; }}; {}", around[1]));
            assert_eq!(run.status, 0, "{}: {}: {}", path.display(), around[1], run.err);
            tried += 1;
        }
    }
    assert!(tried >= 20, "{tried}");
}

#[test]
fn the_reasons_are_those_of_the_crate() {
    let text = fs::read_to_string(man().join("common.h2m")).unwrap();
    let has = |number: u8, reason: &str| text.lines().any(|line| line == format!("{number} {reason}"));
    for reason in [
        Reason::RanOut,
        Reason::NoFilm,
        Reason::NoTable,
        Reason::NoVideo,
        Reason::NoAudio,
        Reason::NoHeaderEnd,
        Reason::NoMetadataEnd,
        Reason::TooSmall,
        Reason::TooMany,
        Reason::TooLong,
        Reason::MarkedPayload,
        Reason::ShortHeader,
        Reason::UnknownStorage,
        Reason::Foreign,
        Reason::ManyAudios,
        Reason::NoBeginning,
        Reason::BadTenants,
        Reason::CodecAlone,
    ] {
        assert!(has(reason.number(), &reason.to_string()), "{reason}");
    }
    assert!(has(8, "unknown column type"));
}
