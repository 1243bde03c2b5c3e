//! The recorded outputs of --help. After a change that is meant: host/test --record

use std::fs;
use std::path::Path;

use crate::support::Folder;

#[test]
fn help_is_as_recorded() {
    let folder = Folder::new();
    let recorded = Path::new(env!("CARGO_MANIFEST_DIR")).join("tests/help");
    let top = folder.usm(&["--help"]);
    let commands: Vec<&str> = top
        .out
        .lines()
        .skip_while(|line| *line != "Commands:")
        .take_while(|line| *line != "Options:")
        .filter_map(|line| line.strip_prefix("  ").filter(|name| !name.starts_with(' ') && *name != "help"))
        .collect();
    assert!(commands.len() >= 5, "{commands:?}");
    let mut names = vec!["usm"];
    names.extend(&commands);
    for name in names {
        let run = if name == "usm" { folder.usm(&["--help"]) } else { folder.usm(&[name, "--help"]) };
        assert_eq!((run.status, run.err.as_str()), (0, ""));
        let file = recorded.join(format!("{name}.txt"));
        if std::env::var_os("RECORD").is_some() {
            fs::write(&file, &run.out).unwrap();
        }
        assert_eq!(fs::read_to_string(&file).unwrap_or_default(), run.out, "{}", file.display());
    }
    assert_eq!(fs::read_dir(&recorded).unwrap().count(), commands.len() + 1, "one file for each");
    folder.usm(&["--version"]).expect(0, concat!("usm ", env!("CARGO_PKG_VERSION"), "\n"), "");
}

#[test]
fn help_is_a_command_too() {
    let folder = Folder::new();
    folder.usm(&["help"]).expect(0, &folder.usm(&["--help"]).out, "");
    folder.usm(&["help", "extract"]).expect(0, &folder.usm(&["extract", "--help"]).out, "");
    assert_eq!(folder.usm(&["help", "none"]).status, 2);
}

#[test]
fn wrong_arguments_are_reported_as_other_errors_are() {
    let folder = Folder::new();
    let run = folder.usm(&["extract", "--kye"]);
    assert_eq!((run.status, run.out.as_str()), (2, ""));
    assert!(run.err.starts_with("usm: Found argument '--kye'"), "{}", run.err);
    assert!(run.err.ends_with("try '--help'\n"), "{}", run.err);
}
