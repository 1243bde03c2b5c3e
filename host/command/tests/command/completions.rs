//! What bash completes.

use crate::support::Folder;

/// What bash offers after some words, the last of which is being typed.
fn offered(folder: &Folder, words: &[&str]) -> Vec<String> {
    let list: String = words.iter().map(|word| format!("'{word}' ")).collect();
    let line = format!(
        "source <($USM completions bash); COMP_WORDS=({list}); COMP_CWORD={}; _usm usm; printf '%s\\n' \"${{COMPREPLY[@]}}\"",
        words.len() - 1
    );
    let run = folder.shell(&line);
    assert_eq!((run.status, run.err.as_str()), (0, ""));
    run.out.lines().filter(|line| !line.is_empty()).map(String::from).collect()
}

#[test]
fn files_are_completed() {
    let folder = Folder::with_films();
    folder.write("two words.usm", b"");
    assert_eq!(offered(&folder, &["usm", "info", "so"]), ["song.usm"]);
    assert_eq!(offered(&folder, &["usm", "info", ""]).len(), 5);
    assert_eq!(offered(&folder, &["usm", "info", "song.usm", "tw"]), ["two words.usm"]);
    assert_eq!(offered(&folder, &["usm", "statement", "cu"]), ["cut.usm"]);
    assert_eq!(offered(&folder, &["usm", "pack", "f."]), ["f.usm"]);
    assert_eq!(offered(&folder, &["usm", "extract", "--output", "son"]), ["song.usm"]);
}

#[test]
fn commands_and_options_are_completed() {
    let folder = Folder::new();
    let commands = offered(&folder, &["usm", ""]);
    assert!(
        commands.contains(&"extract".to_string()) && !commands.contains(&"completions".to_string()),
        "{commands:?}"
    );
    assert_eq!(offered(&folder, &["usm", "ext"]), ["extract"]);
    assert_eq!(offered(&folder, &["usm", "info", "--js"]), ["--json"]);
    let options = offered(&folder, &["usm", "extract", "-"]);
    assert!(options.iter().all(|word| word.starts_with('-')), "{options:?}");
}
