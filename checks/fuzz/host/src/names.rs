//! Names of files, made of what films and templates say: each is one plain name in its folder.

use std::io::Cursor;
use std::path::{Component, Path};

use clap::{Args, Parser};
use usm::{Reader, Reading};

use crate::files::names::{NameOption, safe, stem};

#[derive(Parser)]
struct Asked {
    #[command(flatten)]
    name: NameOption,
}

fn expect_plain(name: &str) {
    let mut components = Path::new(name).components();
    assert!(matches!(components.next(), Some(Component::Normal(_))) && components.next().is_none(), "{name:?}");
    assert!(name.len() <= 180, "{} bytes", name.len());
    assert!(!name.starts_with(['-', '.', ' ']), "{name:?}");
    assert!(
        !name.contains(['/', '\\', '\0', '$', '`', '"', '\'', '<', '>', '|', '*', '?', ':', '&', ';', '!']),
        "{name:?}"
    );
    assert!(!name.chars().any(char::is_control), "{name:?}");
}

/// The input is a template, a film's own name and the name of its file, each up to a zero byte; the last takes the rest.
pub fn fuzz(input: &[u8]) {
    let mut parts = input.splitn(3, |&byte| byte == 0);
    let [template, own, label] = std::array::from_fn(|_| parts.next().unwrap_or_default());
    let label = String::from_utf8_lossy(label).into_owned();
    let label = Path::new(&label);
    safe(own).iter().for_each(|name| expect_plain(name));
    expect_plain(&stem(label));
    let Ok(template) = std::str::from_utf8(template) else { return };
    let Ok(asked) = Asked::try_parse_from(["usm", &format!("--name={template}")]) else { return };
    let film = usm::pack(usm::Streams::new(own, &[]), None).expect("a film of a name");
    let reader = Reader::new(Cursor::new(&film), Reading::default()).expect("a film that was packed");
    let name = asked.name.of(label, reader.header());
    expect_plain(&name);
    assert_eq!(name, asked.name.of(label, reader.header()), "another name the second time");
}
