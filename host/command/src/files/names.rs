//! The names of files, made of names that films or files have.

use std::fmt::{self, Write};
use std::path::Path;

use clap::Args;
use usm::Header;

use crate::output::text::{PIECE, Text, is_plain};

/// How the files of a film are called.
#[derive(Args)]
pub struct NameOption {
    /// The names of files: by the film's own name (film), by that of its file (file), or by a template in which {film} and
    /// {file} stand for them. Endings are added
    #[arg(long = "name", value_name = "NAME", default_value = "film", value_parser = name_by)]
    by: NameBy,
}

#[derive(Clone)]
enum NameBy {
    Film,
    File,
    Template(String),
}

fn name_by(word: &str) -> Result<NameBy, String> {
    match word {
        "film" => Ok(NameBy::Film),
        "file" => Ok(NameBy::File),
        template if template.contains("{film}") || template.contains("{file}") => {
            Ok(NameBy::Template(template.to_string()))
        }
        _ => Err("it is neither film nor file, nor a template with {film} or {file}".to_string()),
    }
}

impl NameOption {
    /// The name of a film's files, without an ending.
    pub fn of(&self, label: &Path, header: &Header) -> String {
        let film = || header.name.as_deref().and_then(safe).unwrap_or_else(|| stem(label));
        match &self.by {
            NameBy::Film => film(),
            NameBy::File => stem(label),
            NameBy::Template(template) => {
                // What a name holds is not a part of the template: one pass puts both in.
                let mut name = String::new();
                let mut rest = template.as_str();
                while let Some(at) = rest.find('{') {
                    name.push_str(&rest[..at]);
                    rest = &rest[at..];
                    let (word, value) = match rest {
                        _ if rest.starts_with("{film}") => ("{film}", film()),
                        _ if rest.starts_with("{file}") => ("{file}", stem(label)),
                        _ => ("{", "{".to_string()),
                    };
                    name.push_str(&value);
                    rest = &rest[word.len()..];
                }
                name.push_str(rest);
                made_safe(&name).unwrap_or_else(|| stem(label))
            }
        }
    }
}

/// The bytes of the longest name that is made: an ending and a temporary one's additions fit a file's name with it.
const LONGEST: usize = 180;

/// A name that is safe as a file's in any folder, of a film's name: without folders and ending, nothing in front that
/// hides a file, reads like an option or a formula or that a shell puts something else for, no character that is not plain,
/// that file systems refuse or that a shell obeys, none of the names that Windows keeps for devices. `None` where nothing
/// is left.
pub fn safe(name: &[u8]) -> Option<String> {
    let mut last = LastPart(String::new());
    write!(last, "{}", Text(name)).ok()?;
    let stem = match last.0.rfind('.') {
        Some(dot) if dot > 0 => &last.0[..dot],
        _ => &last.0,
    };
    made_safe(stem)
}

/// The same of a name that has neither folders nor an ending.
fn made_safe(name: &str) -> Option<String> {
    let trimmed = name.trim_matches([' ', '.']);
    let is_kept = |character: char| is_safe(character) && !matches!(character, '/' | '\\');
    let mut safe: String = trimmed.chars().map(|character| if is_kept(character) { character } else { '_' }).collect();
    if safe.starts_with(['-', '~', '#', '=', '+', '@', '%']) {
        safe.replace_range(..1, "_");
    }
    if is_device(&safe) {
        safe.insert(0, '_');
    }
    while safe.len() > LONGEST {
        safe.pop();
    }
    (!safe.is_empty()).then_some(safe)
}

fn is_safe(character: char) -> bool {
    let looks_like_a_space = character.is_whitespace() && character != ' ';
    is_plain(character)
        && !looks_like_a_space
        && character != char::REPLACEMENT_CHARACTER
        && !r#":*?"<>|$`'&;!"#.contains(character)
}

/// Whether Windows takes a name for a device, whatever ending it has.
fn is_device(name: &str) -> bool {
    let stem = name.split('.').next().unwrap_or_default().trim_end().to_ascii_uppercase();
    match stem.as_str() {
        "CON" | "PRN" | "AUX" | "NUL" => true,
        _ => ["COM", "LPT"].iter().any(|device| {
            stem.strip_prefix(device).is_some_and(|number| {
                matches!(number, "0" | "1" | "2" | "3" | "4" | "5" | "6" | "7" | "8" | "9" | "¹" | "²" | "³")
            })
        }),
    }
}

/// Keeps what follows the last slash of either kind, of that no more than matters.
struct LastPart(String);

impl Write for LastPart {
    fn write_str(&mut self, text: &str) -> fmt::Result {
        let mine = match text.rfind(['/', '\\']) {
            Some(slash) => {
                self.0.clear();
                &text[slash + 1..]
            }
            None => text,
        };
        let room = PIECE.saturating_sub(self.0.len());
        self.0.extend(mine.chars().scan(0, |taken, character| {
            *taken += character.len_utf8();
            (*taken <= room).then_some(character)
        }));
        Ok(())
    }
}

/// The name of a film's file, made safe and without its ending; that of standard input is `film`.
pub fn stem(label: &Path) -> String {
    let own = label.file_name().filter(|name| *name != "-").and_then(|name| safe(name.as_encoded_bytes()));
    own.unwrap_or_else(|| "film".to_string())
}

#[cfg(test)]
mod tests {
    use super::safe;

    #[test]
    fn names_are_made_safe() {
        let safe = |name: &[u8]| safe(name).unwrap_or_default();
        assert_eq!(safe(b"songs/lark.usm"), "lark");
        assert_eq!(safe(b"C:\\films\\lark.v2.usm"), "lark.v2");
        assert_eq!(safe(b"../../etc/passwd"), "passwd");
        assert_eq!(safe(b"lark\0/\0.usm"), "_");
        assert_eq!(safe(b"la\0rk\n.usm"), "la_rk_");
        assert_eq!(safe(b"-rf"), "_rf");
        assert_eq!(safe(b".bashrc"), "bashrc");
        assert_eq!(safe(b".."), "");
        assert_eq!(safe(b"films/"), "");
        assert_eq!(safe(b"a:b*c?d"), "a_b_c_d");
        assert_eq!(safe(b"\x83\\\x83C\x83\x93.usm"), "ソイン", "the second byte of a character is no slash");
        assert_eq!(safe("a\u{202E}b".as_bytes()), "a_b");
        assert_eq!(safe("a\u{A0}b\u{3000}c d".as_bytes()), "a_b_c d", "what looks like a space is one or is none");
        for (name, made) in [("~root", "_root"), ("#x", "_x"), ("=1+1", "_1+1"), ("%PATH%", "_PATH%"), ("@x", "_x")] {
            assert_eq!(safe(name.as_bytes()), made);
        }
        for (name, made) in [("CON.usm", "_CON"), ("nul.usm", "_nul"), ("com1.a.usm", "_com1.a"), ("lpt².usm", "_lpt²")]
        {
            assert_eq!(safe(name.as_bytes()), made);
        }
        for name in ["CONE", "com", "com10", "console", "(a) b", "a=1", "ë"] {
            assert_eq!(safe(name.as_bytes()), name);
        }
        assert_eq!(safe(&b"x".repeat(5000)).len(), 180);
        assert_eq!(safe("é".repeat(5000).as_bytes()), "é".repeat(90));
        assert_eq!(safe(&[&b"x".repeat(1 << 20)[..], b"/end.usm"].concat()), "end");
    }
}
