//! Keys as they are typed, and where they come from.

use std::env;
use std::fs::File;
use std::io::Read;
use std::path::{Path, PathBuf};

use clap::{Args, ValueHint};

use crate::output::text::Shown;
use crate::output::{Error, Status, report};

/// What every command that takes a key takes.
#[derive(Args)]
pub struct KeyOptions {
    /// The key, 1 to 16 hex digits. Without it and --key-file, the variable USM_KEY gives the key, if it is set
    #[arg(long, short, value_name = "KEY", conflicts_with = "key_file")]
    key: Option<String>,
    /// Read the key from a file, so that it stands on no command line
    #[arg(long, value_name = "FILE", value_hint = ValueHint::FilePath)]
    key_file: Option<PathBuf>,
}

/// No file of a key is longer.
const MOST: u64 = 4096;

impl KeyOptions {
    /// The key, if there is one. A note on it is printed.
    pub fn key(&self) -> Result<Option<u64>, Error> {
        if let Some(key) = given("--key", self.key.as_deref(), self.key_file.as_deref())? {
            return Ok(Some(key));
        }
        match env::var_os("USM_KEY") {
            Some(word) => {
                let word = word.to_string_lossy();
                secret(&word).map(Some).map_err(|why| Error::System(format!("USM_KEY holds {why}")))
            }
            None => Ok(None),
        }
    }
}

/// The key that an option gives by itself, or in a file. A note on it is printed.
pub fn given(option: &str, word: Option<&str>, file: Option<&Path>) -> Result<Option<u64>, Error> {
    if let Some(word) = word {
        let wrong = |why| Error::System(format!("{option} {} is {why}", Shown::bytes(word.as_bytes())));
        let key = typed(word).map_err(wrong)?;
        if let Some(note) = &key.note {
            report(Status::Success, &format!("note: {note}"));
        }
        return Ok(Some(key.number));
    }
    let Some(path) = file else { return Ok(None) };
    secret(&text_of(path)?).map(Some).map_err(|why| Error::with(path, format!("it holds {why}")))
}

fn text_of(path: &Path) -> Result<String, Error> {
    let mut text = String::new();
    let read = File::open(path).and_then(|file| file.take(MOST).read_to_string(&mut text));
    read.map_err(|error| Error::with(path, error))?;
    Ok(text)
}

/// A key that is not to be shown.
fn secret(text: &str) -> Result<u64, String> {
    typed(text.trim()).map(|key| key.number).map_err(|_| format!("no key: {RULE}"))
}

/// A key, and what its word may have been meant for.
#[derive(Clone, Debug, PartialEq, Eq)]
pub struct Key {
    pub number: u64,
    pub note: Option<String>,
}

const RULE: &str = "a key is 1 to 16 hex digits, with or without 0x";

/// Reads a key: 1 to 16 hex digits of either case, with 0x in front or nothing.
pub fn typed(word: &str) -> Result<Key, String> {
    let prefix = word.get(..2).filter(|prefix| prefix.eq_ignore_ascii_case("0x"));
    let digits = &word[prefix.map_or(0, str::len)..];
    let is_key = matches!(digits.len(), 1..=16) && digits.bytes().all(|digit| digit.is_ascii_hexdigit());
    let decimal = if prefix.is_none() { as_decimal(digits) } else { None };
    match u64::from_str_radix(digits, 16) {
        Ok(number) if is_key => {
            let meant = decimal.filter(|&decimal| decimal != number);
            let note = meant.map(|decimal| {
                format!("{word} is read as hex, as all keys are; the decimal number {word} is the key {decimal:016X}")
            });
            Ok(Key { number, note })
        }
        _ => Err(match decimal {
            Some(decimal) => format!("no key: {RULE}; the decimal number {word} is the key {decimal:016X}"),
            None => format!("no key: {RULE}"),
        }),
    }
}

fn as_decimal(digits: &str) -> Option<u64> {
    let is_decimal = !digits.is_empty() && digits.bytes().all(|digit| digit.is_ascii_digit());
    is_decimal.then(|| digits.parse().ok()).flatten()
}

#[cfg(test)]
mod tests {
    use super::typed;

    #[test]
    fn keys_are_hex() {
        for (word, number) in [("0", 0), ("0x0", 0), ("0XfF", 255), ("7F123456789ABCDE", 0x7F12_3456_789A_BCDE)] {
            let key = typed(word).unwrap();
            assert_eq!((key.number, key.note), (number, None), "{word}");
        }
        for word in ["", "0x", "-1", "+1", " 1", "1 ", "g", "0x12345678901234567", "é", "123456789012345678901"] {
            assert_eq!(
                typed(word),
                Err("no key: a key is 1 to 16 hex digits, with or without 0x".to_string()),
                "{word}"
            );
        }
    }

    #[test]
    fn decimal_numbers_are_pointed_out() {
        assert_eq!(typed("9").unwrap().note, None, "the same either way");
        let key = typed("5613126134333697").unwrap();
        assert_eq!(key.number, 0x5613_1261_3433_3697);
        assert!(key.note.unwrap().ends_with("the decimal number 5613126134333697 is the key 0013F11BC5510101"));
        assert_eq!(typed("0x5613126134333697").unwrap().note, None);
        let no_key = typed("18446744073709551615").unwrap_err();
        assert!(no_key.ends_with("the decimal number 18446744073709551615 is the key FFFFFFFFFFFFFFFF"), "{no_key}");
    }
}
