//! Words as they are typed, and the file of tenants, beside readers that are written anew.

use std::fs;
use std::path::PathBuf;

use crate::Harness;
use crate::house::{Quiet, folder};
use crate::options::{key, limit, tenants};

/// A key by its rule: 1 to 16 hex digits, with 0x in front or nothing.
pub fn key_by_rule(word: &str) -> Option<u64> {
    let digits = word.strip_prefix("0x").or_else(|| word.strip_prefix("0X")).unwrap_or(word);
    if !(1..=16).contains(&digits.len()) {
        return None;
    }
    digits.chars().try_fold(0, |number: u64, digit| Some(number << 4 | u64::from(digit.to_digit(16)?)))
}

/// A number by its rule: decimal digits alone, of 64 bits.
pub fn number_by_rule(word: &[u8]) -> Option<u64> {
    if word.is_empty() {
        return None;
    }
    word.iter().try_fold(0, |number: u64, digit| {
        let digit = digit.is_ascii_digit().then(|| digit - b'0')?;
        number.checked_mul(10)?.checked_add(digit.into())
    })
}

fn try_words(word: &str) {
    assert_eq!(key::typed(word).ok().map(|key| key.number), key_by_rule(word), "another key for {word:?}");
    if let Ok(place) = limit::place(word) {
        let hex = word.strip_prefix("0x").or_else(|| word.strip_prefix("0X"));
        let expected = match hex {
            Some(digits) => u64::from_str_radix(digits, 16).ok(),
            None => number_by_rule(word.trim_start_matches('+').as_bytes()),
        };
        assert_eq!(Some(place as u64), expected, "another place for {word:?}");
    }
    if let Ok(size) = limit::size(word) {
        let digits = word.trim_end_matches(|last: char| last.is_ascii_alphabetic()).trim_start_matches('+');
        let number = number_by_rule(digits.as_bytes()).expect("a size is made of digits");
        assert!(size.is_multiple_of(number.max(1)) && size >= number, "another size for {word:?}");
    }
}

/// The tenants of a text without quotation marks, by the rule; `None` where a line is wrong.
fn tenants_by_rule(text: &[u8]) -> Option<Vec<(u64, u64)>> {
    let text = text.strip_prefix(b"\xEF\xBB\xBF").unwrap_or(text);
    let lines: Vec<&[u8]> = text.split(|byte| matches!(byte, b'\n' | b'\r')).filter(|line| !line.is_empty()).collect();
    // What stands on the first line that shows something decides, up to its LF.
    let first = text.split(|&byte| byte == b'\n').find(|line| !line.trim_ascii().is_empty()).unwrap_or_default();
    let delimiter = if first.contains(&b';') && !first.contains(&b',') { b';' } else { b',' };
    let mut tenants: Vec<(u64, u64)> = Vec::new();
    for (turn, line) in lines.into_iter().enumerate() {
        let words: Vec<&[u8]> = line.split(|&byte| byte == delimiter).map(<[u8]>::trim_ascii).collect();
        let [number, word] = words[..] else { return None };
        if turn == 0 && number.eq_ignore_ascii_case(b"tenant") && word.eq_ignore_ascii_case(b"key") {
            continue;
        }
        let tenant = (number_by_rule(number)?, key_by_rule(std::str::from_utf8(word).ok()?)?);
        if tenants.iter().any(|other| other.0 == tenant.0) {
            return None;
        }
        tenants.push(tenant);
    }
    (1..=16).contains(&tenants.len()).then_some(tenants)
}

fn try_tenants(file: &PathBuf, text: &[u8]) {
    fs::write(file, text).expect("a file in memory");
    let read = Quiet::while_running(|| tenants::read(file));
    let read = read.ok().map(|tenants| tenants.iter().map(|tenant| (tenant.number, tenant.key)).collect::<Vec<_>>());
    if !text.contains(&b'"') {
        assert_eq!(read, tenants_by_rule(text), "other tenants in {}", text.escape_ascii());
    }
    if let Some(tenants) = read {
        let again: String = tenants.iter().map(|(number, key)| format!("{number},{key:X}\r\n")).collect();
        assert_eq!(tenants_by_rule(again.as_bytes()), Some(tenants), "tenants that can't be written again");
    }
}

pub fn harness() -> Harness {
    let file = folder("typed").join("tenants.csv");
    Box::new(move |input| {
        if let Ok(word) = std::str::from_utf8(input) {
            try_words(word);
        }
        try_tenants(&file, input);
    })
}
