//! Bytes as lower-case hex digits.

use std::fmt::Write;

pub fn hex(bytes: &[u8]) -> String {
    let mut digits = String::new();
    for byte in bytes {
        write!(digits, "{byte:02x}").expect("a string takes what is written");
    }
    digits
}

/// No more bytes of an input are printed.
const MOST_PRINTED: usize = 1 << 16;

/// An input that differs, with its length.
pub fn input(bytes: &[u8]) -> String {
    let digits = hex(&bytes[..bytes.len().min(MOST_PRINTED)]);
    let note = if bytes.len() > MOST_PRINTED { " (cut: no more is printed)" } else { "" };
    format!("{} bytes: {digits}{note}", bytes.len())
}
