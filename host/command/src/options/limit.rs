//! Numbers as they are typed: places, and the limit on text.

use clap::Args;

use crate::output::Error;

/// What every command takes that writes as text what a film holds.
#[derive(Args)]
pub struct LimitOption {
    /// Write at most SIZE of text for a film: bytes, or with K, M or G the binary multiples
    #[arg(long, value_name = "SIZE", value_parser = size, default_value = "64M")]
    limit: u64,
}

impl LimitOption {
    /// For a film.
    pub fn limit(&self) -> Limit {
        Limit { most: self.limit, left: self.limit }
    }
}

/// How much text a film may still become.
pub struct Limit {
    most: u64,
    left: u64,
}

impl Limit {
    /// Takes so many bytes.
    pub fn take(&mut self, bytes: u64) -> Result<(), Error> {
        self.left = self.left.checked_sub(bytes).ok_or_else(|| self.exceeded())?;
        Ok(())
    }

    pub fn left(&self) -> u64 {
        self.left
    }

    /// The error of a film that becomes more.
    pub fn exceeded(&self) -> Error {
        Error::System(format!(
            "it makes more than {} bytes of text, which is the limit; --limit sets another",
            self.most
        ))
    }
}

/// A place in a file: a number of bytes, in hex with 0x in front.
pub fn place(word: &str) -> Result<usize, String> {
    let number = match word.strip_prefix("0x").or_else(|| word.strip_prefix("0X")) {
        Some(digits) => usize::from_str_radix(digits, 16),
        None => word.parse(),
    };
    number.map_err(|error| error.to_string())
}

/// A number of bytes, with K, M or G for 2^10, 2^20 and 2^30 of them.
pub fn size(word: &str) -> Result<u64, String> {
    let (digits, unit) = match word.as_bytes().last().map(u8::to_ascii_uppercase) {
        Some(b'K') => (&word[..word.len() - 1], 1 << 10),
        Some(b'M') => (&word[..word.len() - 1], 1 << 20),
        Some(b'G') => (&word[..word.len() - 1], 1 << 30),
        _ => (word, 1),
    };
    let number: u64 = digits.parse().map_err(|error: std::num::ParseIntError| error.to_string())?;
    number.checked_mul(unit).ok_or_else(|| "the number is too large".to_string())
}

#[cfg(test)]
mod tests {
    use super::{place, size};

    #[test]
    fn numbers_as_they_are_typed() {
        assert_eq!(size("64M"), Ok(64 << 20));
        assert_eq!(size("1g"), Ok(1 << 30));
        assert_eq!(size("12"), Ok(12));
        assert!(
            size("").is_err() && size("M").is_err() && size("-1").is_err() && size("99999999999999999999G").is_err()
        );
        assert!(size("18446744073709551615K").is_err());
        assert_eq!((place("0x20"), place("32")), (Ok(32), Ok(32)));
    }
}
