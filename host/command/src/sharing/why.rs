//! Why those who have a film have one copy of it: in words, and by the sixteen digits of their keys.

use crate::output::digits::{PLACES, places};

/// Why all who hold a film under these keys have one copy of it.
#[derive(Clone, Copy, PartialEq, Eq, PartialOrd, Ord, Debug)]
pub enum Why {
    /// There is one key.
    OneKey,
    /// The keys agree in every digit that can count for any film.
    KeysAgree,
    /// The film shows nothing of any key.
    NothingShown,
    /// The keys differ in digits that count for other films, where this one shows nothing.
    NotShown,
}

impl Why {
    /// Of keys that are one class for a film, which shows these bits: the reason that is farthest from one key.
    pub fn of(bits: u64, keys: &[Option<u64>]) -> Why {
        let Some((&first, others)) = keys.split_first() else { return Why::OneKey };
        others.iter().map(|&other| Why::of_two(bits, first, other)).max().unwrap_or(Why::OneKey)
    }

    /// Of two of them; `None` stands for the streams as they are stored.
    pub fn of_two(bits: u64, one: Option<u64>, other: Option<u64>) -> Why {
        match (one, other) {
            (None, None) => Why::OneKey,
            (Some(one), Some(other)) => match usm::why(bits, one, other) {
                usm::Why::OneKey => Why::OneKey,
                usm::Why::NeverCount => Why::KeysAgree,
                _ if bits == 0 => Why::NothingShown,
                _ => Why::NotShown,
            },
            // A film that is the same with a key as it is stored.
            _ => Why::NothingShown,
        }
    }

    /// For programs.
    pub fn word(self) -> &'static str {
        match self {
            Why::OneKey => "one_key",
            Why::KeysAgree => "keys_agree",
            Why::NotShown => "not_shown",
            Why::NothingShown => "nothing_shown",
        }
    }

    /// For people: a sentence about the film.
    pub fn sentence(self) -> &'static str {
        match self {
            Why::OneKey => "It is held under one key.",
            Why::KeysAgree => {
                "Its keys agree in every digit that counts. They differ only in digits that never reach a picture or a sound."
            }
            Why::NotShown => {
                "Its keys differ only where this film shows nothing: no picture or sound in it reaches those digits."
            }
            Why::NothingShown => {
                "It shows nothing of a key: none of its payloads is masked at a length that counts, so every key gives the same streams."
            }
        }
    }
}

/// Of a copy that one tenant has.
pub const ALONE: &str = "No other tenant has these streams.";

/// The bits in which keys that are given differ.
pub fn differing(keys: impl Iterator<Item = Option<u64>> + Clone) -> u64 {
    let given = keys.flatten();
    given.clone().zip(given.skip(1)).fold(0, |bits, (one, other)| bits | (one ^ other))
}

/// How many digits have a bit of these.
pub fn how_many(bits: u64) -> usize {
    places(bits).len()
}

const ORDINALS: [&str; PLACES] = [
    "first",
    "second",
    "third",
    "fourth",
    "fifth",
    "sixth",
    "seventh",
    "eighth",
    "ninth",
    "tenth",
    "eleventh",
    "twelfth",
    "thirteenth",
    "fourteenth",
    "fifteenth",
    "sixteenth",
];

/// The digits that have a bit of these, in words: the first, the second and the seventh digit.
pub fn in_digits(bits: u64) -> String {
    let names: Vec<&str> = places(bits).into_iter().map(|place| ORDINALS[place]).collect();
    match names.as_slice() {
        [] => "no digit".to_string(),
        [one] => format!("the {one} digit"),
        [most @ .., last] => format!("the {} and the {last} digit", most.join(", the ")),
    }
}

#[cfg(test)]
mod tests {
    use super::{Why, in_digits};
    use crate::output::digits::bits_that_count;

    #[test]
    fn reasons() {
        let all = bits_that_count();
        assert_eq!(Why::of(all, &[Some(1)]), Why::OneKey);
        assert_eq!(Why::of(all, &[Some(1), Some(1)]), Why::OneKey);
        assert_eq!(Why::of(all, &[Some(1), Some(0xFF00_0000_0000_0001)]), Why::KeysAgree);
        assert_eq!(Why::of(0xFF, &[Some(1), Some(0x0100_0000_0000_0001)]), Why::KeysAgree);
        assert_eq!(Why::of(0, &[Some(1), Some(0x0100_0000_0000_0001)]), Why::KeysAgree);
        assert_eq!(Why::of(0xFF, &[Some(1), Some(0x101)]), Why::NotShown);
        assert_eq!(Why::of(0xFF, &[Some(1), Some(1), Some(0x101)]), Why::NotShown);
        assert_eq!(Why::of(0, &[Some(1), Some(2)]), Why::NothingShown);
        assert_eq!(Why::of(0, &[None, Some(1)]), Why::NothingShown);
    }

    #[test]
    fn digits_in_words() {
        assert_eq!(in_digits(0xFF00_00F0_0000_0000), "the first, the second and the seventh digit");
        assert_eq!(in_digits(1), "the sixteenth digit");
    }
}
