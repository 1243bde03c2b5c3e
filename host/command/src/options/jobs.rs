//! `-j N`, and how people type it.

use std::ffi::OsString;
use std::thread;

use clap::Args;

/// What every command takes that can work on several films at once.
#[derive(Args, Default)]
pub struct JobsOption {
    /// Work on N films at once; without a number, on as many as there are processors
    #[arg(short, value_name = "N", num_args = 0..=1, require_equals = true, default_missing_value = "0")]
    jobs: Option<usize>,
}

impl JobsOption {
    /// How many films are worked on at once.
    pub fn jobs(&self) -> usize {
        match self.jobs {
            None => 1,
            Some(0) => thread::available_parallelism().map_or(1, usize::from),
            Some(jobs) => jobs,
        }
    }
}

/// The words of a command line with `-j N` and `-jN` as `-j=N`: a number after `-j` is its own, any other word is not.
pub fn joined(words: impl Iterator<Item = OsString>) -> Vec<OsString> {
    let mut joined: Vec<OsString> = Vec::new();
    let (mut is_after_j, mut is_over) = (false, false);
    for word in words {
        let number = word.to_str().filter(|word| is_number(word));
        let attached = word.to_str().and_then(|word| word.strip_prefix("-j")).filter(|rest| is_number(rest));
        match (number, attached) {
            (Some(number), _) if is_after_j => {
                joined.pop();
                joined.push(format!("-j={number}").into());
            }
            (_, Some(number)) if !is_over => joined.push(format!("-j={number}").into()),
            _ => joined.push(word.clone()),
        }
        is_after_j = !is_over && word == "-j";
        is_over |= word == "--";
    }
    joined
}

fn is_number(word: &str) -> bool {
    !word.is_empty() && word.bytes().all(|digit| digit.is_ascii_digit())
}

#[cfg(test)]
mod tests {
    use std::ffi::OsString;

    use super::joined;

    #[test]
    fn a_number_after_j_is_its_own() {
        for (typed, read) in [
            ("usm info -j 4 a.usm", "usm info -j=4 a.usm"),
            ("usm info -j4 a.usm", "usm info -j=4 a.usm"),
            ("usm info -j a.usm 4", "usm info -j a.usm 4"),
            ("usm info a.usm -j", "usm info a.usm -j"),
            ("usm info -- -j 4", "usm info -- -j 4"),
            ("usm info -j x4", "usm info -j x4"),
            ("usm info -- -j4", "usm info -- -j4"),
        ] {
            let words = joined(typed.split(' ').map(OsString::from));
            assert_eq!(words, read.split(' ').map(OsString::from).collect::<Vec<_>>(), "{typed}");
        }
    }
}
