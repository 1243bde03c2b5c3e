//! What the check of containers has seen, and the lines that say so at its end.

use std::ops::AddAssign;

use super::domain::Rule;
use super::work::Counts;

/// How one container, read with audio chosen or not, came out.
#[derive(Clone, Copy)]
pub enum Outcome {
    Accepted,
    Refused(u8),
    /// Refused, and the original was asked in a child process.
    InChild,
    /// Refused, and the original was not asked, since it would have filled too much memory.
    LeftOut,
    Outside(Rule),
}

/// One container that agreed.
#[derive(Default)]
pub struct Seen {
    /// One for each audio choice.
    pub outcomes: Vec<Outcome>,
    pub sums: Sums,
}

#[derive(Clone, Copy, Default)]
pub struct Sums {
    pub calls: u64,
    pub extractions: u64,
    pub outputs_too_short: u64,
    pub lists_too_short: u64,
    /// Bytes of streams and records of lists that were compared.
    pub bytes: u64,
    pub chunks: u64,
}

impl AddAssign for Sums {
    fn add_assign(&mut self, more: Sums) {
        self.calls += more.calls;
        self.extractions += more.extractions;
        self.outputs_too_short += more.outputs_too_short;
        self.lists_too_short += more.lists_too_short;
        self.bytes += more.bytes;
        self.chunks += more.chunks;
    }
}

/// All containers so far.
#[derive(Default)]
pub struct Tally {
    containers: u64,
    accepted: u64,
    refused: [u64; 9],
    in_child: u64,
    left_out: u64,
    outside: [u64; 4],
    sums: Sums,
}

impl Counts for Tally {
    type Seen = Seen;

    fn add(&mut self, seen: &Seen) {
        self.containers += 1;
        for outcome in &seen.outcomes {
            match outcome {
                Outcome::Accepted => self.accepted += 1,
                Outcome::Refused(number) => self.refused[usize::from(*number)] += 1,
                Outcome::InChild => self.in_child += 1,
                Outcome::LeftOut => self.left_out += 1,
                Outcome::Outside(rule) => self.outside[*rule as usize] += 1,
            }
        }
        self.sums += seen.sums;
    }

    fn join(&mut self, other: &Tally) {
        self.containers += other.containers;
        self.accepted += other.accepted;
        self.in_child += other.in_child;
        self.left_out += other.left_out;
        let counts = self.refused.iter_mut().chain(&mut self.outside);
        for (sum, more) in counts.zip(other.refused.iter().chain(&other.outside)) {
            *sum += more;
        }
        self.sums += other.sums;
    }

    fn containers(&self) -> u64 {
        self.containers
    }
}

impl Tally {
    fn inside(&self) -> u64 {
        self.accepted + self.refused.iter().sum::<u64>() + self.in_child
    }

    pub fn print(&self) {
        let line =
            |what: &str, count: u64, words: &str| println!("{}", format!("{what:<26}{count:>9}  {words}").trim_end());
        line("accepted", self.accepted, "");
        for number in 1..=8 {
            line(&format!("refused {number}"), self.refused[number], "");
        }
        line("refused 1, in a child", self.in_child, "the original fills up to 4 GiB before it says so");
        line("inside the domain", self.inside(), "all agree with the original");
        line("refused 1, left out", self.left_out, "as the rules say; the original would fill over 16 MiB");
        for (what, rule, words) in OUTSIDE {
            line(what, self.outside[rule as usize], words);
        }
        line("readings", self.inside() + self.left_out + self.outside.iter().sum::<u64>(), "audio chosen, and not");
        line("containers", self.containers, "");
        line("calls", self.sums.calls, "each an extraction and a listing");
        line("extractions", self.sums.extractions, "some again, with bits of the key turned that do not count");
        line("refused 12", self.sums.outputs_too_short, "with the sizes of the original's streams");
        line("refused 13", self.sums.lists_too_short, "with the count of the original's chunks");
        line("bytes of streams", self.sums.bytes, "");
        line("records of lists", self.sums.chunks, "");
    }
}

const OUTSIDE: [(&str, Rule, &str); 4] = [
    ("refused 9", Rule::TooSmall, "as the rules say; the original panics at each"),
    ("refused 10", Rule::TooMany, "as the rules say; the original is not asked"),
    ("refused 11", Rule::TooLong, "as the rules say; the original is not asked"),
    ("first chunk past the end", Rule::PastTheEnd, "accepted, as the rules say; the original panics at each"),
];
