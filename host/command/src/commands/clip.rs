//! `usm clip`: what an audio clip of a length shows of a key.

use clap::Args;
use serde::Serialize;
use usm::Mask;

use crate::options::key;
use crate::options::limit::place;
use crate::output::digits::{bits_that_count, has, marks, places};
use crate::output::json::Kind;
use crate::output::numbers::grouped;
use crate::output::{Error, Output, Status, print_to, report_error, write_all};

/// Say what an audio clip of a length shows of a key
///
/// A clip is one ADX payload of data type 0. Its first bytes are stored as they are, and of a key a short clip shows some
/// digits only: under two keys that differ in no other it is the same, whatever it holds.
///
/// With two keys, whether the clip can tell them apart, and how long one must be that can.
#[derive(Args)]
pub struct Clip {
    /// The clip's bytes, in hex with 0x in front
    #[arg(value_name = "LENGTH", value_parser = place)]
    length: usize,
    /// A key
    #[arg(value_name = "K1", requires = "second")]
    first: Option<String>,
    /// Another key
    #[arg(value_name = "K2")]
    second: Option<String>,
    /// Write a JSON object
    #[arg(long)]
    json: bool,
}

impl Clip {
    pub fn run(self) -> Status {
        let read = |option, word: &Option<String>| key::given(option, word.as_deref(), None);
        match read("K1", &self.first).and_then(|first| Ok(first.zip(read("K2", &self.second)?))) {
            Ok(keys) => {
                let answer = Answer { length: self.length, keys };
                write_all(|output| if self.json { output.object(&answer.object()) } else { answer.print(output) })
            }
            Err(error) => report_error(error),
        }
    }
}

struct Answer {
    length: usize,
    keys: Option<(u64, u64)>,
}

impl Answer {
    /// The bits of a key that the clip shows.
    fn bits(&self) -> u64 {
        Mask::Audio.key_bits(self.length)
    }

    fn print(&self, output: &mut Output) -> Result<(), Error> {
        let bits = self.bits();
        let shows = marks(|place| if has(bits, place) { '+' } else { '-' });
        print_to!(output, "clip        {} bytes\n", both(self.length));
        print_to!(output, "shows       {shows}  + this clip shows the digit, - it does not\n");
        let Some((first, second)) = self.keys else { return Ok(()) };
        let differs = marks(|place| if has(first ^ second, place) { '^' } else { '.' });
        print_to!(output, "first key   {first:016X}\nsecond key  {second:016X}\n");
        print_to!(output, "differs     {differs}  ^ the two keys have different digits here\n\n");
        if (first ^ second) & bits != 0 {
            print_to!(output, "The clip tells the two keys apart: whatever it holds, it differs under them.\n");
            return Ok(());
        }
        print_to!(output, "The clip can't tell the two keys apart: whatever it holds, it is the same under both.\n");
        match shortest(first ^ second) {
            Some(length) => print_to!(output, "A clip of {} bytes or more can.\n", both(length)),
            None => print_to!(output, "No clip can: the keys give the same streams for every film.\n"),
        }
        Ok(())
    }

    fn object(&self) -> Object {
        let bits = self.bits();
        let keys = self.keys.map(|(first, second)| KeysObject {
            first: format!("{first:016X}"),
            second: format!("{second:016X}"),
            same_streams: (first ^ second) & bits == 0,
            differing_digits: places(first ^ second),
            shown_from: shortest(first ^ second),
        });
        Object {
            kind: Kind::new("clip"),
            length: self.length,
            key_bits: format!("{bits:016X}"),
            counting_digits: places(bits),
            keys,
        }
    }
}

/// The length of the shortest clip that shows one of these bits.
fn shortest(bits: u64) -> Option<usize> {
    let all = bits_that_count();
    let shows = |length: &usize| Mask::Audio.key_bits(*length) & bits != 0;
    // From some length on a clip shows all that count.
    let whole = (0..).map(|power| 1_usize << power).find(|&length| Mask::Audio.key_bits(length) == all)?;
    (0..=whole).find(shows)
}

/// A number for people, in both notations.
fn both(number: usize) -> String {
    format!("{} ({number:#x})", grouped(number as u64))
}

#[derive(Serialize)]
struct Object {
    #[serde(flatten)]
    kind: Kind,
    length: usize,
    key_bits: String,
    /// Digits by their places from the left, from 0.
    counting_digits: Vec<usize>,
    #[serde(flatten)]
    keys: Option<KeysObject>,
}

#[derive(Serialize)]
struct KeysObject {
    first: String,
    second: String,
    same_streams: bool,
    differing_digits: Vec<usize>,
    /// The length of the shortest clip that tells the keys apart.
    shown_from: Option<usize>,
}
