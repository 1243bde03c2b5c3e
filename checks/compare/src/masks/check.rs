//! The five exports against the original: the answer, every byte of the payload, and the bytes around it.

use std::fmt;

use super::arena::{Arena, OFFSETS, first_difference};
use super::{exports, original};
use crate::hex::input;
use crate::random::{Random, keys};

/// Acts on a payload in place and gives what the call answers, 0 where it answers nothing.
type Act = fn(u64, &mut [u8]) -> usize;

struct Pair {
    name: &'static str,
    ours: Act,
    original: Act,
}

const PAIRS: [Pair; 5] = [
    Pair { name: "usm_key_table", ours: exports::key_table, original: original::key_table },
    Pair {
        name: "usm_unmask_video",
        ours: |key, payload| silent(exports::unmask_video(key, payload)),
        original: |key, payload| silent(original::unmask_video(key, payload)),
    },
    Pair {
        name: "usm_mask_video",
        ours: |key, payload| silent(exports::mask_video(key, payload)),
        original: |key, payload| silent(original::mask_video(key, payload)),
    },
    Pair {
        name: "usm_unmask_audio",
        ours: |key, payload| silent(exports::unmask_audio(key, payload)),
        original: |key, payload| silent(original::unmask_audio(key, payload)),
    },
    Pair {
        name: "usm_mask_audio",
        ours: |key, payload| silent(exports::mask_audio(key, payload)),
        original: |key, payload| silent(original::mask_audio(key, payload)),
    },
];

/// The answer of a function that answers nothing.
fn silent(_: ()) -> usize {
    0
}

/// One call of an export that differs from the original.
pub struct Disagreement {
    name: &'static str,
    key: u64,
    payload: Vec<u8>,
    offset: usize,
    what: String,
}

impl fmt::Display for Disagreement {
    fn fmt(&self, f: &mut fmt::Formatter) -> fmt::Result {
        let Disagreement { name, key, payload, offset, what } = self;
        write!(f, "{name}, key {key:016X}, offset {offset}: {what}\n{}", input(payload))
    }
}

/// Which lengths are tried, with how many random keys, and where.
struct Plan {
    lengths: Vec<usize>,
    keys: Vec<u64>,
    offsets: Vec<usize>,
}

/// Every comparison; gives how many agreed, or the first that did not.
pub fn run() -> Result<u64, Disagreement> {
    let mut random = Random(2);
    let every_short_length =
        Plan { lengths: (0..=1400).collect(), keys: keys(8, &mut random), offsets: (0..OFFSETS).collect() };
    let long_lengths = Plan {
        lengths: vec![4096, 4097, 65_536, 65_537, 65_567, 100_003, 1_048_593],
        keys: keys(8, &mut random),
        offsets: vec![0, 1, 16, 31],
    };
    let longest = Plan { lengths: vec![67_108_864, 67_108_883], keys: vec![random.number()], offsets: vec![0, 7] };
    let many_tables = Plan { lengths: vec![0, 1, 95, 96, 97, 200], keys: keys(20_000, &mut random), offsets: vec![0] };

    let mut agreed = null_is_allowed()?;
    for plan in [every_short_length, long_lengths, longest] {
        agreed += compare_all(&PAIRS, &plan, &mut random)?;
    }
    agreed += compare_all(&PAIRS[..1], &many_tables, &mut random)?;
    Ok(agreed)
}

/// NULL with length 0 is a call like any other, and the key table answers 0.
fn null_is_allowed() -> Result<u64, Disagreement> {
    match exports::all_with_null(0) {
        0 => Ok(PAIRS.len() as u64),
        answer => Err(Disagreement {
            name: "usm_key_table",
            key: 0,
            payload: Vec::new(),
            offset: 0,
            what: format!("at NULL the answer is {answer}, and 0 is expected"),
        }),
    }
}

fn compare_all(pairs: &[Pair], plan: &Plan, random: &mut Random) -> Result<u64, Disagreement> {
    let longest = plan.lengths.iter().copied().max().unwrap_or(0);
    let mut arena = Arena::new(longest);
    let mut agreed = 0;
    for &length in &plan.lengths {
        for &key in &plan.keys {
            let payload = random.bytes(length);
            for pair in pairs {
                agreed += compare(pair, key, &payload, &plan.offsets, &mut arena)?;
            }
        }
    }
    Ok(agreed)
}

/// One payload and key at every offset: the original is asked once, the export at each.
fn compare(pair: &Pair, key: u64, payload: &[u8], offsets: &[usize], arena: &mut Arena) -> Result<u64, Disagreement> {
    let mut expected = payload.to_vec();
    let answer = (pair.original)(key, &mut expected);
    for &offset in offsets {
        let ours = (pair.ours)(key, arena.place(offset, payload));
        if let Some(what) = difference(ours, answer, &expected, offset, arena) {
            return Err(Disagreement { name: pair.name, key, payload: payload.to_vec(), offset, what });
        }
    }
    Ok(offsets.len() as u64)
}

/// What the export did otherwise than the original, if anything.
fn difference(ours: usize, answer: usize, expected: &[u8], offset: usize, arena: &Arena) -> Option<String> {
    let found = arena.payload(offset, expected.len());
    if ours != answer {
        return Some(format!("the answer is {ours}, the original's {answer}"));
    }
    if let Some(place) = first_difference(found, expected) {
        let (ours, theirs) = (found[place], expected[place]);
        return Some(format!("byte {place} ({place:#X}) is {ours:02X}, the original's {theirs:02X}"));
    }
    let place = arena.changed_guard(offset, expected.len())?;
    Some(format!("byte {place}, outside the payload, changed"))
}
