//! Writes the original's answers for the gate's replay: the keys as its input, the answers as its output.
//! Nothing of ours is called here.

use std::path::Path;
use std::{fs, io};

use super::original;
use crate::hex::hex;
use crate::random::{Random, keys};

/// Around every boundary of the rules, and one longer payload.
const LENGTHS: [usize; 20] = [
    0, 0x13F, 0x140, 0x141, 0x158, 0x159, 0x15A, 0x15B, 0x15C, 0x15D, 0x15E, 0x15F, 0x160, 0x23F, 0x240, 0x241, 0x25F,
    0x260, 0x261, 4096,
];

/// Writes `stdin` and `stdout` into the folder of the replay program.
pub fn write(folder: &Path) -> io::Result<()> {
    let keys = keys(50, &mut Random(4));
    fs::write(folder.join("stdin"), key_lines(&keys))?;
    fs::write(folder.join("stdout"), answer_lines(&keys))
}

/// One key to a line.
fn key_lines(keys: &[u64]) -> String {
    keys.iter().map(|key| format!("{key:016X}\n")).collect()
}

/// For each key a line with its table, then a line of digests for each length.
fn answer_lines(keys: &[u64]) -> String {
    let mut lines = String::new();
    for &key in keys {
        lines += &table_line(key);
        for length in LENGTHS {
            lines += &digest_line(key, length);
        }
    }
    lines
}

fn table_line(key: u64) -> String {
    format!("{key:016x} table {}\n", hex(&original::table(key)))
}

/// The digests after unmask_video, mask_video, unmask_audio and mask_audio, each on a fresh payload.
fn digest_line(key: u64, length: usize) -> String {
    let after = |act: fn(u64, &mut [u8])| {
        let mut payload = payload(length);
        act(key, &mut payload);
        digest(&payload)
    };
    let unmasked_video = after(original::unmask_video);
    let masked_video = after(original::mask_video);
    let unmasked_audio = after(original::unmask_audio);
    let masked_audio = after(original::mask_audio);
    format!("{key:016x} {length} {unmasked_video:08x} {masked_video:08x} {unmasked_audio:08x} {masked_audio:08x}\n")
}

/// The first bytes of one stream: x is 1 at first, then x * 1103515245 + 12345 modulo 2^31 before each byte, which is x / 65536 modulo 256.
fn payload(length: usize) -> Vec<u8> {
    let mut x: u64 = 1;
    let mut next = || {
        x = (x * 1_103_515_245 + 12_345) % (1 << 31);
        (x / 65_536 % 256) as u8
    };
    (0..length).map(|_| next()).collect()
}

/// From 0, for each byte b: h becomes h * 65599 + b + 1 modulo 4294967291.
fn digest(bytes: &[u8]) -> u64 {
    bytes.iter().fold(0, |h, &b| (h * 65_599 + u64::from(b) + 1) % 4_294_967_291)
}
