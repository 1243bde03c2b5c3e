//! Prints films of the original's builder for the gate's replay of moves, one to a line, with what each is made of.
//! Nothing of ours is called here.

use super::original::{Film, build};
use crate::hex::hex;
use crate::random::Random;

const END: &[u8] = b"#CONTENTS END";

/// Prints KEY NAME VIDEO AUDIO.. FILM for each film: the key in hex or `-`, then bytes in hex, which may be none.
pub fn print() {
    for (film, given) in films() {
        let key = given.map_or("-".to_string(), |key| format!("{key:016x}"));
        let mut fields = vec![key, hex(film.name.as_bytes()), hex(&film.video)];
        fields.extend(film.audios.iter().map(|audio| hex(audio)));
        fields.push(hex(&build(&film, given)));
        println!("{}", fields.join(" "));
    }
}

/// Lengths around 4, 28 and 32, where the padding of a chunk begins anew or ends; every shape of name; no audio to
/// three; frames that change at 1,000 bytes; the end marker, whole and cut; masked payloads; payloads by turns.
fn films() -> Vec<(Film, Option<u64>)> {
    let mut random = Random(9);
    let mut films = Vec::new();
    let mut add = |name: &str, video: Vec<u8>, audios: Vec<Vec<u8>>, key: Option<u64>| {
        films.push((Film { name: name.to_string(), video, audios }, key));
    };
    for length in [0, 1, 3, 4, 5, 27, 28, 29, 31, 32, 33, 36, 37] {
        add("plain.usm", random.bytes(length), vec![], None);
    }
    for length in [0, 1, 4, 5, 28, 32, 36] {
        add("a.usm", random.bytes(37 - length), vec![random.bytes(length)], None);
    }
    let names = ["", "n", "zero\0byte", "アニメ.usm", "𝄞🎬", "\u{7F}\u{80}\u{7FF}\u{800}\u{FFFF}\u{10000}\u{10FFFF}"];
    for name in names {
        add(name, random.bytes(8), vec![random.bytes(2)], None);
    }
    for length in [30, 31, 32] {
        add(&"x".repeat(length), random.bytes(2), vec![], None);
    }
    for lengths in [[2, 3].as_slice(), &[0, 0], &[0, 5], &[33, 1], &[1, 2, 3]] {
        add("many.usm", random.bytes(4), lengths.iter().map(|&length| random.bytes(length)).collect(), None);
    }
    for length in [999, 1000] {
        add("frames.usm", random.bytes(length), vec![], None);
    }
    add("marked.usm", END.to_vec(), vec![], None);
    add("marked.usm", [END, b" "].concat(), vec![random.bytes(3)], None);
    add("marked.usm", random.bytes(3), vec![END.to_vec()], None);
    add("cut.usm", END[..12].to_vec(), vec![b"#CONTENTS end".to_vec()], None);
    add("masked.usm", random.bytes(0x240), vec![random.bytes(0x141)], Some(0x0123_4567_89AB_CDEF));
    add("turns.usm", random.bytes(65_541), vec![random.bytes(65_537)], None);
    films
}
