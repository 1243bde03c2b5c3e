//! Writes films for timing: films FOLDER COUNT BYTES [PAYLOAD]
//! Reads 64 bytes of a file at every STEP bytes, to be timed beside a walk over its chunks: films --read FILE STEP

use std::fs::File;
use std::os::unix::fs::FileExt;

fn main() {
    let words: Vec<String> = std::env::args().skip(1).collect();
    let number = |word: &String| -> usize { word.parse().unwrap() };
    if words[0] == "--read" {
        return read(&words[1], number(&words[2]));
    }
    let (folder, count, bytes) = (&words[0], number(&words[1]), number(&words[2]));
    let payload = words.get(3).map_or(32 << 10, number);
    for number in 0..count {
        let name = format!("film{number:04}");
        let film = films::with_payloads(name.as_bytes(), bytes, payload);
        std::fs::write(format!("{folder}/{name}.usm"), film).unwrap();
    }
}

fn read(path: &str, step: usize) {
    let file = File::open(path).unwrap();
    let length = file.metadata().unwrap().len();
    for place in (0..length).step_by(step) {
        file.read_at(&mut [0; 64], place).unwrap();
    }
}
