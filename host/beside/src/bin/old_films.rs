//! Writes the films of the old builder that stand beside the library's tests: old_films TESTS FOLDER
//! TESTS has song.video and song.audio; FOLDER gets old.usm, masked under a key, and old-dubbed.usm.

use std::fs::{self, File};
use std::path::Path;

use oracle::usm::builder::UsmBuilder;

const KEY: u64 = 0x0123_4567_89AB_CDEF;

fn main() {
    let words: Vec<String> = std::env::args().skip(1).collect();
    let (tests, folder) = (Path::new(&words[0]), Path::new(&words[1]));
    let song = |name: &str| fs::read(tests.join(name)).unwrap();
    let mut film = UsmBuilder::new("songs/lark.usm").video(song("song.video")).encryption_key(KEY);
    film.add_audio(song("song.audio"));
    film.build(&mut File::create(folder.join("old.usm")).unwrap()).unwrap();
    let mut dubbed = UsmBuilder::new("dubbed.usm").video(b"picture".to_vec());
    dubbed.add_audio(b"english".to_vec()).add_audio(b"francais".to_vec());
    dubbed.build(&mut File::create(folder.join("old-dubbed.usm")).unwrap()).unwrap();
}
