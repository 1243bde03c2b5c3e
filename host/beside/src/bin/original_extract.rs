//! A program of the shape of `usm extract` over the original, to be timed beside it: reads a film whole, extracts its
//! streams to memory, and writes them to files in a folder.
//!
//!     original_extract FILM FOLDER KEY [--file]     with --file over a `File` in place of a `Cursor`

use std::fs::{self, File};
use std::io::Cursor;
use std::path::Path;

use oracle::usm::extractor::extract_usm_to_memory;

fn main() {
    let words: Vec<String> = std::env::args().skip(1).collect();
    let (film, folder) = (&words[0], Path::new(&words[1]));
    let key = u64::from_str_radix(&words[2], 16).unwrap();
    let streams = if words.len() > 3 {
        extract_usm_to_memory(File::open(film).unwrap(), b"film", Some(key), true).unwrap()
    } else {
        extract_usm_to_memory(Cursor::new(fs::read(film).unwrap()), b"film", Some(key), true).unwrap()
    };
    for stream in &streams {
        fs::write(folder.join(format!("{}.{}", stream.name, stream.extension)), &stream.data).unwrap();
    }
}
