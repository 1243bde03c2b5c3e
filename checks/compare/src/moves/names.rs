//! Names of every sequence of bytes that could be a character, well-formed or not: a name of the builder is a `String`.

use super::damage::{Copy, Form};

/// Every name of one or two bytes, and those of three and four that begin as a character of that length does, with the
/// last bytes at the edges.
pub fn all() -> impl Iterator<Item = Vec<u8>> {
    const EDGES: [u8; 4] = [0x7F, 0x80, 0xBF, 0xC0];
    let one = (0..=255).map(|first| vec![first]);
    let two = (0..=255).flat_map(|first| (0..=255).map(move |second| vec![first, second]));
    let three = (0xDF..=0xF0).flat_map(|first| (0..=255).map(move |second| vec![first, second]));
    let four = (0xEF..=0xF8).flat_map(|first| (0..=255).map(move |second| vec![first, second]));
    let with_edge = |name: Vec<u8>| EDGES.map(|edge| [&name[..], &[edge]].concat());
    one.chain(two).chain(three.flat_map(with_edge)).chain(four.flat_map(with_edge).flat_map(with_edge))
}

/// A container with another name of the same length.
pub fn put(container: &[u8], form: Form, name: &[u8]) -> Copy {
    let place = match form {
        Form::Old => 96,
        Form::New => 86,
    };
    Copy::new(&[&container[..place], name, &container[place + name.len()..]].concat())
}
