//! Damaged copies of a container, the builder's or request 1's. Some of them are other films.

use std::ops::Range;

use super::parts;
use crate::containers::rules::END;
use crate::damage::{Slice, changed_byte, changed_bytes, cut};
use crate::random::Random;

/// A container, and bytes after it that no reader may see.
#[derive(Clone)]
pub struct Copy {
    whole: Vec<u8>,
    length: usize,
}

/// So many zeros stand after a container.
const AFTER: usize = 64;

impl Copy {
    pub fn new(container: &[u8]) -> Copy {
        Copy { whole: [container, &[0; AFTER]].concat(), length: container.len() }
    }

    pub fn container(&self) -> &[u8] {
        &self.whole[..self.length]
    }
}

impl Slice for Copy {
    fn whole(&self) -> &[u8] {
        &self.whole
    }

    fn length(&self) -> usize {
        self.length
    }

    fn parts(&mut self) -> (&mut [u8], &mut usize) {
        (&mut self.whole, &mut self.length)
    }
}

/// Which container it is.
#[derive(Clone, Copy)]
pub enum Form {
    Old,
    New,
}

impl Form {
    /// Its blocks, which lie one after the other.
    pub fn blocks(self, container: &[u8]) -> Vec<Range<usize>> {
        let mut blocks = Vec::new();
        match self {
            Form::Old => blocks.extend(parts::old_blocks(container).iter().map(|block| block.start..block.end())),
            Form::New => {
                let mut start = 0;
                while let Some(size) = container.get(start + 4..start + 8) {
                    let end = start + 8 + big_endian(size) as usize;
                    blocks.push(start..end);
                    start = end;
                }
            }
        }
        blocks.retain(|block| block.end <= container.len());
        blocks
    }

    /// The bytes of a block before what it holds.
    fn head(self) -> usize {
        match self {
            Form::Old => 28,
            Form::New => 32,
        }
    }

    /// Where the numbers stand in a block: its size, and of the builder's where a chunk begins in its stream, an audio's
    /// number, the table's size, an audio's number in the header, and the frames; of request 1's header and footer size,
    /// the table's size, and where the name stands and its length.
    fn numbers(self) -> &'static [usize] {
        match self {
            Form::Old => &[4, 12, 16, 32, 65, 83],
            Form::New => &[4, 8, 36, 69, 73],
        }
    }

    /// The bytes that a chunk holds, by its numbers. They may be more than there are in another block.
    fn length(self, block: &[u8]) -> usize {
        let around = match self {
            Form::Old => 0x18,
            Form::New => u32::from(block[9]) + big_endian(&block[8..12]) % 0x1_0000,
        };
        let length = big_endian(&block[4..8]).saturating_sub(around) as usize;
        length.min(block.len() - self.head())
    }

    /// A block that holds something else, padded, which begins so much later in its stream.
    fn with_contents(self, block: &[u8], later: usize, contents: &[u8]) -> Vec<u8> {
        let mut other = [&block[..self.head()], contents].concat();
        other.resize(other.len().next_multiple_of(0x20), 0);
        let size = match self {
            Form::Old => {
                let begins = big_endian(&block[12..16]).wrapping_add(later as u32);
                other[12..16].copy_from_slice(&begins.to_be_bytes());
                0x18 + contents.len()
            }
            Form::New => {
                let padding = (other.len() - self.head() - contents.len()) as u16;
                other[10..12].copy_from_slice(&padding.to_be_bytes());
                other.len() - 8
            }
        };
        other[4..8].copy_from_slice(&(size as u32).to_be_bytes());
        other
    }
}

/// Every byte in up to five ways, every cut, and every change to a block.
pub fn every(container: &[u8], form: Form, random: &mut Random) -> Vec<Copy> {
    let copy = Copy::new(container);
    let mut copies: Vec<Copy> = (0..container.len()).flat_map(|at| changed_bytes(&copy, at, random)).collect();
    copies.extend((0..container.len()).map(|length| cut(&copy, length)));
    let blocks = form.blocks(container);
    copies.extend((0..blocks.len()).flat_map(|block| changed_blocks(container, form, &blocks, block, random)));
    copies
}

/// So many changes to one block are among some damaged copies.
const CHANGES: usize = 8;

/// A byte changed, a cut, bytes added, and some changes to one block.
pub fn some(container: &[u8], form: Form, random: &mut Random) -> Vec<Copy> {
    let copy = Copy::new(container);
    let place = |random: &mut Random| random.within(0..container.len() as u64) as usize;
    let at = place(random);
    let mut copies = vec![changed_byte(&copy, at, container[at] ^ 1 << random.within(0..8))];
    copies.push(cut(&copy, place(random)));
    let added = vec![random.pick(&[0, 0xFF]); random.pick(&[1, 4, 28, 32])];
    copies.push(spliced(container, container.len()..container.len(), &added));
    let at = place(random);
    copies.push(spliced(container, at..at, &added));
    let blocks = form.blocks(container);
    let block = random.within(0..blocks.len() as u64) as usize;
    let mut changes = changed_blocks(container, form, &blocks, block, random);
    for _ in 0..CHANGES {
        copies.push(changes.swap_remove(random.within(0..changes.len() as u64) as usize));
    }
    copies
}

/// A block removed, doubled, swapped with another, with an empty one before it, in two, with other numbers, or with the
/// end marker inside.
fn changed_blocks(
    container: &[u8],
    form: Form,
    blocks: &[Range<usize>],
    number: usize,
    random: &mut Random,
) -> Vec<Copy> {
    let block = blocks[number].clone();
    let bytes = &container[block.clone()];
    let inside = block.start + form.head();
    let mut copies = vec![spliced(container, block.clone(), &[]), spliced(container, block.end..block.end, bytes)];
    let other = random.within(0..blocks.len() as u64) as usize;
    for other in [number.saturating_sub(1), other] {
        copies.push(swapped(container, &blocks[number.min(other)], &blocks[number.max(other)]));
    }
    let empty = form.with_contents(bytes, 0, &[]);
    copies.push(spliced(container, block.start..block.start, &empty));
    copies.extend(in_two(container, form, block.clone(), random));
    copies.extend(form.numbers().iter().flat_map(|place| other_numbers(container, block.start + place)));
    if END.len() <= bytes.len() - form.head() {
        copies.push(spliced(container, inside..inside + END.len(), END));
    }
    copies
}

/// A number of four bytes a little more and less. One more of a chunk's size, or one less of its footer, can be another
/// film: a zero of the padding is a part of it then.
fn other_numbers(container: &[u8], at: usize) -> Vec<Copy> {
    let Some(number) = container.get(at..at + 4).map(big_endian) else { return Vec::new() };
    let others = [1, 4, 31, 32].into_iter().flat_map(|by| [number.wrapping_add(by), number.wrapping_sub(by)]);
    others.map(|other| spliced(container, at..at + 4, &other.to_be_bytes())).collect()
}

/// What a block holds in two blocks.
fn in_two(container: &[u8], form: Form, block: Range<usize>, random: &mut Random) -> Option<Copy> {
    let bytes = &container[block.clone()];
    let contents = &bytes[form.head()..form.head() + form.length(bytes)];
    let length = contents.len() as u64;
    if length < 2 {
        return None;
    }
    let (first, second) = contents.split_at(random.within(1..length) as usize);
    let both = [form.with_contents(bytes, 0, first), form.with_contents(bytes, first.len(), second)].concat();
    Some(spliced(container, block, &both))
}

/// The first of two blocks in the place of the second, and the other way about.
fn swapped(container: &[u8], first: &Range<usize>, second: &Range<usize>) -> Copy {
    if first == second {
        return Copy::new(container);
    }
    let [first_bytes, second_bytes] = [first, second].map(|block| &container[block.clone()]);
    let between = &container[first.end..second.start];
    Copy::new(&[&container[..first.start], second_bytes, between, first_bytes, &container[second.end..]].concat())
}

fn spliced(container: &[u8], part: Range<usize>, bytes: &[u8]) -> Copy {
    Copy::new(&[&container[..part.start], bytes, &container[part.end..]].concat())
}

fn big_endian(bytes: &[u8]) -> u32 {
    u32::from_be_bytes(bytes.try_into().expect("four bytes"))
}
