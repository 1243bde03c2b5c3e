//! One mistake in a container that was sound: a block that is wrong, missing or there twice, a size that leads elsewhere.

use super::film::Film;
use super::rules::INSIDE;
use crate::random::Random;
use crate::tables::header;

pub fn make(film: &mut Film, random: &mut Random) {
    let index = random.within(0..film.starts.len() as u64) as usize;
    let start = film.starts[index];
    let next = film.starts.get(index + 1).copied().unwrap_or(film.bytes.len());
    match random.within(0..8) {
        0 => put(film, start, &random.pick(&[*b"@SFV", *b"@SFA", *b"CRID", *b"@SBT"])),
        1 => put(film, start + INSIDE as usize + random.within(0..13) as usize, &[random.number() as u8]),
        2 => other_size(film, start, random),
        3 => film.bytes.truncate(random.within(0..film.bytes.len() as u64 + 1) as usize),
        4 => drop(film.bytes.drain(start..next.max(start).min(film.bytes.len()))),
        5 => twice(film, start, next),
        6 => run_on(film, start, random),
        _ => {
            for _ in 0..random.within(1..4) {
                let at = random.within(0..film.bytes.len() as u64) as usize;
                film.bytes[at] = random.number() as u8;
            }
        }
    }
}

/// Puts bytes where there is room for them.
fn put(film: &mut Film, at: usize, bytes: &[u8]) {
    if let Some(place) = film.bytes.get_mut(at..at + bytes.len()) {
        place.copy_from_slice(bytes);
    }
}

fn other_size(film: &mut Film, start: usize, random: &mut Random) {
    let Some(field) = film.bytes.get(start + 4..start + 8) else { return };
    let size = u32::from_be_bytes(field.try_into().expect("four bytes"));
    let near = [size.wrapping_sub(1), size + 1, size + 8, size.wrapping_sub(8), size / 2];
    let edges = [0, 0x17, 0x18, 0x20, 0x38, 0x0100_0000, 0x7FFF_FFFF, 0xFFFF_FFFF];
    let size = if random.one_in(3) { random.pick(&edges) } else { random.pick(&near) };
    put(film, start + 4, &size.to_be_bytes());
}

fn twice(film: &mut Film, start: usize, next: usize) {
    if start < next && next <= film.bytes.len() {
        let block = film.bytes[start..next].to_vec();
        film.bytes.splice(next..next, block);
    }
}

/// A table's size so large that its body holds the next blocks too, to the end or one byte past it.
fn run_on(film: &mut Film, start: usize, random: &mut Random) {
    let at = start + INSIDE as usize;
    let Some(table) = film.bytes.get_mut(at..).filter(|table| table.starts_with(header::SIGNATURE)) else { return };
    if table.len() < header::LENGTH {
        return;
    }
    let most = (table.len() - header::LENGTH) as u64 + header::BODY;
    let size = random.pick(&[most, most, most + 1, most / 2]);
    header::SIZE.set(table, size as u32);
}
