//! Films at the longest that a container may be.

use super::compare::{Difference, Way};
use super::exports::{self, Codecs, NO_CODECS};
use super::original::{PAYLOAD, build_zeros};
use super::tally::Tally;
use crate::containers::rules::{END, LONGEST};
use crate::reply::same;
use crate::writes::exports::SizeReply;

/// What the containers of a film without a name and audio have beside the chunks, and what each has in a chunk.
const OLD_FRAME: usize = 128 + 128 + 28;
const NEW_FRAME: usize = 416;
const OLD_CHUNK: usize = 28;
const NEW_CHUNK: usize = 32;

/// Where the first payload begins in a film of the builder without a name.
const FIRST_PAYLOAD: usize = 128 + 128 + OLD_CHUNK;

/// A film that is moved to just the longest container, one whose would be longer, the builder's longest, and containers
/// that are one byte too long. The order of the refusals is seen on them.
pub fn check(tally: &mut Tally) -> Result<(), Difference> {
    let mut ask = |container: &[u8], way: &Way, number: u8, size: usize| asked(container, way, number, size, tally);
    let plain = Way::FromOld(NO_CODECS);
    let with_codec = Way::FromOld(Codecs { video: None, audio: Some(2) });

    let mut old = build_zeros(filling(NEW_FRAME, NEW_CHUNK, LONGEST));
    ask(&old, &plain, 16, LONGEST)?;
    ask(&old, &with_codec, 23, 0)?;
    let mut new = vec![0; LONGEST];
    exports::from_old(&old, NO_CODECS, &mut new);
    ask(&new, &Way::ToOld, 16, old.len())?;
    new.push(0);
    ask(&new, &plain, 11, 0)?;
    ask(&new, &Way::ToOld, 11, 0)?;
    drop(new);
    mark(&mut old);
    ask(&old, &plain, 15, 0)?;

    old = build_zeros(filling(NEW_FRAME, NEW_CHUNK, LONGEST) + 1);
    mark(&mut old);
    ask(&old, &plain, 11, 0)?;
    ask(&old, &with_codec, 23, 0)?;

    // What the builder writes is never a multiple of 0x20: this is the last below the longest.
    old = build_zeros(filling(OLD_FRAME, OLD_CHUNK, LONGEST - 4));
    ask(&old, &plain, 11, 0)?;
    old.resize(LONGEST, 0);
    ask(&old, &plain, 19, 0)?;
    old.push(0);
    ask(&old, &plain, 11, 0)
}

/// How much video makes a container just so long: frame, chunks of whole payloads, and the last.
fn filling(frame: usize, in_chunk: usize, length: usize) -> usize {
    let whole = (PAYLOAD + in_chunk).next_multiple_of(0x20);
    let (chunks, last) = ((length - frame) / whole, (length - frame) % whole);
    chunks * PAYLOAD + last - in_chunk
}

/// Puts the end marker at the front of the first payload.
fn mark(old: &mut [u8]) {
    old[FIRST_PAYLOAD..][..END.len()].copy_from_slice(END);
}

/// Asks without an output. Of a container that differs only the beginning is printed.
fn asked(container: &[u8], way: &Way, number: u8, size: usize, tally: &mut Tally) -> Result<(), Difference> {
    const PRINTED: usize = 512;
    let expected = SizeReply { refused_at: 0, size, number, unknown_type: 0 };
    same(way.call(container, &mut []), expected).map_err(|what| {
        let what = format!("{}: {what}\n{} bytes, which begin as follows", way.name(), container.len());
        Difference::new(what, &container[..PRINTED.min(container.len())])
    })?;
    tally.call(way, number);
    Ok(())
}
