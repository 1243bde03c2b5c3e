//! The steps by which a case that fails is made smaller.

use super::call::{Call, Room};
use super::case::Case;
use super::damage::{SIZE, with_field};
use super::film::empty_table;
use super::rules::{self, INSIDE};
use crate::shrink::{halves, shorter, smallest, with_a_zero};
use crate::tables::header;

/// The smallest case that still fails.
pub fn shrink(case: &Case, fails: impl Fn(&Case) -> bool) -> Case {
    smallest(case, |case| Box::new(smaller(case)), fails)
}

/// Cases that are a step smaller, the largest steps first.
fn smaller(case: &Case) -> impl Iterator<Item = Case> {
    with_one_call(case)
        .chain(with_a_plainer_call(case))
        .chain(shorter(case))
        .chain(with_an_empty_table(case))
        .chain(without_a_block(case))
        .chain(without_a_run(case))
        .chain(with_a_zero(case))
}

fn with_one_call(case: &Case) -> impl Iterator<Item = Case> {
    let calls = if case.calls.len() > 1 { &case.calls[..] } else { &[] };
    calls.iter().map(|call| Case { calls: vec![call.clone()], ..case.clone() })
}

fn with_a_plainer_call(case: &Case) -> impl Iterator<Item = Case> {
    let call = case.calls.first().filter(|_| case.calls.len() == 1);
    call.into_iter().flat_map(plainer).map(|call| Case { calls: vec![call], ..case.clone() })
}

fn plainer(call: &Call) -> Vec<Call> {
    let mut calls = Vec::new();
    let mut with = |differs: bool, plainer: Call| {
        if differs {
            calls.push(plainer);
        }
    };
    with(call.keyed != 0, Call { keyed: 0, key: 0, ..call.clone() });
    with(call.key != 0, Call { key: 0, ..call.clone() });
    with(call.idle != 0, Call { idle: 0, ..call.clone() });
    with(!call.fallback.is_empty(), Call { fallback: Vec::new(), ..call.clone() });
    with(call.audio > 1, Call { audio: 1, ..call.clone() });
    with(call.keyed > 1, Call { keyed: 1, ..call.clone() });
    with(call.unread != [0; 3], Call { unread: [0; 3], ..call.clone() });
    with(call.video_room != Room::Exact, Call { video_room: Room::Exact, ..call.clone() });
    with(call.audio_room != Room::Exact, Call { audio_room: Room::Exact, ..call.clone() });
    with(call.list_room != Room::Exact, Call { list_room: Room::Exact, ..call.clone() });
    calls
}

/// The blocks that the rules read, each with the size it claims, as far as they lie in the container.
fn blocks(case: &Case) -> Vec<(usize, usize)> {
    let starts = rules::read(case.container(), true).starts.into_iter().map(|start| start as usize);
    let inside = starts.filter(|start| start + 8 <= case.length);
    let mut blocks: Vec<(usize, usize)> =
        inside.map(|start| (start, SIZE.get(&case.whole[start..]) as usize)).collect();
    blocks.retain(|(start, size)| start + 8 + size <= case.length);
    blocks.dedup();
    blocks
}

/// A table replaced by an empty one, and the block's size with it.
fn with_an_empty_table(case: &Case) -> impl Iterator<Item = Case> {
    let tables = blocks(case)
        .into_iter()
        .filter(|&(start, size)| size > 56 && case.whole[start + INSIDE as usize..].starts_with(header::SIGNATURE));
    tables.map(|(start, size)| {
        let contents = start + INSIDE as usize..start + 8 + size;
        let mut copy = with_field(case, start, SIZE, 56);
        copy.length -= contents.len() - header::LENGTH;
        copy.whole.splice(contents, empty_table());
        copy
    })
}

fn without_a_block(case: &Case) -> impl Iterator<Item = Case> {
    blocks(case).into_iter().map(|(start, size)| without(case, start..start + 8 + size))
}

/// A run of bytes taken out of a block's contents, and off its size.
fn without_a_run(case: &Case) -> impl Iterator<Item = Case> {
    blocks(case).into_iter().flat_map(move |(start, size)| {
        let contents = size.saturating_sub(INSIDE as usize - 8);
        [contents].into_iter().chain(halves(contents)).filter(|&run| run > 0).flat_map(move |run| {
            let last = start + 8 + size - run;
            (start + INSIDE as usize..last + 1).step_by(run).map(move |at| {
                let smaller = with_field(case, start, SIZE, (size - run) as u32);
                without(&smaller, at..at + run)
            })
        })
    })
}

fn without(case: &Case, run: std::ops::Range<usize>) -> Case {
    let mut copy = case.clone();
    copy.length -= run.len();
    copy.whole.drain(run);
    copy
}
