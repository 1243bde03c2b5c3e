//! Damaged copies of a table: each byte changed, every cut, each field of the header at its edges.

use super::case::Case;
use super::header::{FIELDS, Field};
use crate::damage::{changed_bytes, cut};
use crate::random::Random;

/// Every damaged copy of a case.
pub fn copies(case: &Case, random: &mut Random) -> Vec<Case> {
    let mut copies = Vec::new();
    copies.extend((case.place..case.length).flat_map(|at| changed_bytes(case, at, random)));
    copies.extend((0..case.length).map(|length| cut(case, length)));
    if case.has_header() {
        copies.extend(FIELDS.into_iter().flat_map(|field| edges(case, field)));
    }
    copies
}

fn edges(case: &Case, field: Field) -> Vec<Case> {
    let claimed = field.get(case.table());
    let edges = [0, 1, 23, 24, 25, field.max(), claimed.wrapping_sub(1), claimed.wrapping_add(1)];
    edges.into_iter().map(|number| with_field(case, field, number)).collect()
}

pub fn with_field(case: &Case, field: Field, number: u32) -> Case {
    let mut copy = case.clone();
    field.set(copy.table_mut(), number);
    copy
}
