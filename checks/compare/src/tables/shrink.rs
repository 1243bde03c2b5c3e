//! The steps by which a case that fails is made smaller.

use super::case::Case;
use super::damage::with_field;
use super::header;
use crate::shrink::{halves, shorter, smallest, with_a_zero};

/// The smallest case that still fails.
pub fn shrink(case: &Case, fails: impl Fn(&Case) -> bool) -> Case {
    smallest(case, |case| Box::new(smaller(case)), fails)
}

/// Cases that are a step smaller, the largest steps first.
fn smaller(case: &Case) -> impl Iterator<Item = Case> {
    without_bytes_before(case)
        .into_iter()
        .chain(without_a_name(case))
        .chain(shorter(case))
        .chain(with_smaller_counts(case))
        .chain(without_a_run(case))
        .chain(with_a_zero(case))
}

fn without_bytes_before(case: &Case) -> Option<Case> {
    if case.place == 0 || case.place > case.length {
        return None;
    }
    let whole = case.whole[case.place..].to_vec();
    Some(Case { whole, length: case.length - case.place, place: 0, names: case.names.clone() })
}

fn without_a_name(case: &Case) -> impl Iterator<Item = Case> {
    (0..case.names.len()).map(|index| {
        let mut copy = case.clone();
        copy.names.remove(index);
        copy
    })
}

fn with_smaller_counts(case: &Case) -> impl Iterator<Item = Case> {
    let fields = if case.has_header() { &[header::COLUMNS, header::ROWS][..] } else { &[] };
    fields.iter().flat_map(move |&field| {
        let count = field.get(case.table());
        let counts = [0, count / 2, count.saturating_sub(1)];
        counts.into_iter().filter(move |&less| less < count).map(move |less| with_field(case, field, less))
    })
}

/// A run of bytes taken out of the body, a column's among them.
fn without_a_run(case: &Case) -> impl Iterator<Item = Case> {
    let first = if case.has_header() { case.place + header::LENGTH } else { case.length };
    let runs = halves(case.length - first).chain([5]);
    runs.flat_map(move |run| {
        let last = (case.length + 1).saturating_sub(run);
        (first..last).step_by((run / 4).max(1)).flat_map(move |at| without_run(case, at, run))
    })
}

/// Without `run` bytes: the size is less by as many, and so may be the offsets; the columns may be one less.
fn without_run(case: &Case, at: usize, run: usize) -> impl Iterator<Item = Case> {
    let moving = [header::ROW_OFFSET, header::STRING_OFFSET, header::DATA_OFFSET];
    (0..16).map(move |choice| {
        let mut copy = case.clone();
        copy.whole.drain(at..at + run);
        copy.length -= run;
        lessen(&mut copy, header::SIZE, run);
        for (bit, field) in moving.into_iter().enumerate() {
            lessen(&mut copy, field, if choice >> bit & 1 == 1 { run } else { 0 });
        }
        lessen(&mut copy, header::COLUMNS, choice >> 3);
        copy
    })
}

fn lessen(case: &mut Case, field: header::Field, less: usize) {
    let number = field.get(case.table());
    field.set(case.table_mut(), number.saturating_sub(less as u32));
}
