//! Writes the original's answers on tables for the gate's replay: tables and queries as its input, the
//! answers as its output. Nothing of ours is called here.

use std::path::Path;
use std::{fs, io};

use super::case::Case;
use super::original::{self, Answer, Table};
use super::{damage, domain, samples};
use crate::hex::hex;
use crate::random::Random;

/// Of the damaged copies each one in so many is taken.
const STRIDE: usize = 7;

/// Writes `stdin` and `stdout` into the folder of the replay program.
pub fn write(folder: &Path) -> io::Result<()> {
    let (mut input, mut output) = (String::new(), String::new());
    for case in cases() {
        let (lines, answers) = replay(&case);
        input += &lines;
        output += &answers;
    }
    fs::write(folder.join("stdin"), input)?;
    fs::write(folder.join("stdout"), output)
}

/// The tables made by hand, then damaged copies of one: slices that are not empty, inside the domain alone.
fn cases() -> Vec<Case> {
    let mixed = samples::mixed();
    let damaged = damage::copies(&mixed, &mut Random(6)).into_iter().step_by(STRIDE);
    let all = samples::all().into_iter().chain([mixed]).chain(damaged);
    all.filter(|case| case.length > 0 && domain::refusal(case.slice(), case.place).is_none()).collect()
}

/// The lines of one table with its queries, and as many lines of answers.
fn replay(case: &Case) -> (String, String) {
    let mut input = format!("t {}\n", hex(case.slice()));
    let mut output = String::new();
    match original::read(case.slice(), case.place) {
        Answer::Accepted(table) => {
            output += &format!("table {}\n", table.rows());
            for (name, row) in queries(case, &table) {
                input += &query_line(name, row);
                output += &format!("{}\n", table.cell(name, row));
            }
        }
        Answer::Refused(refusal) => {
            input += &query_line("a", 0);
            output += &format!("{refusal}\n{refusal}\n");
        }
        Answer::Panicked(what) => panic!("the original panics inside the domain: {what}"),
    }
    (input, output)
}

fn query_line(name: &str, row: usize) -> String {
    format!("c {} {row}\n", hex(name.as_bytes()))
}

/// Each name that the original keeps, in the first row, the last and the one after it; and a name that is absent.
fn queries<'a>(case: &'a Case, table: &Table) -> Vec<(&'a str, usize)> {
    let mut rows = vec![0, table.rows().saturating_sub(1), table.rows()];
    rows.dedup();
    let mut names: Vec<&str> = case.names.iter().filter_map(|name| original::kept(name)).collect();
    names.sort();
    names.dedup();
    let mut queries: Vec<(&str, usize)> =
        names.iter().flat_map(|&name| rows.iter().map(move |&row| (name, row))).collect();
    queries.push(("absent", 0));
    queries
}
