//! What the check of tables has seen, and the lines that say so at its end.

use super::answer::{Cell, Refusal};
use super::zero_columns;

pub enum Outcome {
    Accepted,
    Refused(Refusal),
    /// Refused where the original has no answer to compare.
    Outside(Refusal),
}

/// One table that agreed.
pub struct Seen {
    pub outcome: Outcome,
    cells: [u64; CASES.len()],
    pub refused_cells: u64,
    /// Cells whose name the original decodes to another.
    pub left_out: u64,
    /// Columns by number, their cells, and cells of columns that a later one of their name hides.
    pub columns: u64,
    pub numbered: u64,
    pub hidden: u64,
}

/// The cases of a cell, in the order of their numbers.
const CASES: [&str; 6] = ["nothing", "unsigned", "signed", "float", "string", "data"];

impl Seen {
    pub fn new(outcome: Outcome) -> Seen {
        let cells = [0; CASES.len()];
        Seen { outcome, cells, refused_cells: 0, left_out: 0, columns: 0, numbered: 0, hidden: 0 }
    }

    pub fn count(&mut self, cell: &Cell) {
        let case = match cell {
            Cell::Nothing => 0,
            Cell::Unsigned(_) => 1,
            Cell::Signed(_) => 2,
            Cell::Float(_) => 3,
            Cell::String(_) => 4,
            Cell::Data(_) => 5,
        };
        self.cells[case] += 1;
    }
}

/// All tables so far.
#[derive(Default)]
pub struct Tally {
    accepted: u64,
    refused: [u64; 11],
    outside: [u64; 11],
    cells: [u64; CASES.len()],
    refused_cells: u64,
    left_out: u64,
    columns: u64,
    numbered: u64,
    hidden: u64,
    pub zero_columns: zero_columns::Counts,
}

impl Tally {
    pub fn add(&mut self, seen: Seen) {
        match seen.outcome {
            Outcome::Accepted => self.accepted += 1,
            Outcome::Refused(refusal) => self.refused[usize::from(refusal.number())] += 1,
            Outcome::Outside(refusal) => self.outside[usize::from(refusal.number())] += 1,
        }
        for (sum, more) in self.cells.iter_mut().zip(seen.cells) {
            *sum += more;
        }
        self.refused_cells += seen.refused_cells;
        self.left_out += seen.left_out;
        self.columns += seen.columns;
        self.numbered += seen.numbered;
        self.hidden += seen.hidden;
    }

    pub fn tables(&self) -> u64 {
        self.inside() + self.outside.iter().sum::<u64>()
    }

    fn inside(&self) -> u64 {
        self.accepted + self.refused.iter().sum::<u64>()
    }

    pub fn print(&self) {
        println!("accepted                  {:>9}", self.accepted);
        for number in [1, 3, 8] {
            println!("refused {number}                 {:>9}", self.refused[number]);
        }
        println!("inside the domain         {:>9}  all agree with the original", self.inside());
        println!("refused 9                 {:>9}  as the rules say; the original panics at each", self.outside[9]);
        println!("refused 10                {:>9}  as the rules say; the original is not asked", self.outside[10]);
        println!("tables                    {:>9}", self.tables());
        for (case, count) in CASES.iter().zip(self.cells) {
            println!("cells: {case:<9}          {count:>9}");
        }
        println!("cells of refused tables   {:>9}", self.refused_cells);
        println!("columns by number         {:>9}  {} cells, as the original has them", self.columns, self.numbered);
        println!("columns that are hidden   {:>9}  by a later one of their name", self.hidden);
        self.zero_columns.print();
        println!("cells left out            {:>9}  their names are not UTF-8, or hold U+FFFD", self.left_out);
    }
}
