//! What the check of moves has seen, and the lines that say so at its end.

use super::compare::Way;

#[derive(Default)]
pub struct Tally {
    /// Films of the builder, and those of them that have several audios.
    pub films: u64,
    pub several: u64,
    /// Damaged and foreign containers, and those of them that are films all the same.
    pub others: u64,
    pub other_films: u64,
    /// Calls by their number, those from the builder's container and those to it.
    from_old: [u64; 24],
    to_old: [u64; 24],
}

impl Tally {
    pub fn call(&mut self, way: &Way, number: u8) {
        let calls = match way {
            Way::FromOld(_) => &mut self.from_old,
            Way::ToOld => &mut self.to_old,
        };
        calls[usize::from(number)] += 1;
    }

    pub fn print(&self) {
        let line =
            |what: &str, count: u64, words: &str| println!("{}", format!("{what:<26}{count:>9}  {words}").trim_end());
        for (way, calls) in [("from old", &self.from_old), ("to old", &self.to_old)] {
            line(&format!("{way}, moved"), calls[0], "every byte as expected");
            for number in (1..calls.len()).filter(|&number| calls[number] > 0) {
                line(&format!("{way}, refused {number}"), calls[number], "");
            }
        }
        line("films of the builder", self.films, "");
        line("of several audios", self.several, "");
        line("other containers", self.others, "damaged and foreign");
        line("of them moved", self.other_films, "what is made again of their parts is the same");
    }
}
