//! Ratios of two times that have a goal, and which of them miss it.

use std::fmt;

use crate::clock::median;

/// The samples of a ratio are looked at in so many rounds, one after the other.
const ROUNDS: usize = 5;

/// A ratio, and the most that it may be.
pub struct Goal {
    name: String,
    at_most: f64,
    ratio: f64,
    /// The least and the greatest ratio of a round.
    best: f64,
    worst: f64,
}

impl Goal {
    /// The ratio of two rows of samples, which were taken in turns.
    pub fn new(name: String, at_most: f64, ours: &[f64], theirs: &[f64]) -> Goal {
        let length = ours.len().div_ceil(ROUNDS);
        let rounds = ours.chunks(length).zip(theirs.chunks(length)).map(|(ours, theirs)| ratio(ours, theirs));
        let (best, worst) = rounds.fold((f64::INFINITY, 0.0_f64), |(best, worst), r| (r.min(best), r.max(worst)));
        Goal { name, at_most, ratio: ratio(ours, theirs), best, worst }
    }

    /// The better of two runs counts; their rounds count together.
    pub fn or(self, again: Goal) -> Goal {
        Goal {
            ratio: self.ratio.min(again.ratio),
            best: self.best.min(again.best),
            worst: self.worst.max(again.worst),
            ..self
        }
    }

    fn is_met(&self) -> bool {
        self.ratio <= self.at_most
    }

    /// Every round is above the goal. Where only some are, the ratio lies within the noise of its own rounds.
    pub fn is_missed(&self) -> bool {
        !self.is_met() && self.best > self.at_most
    }
}

fn ratio(ours: &[f64], theirs: &[f64]) -> f64 {
    median(ours.to_vec()) / median(theirs.to_vec())
}

impl fmt::Display for Goal {
    fn fmt(&self, f: &mut fmt::Formatter) -> fmt::Result {
        write!(f, "{} {:.2} (at most {})", self.name, self.ratio, self.at_most)
    }
}

/// Prints every goal, and in the last line which are missed.
pub fn print(goals: &[Goal]) {
    println!("GOAL RATIO BEST-ROUND WORST-ROUND AT-MOST");
    for g in goals {
        println!("{} {:.2} {:.2} {:.2} {}", g.name, g.ratio, g.best, g.worst, g.at_most);
    }
    println!("{}", verdict(goals));
}

fn verdict(goals: &[Goal]) -> String {
    let missed = names(goals.iter().filter(|goal| goal.is_missed()));
    let undecided = names(goals.iter().filter(|goal| !goal.is_met() && !goal.is_missed()));
    match (&missed[..], &undecided[..]) {
        ("", "") => format!("all {} goals met", goals.len()),
        ("", _) => format!("no goal of {} missed; within the noise: {undecided}", goals.len()),
        (_, "") => format!("goals MISSED: {missed}"),
        _ => format!("goals MISSED: {missed}; within the noise: {undecided}"),
    }
}

fn names<'a>(goals: impl Iterator<Item = &'a Goal>) -> String {
    goals.map(Goal::to_string).collect::<Vec<_>>().join(", ")
}
