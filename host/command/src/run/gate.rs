//! Decisions in the order of the films, whoever comes first.

use std::collections::BTreeSet;
use std::sync::{Condvar, Mutex, PoisonError};

/// Lets films through by their numbers.
#[derive(Default)]
pub struct Gate {
    passed: Mutex<Passed>,
    moved: Condvar,
}

#[derive(Default)]
struct Passed {
    /// All films below this number are through.
    below: usize,
    /// Films that are through, with others before them that are not.
    early: BTreeSet<usize>,
}

impl Gate {
    /// Waits until all films before this one are through.
    pub fn wait(&self, number: usize) {
        let mut passed = self.passed.lock().unwrap_or_else(PoisonError::into_inner);
        while passed.below < number && !passed.early.contains(&number) {
            passed = self.moved.wait(passed).unwrap_or_else(PoisonError::into_inner);
        }
    }

    /// A film is through, or will not come. To say so twice changes nothing.
    pub fn leave(&self, number: usize) {
        let mut passed = self.passed.lock().unwrap_or_else(PoisonError::into_inner);
        if number < passed.below {
            return;
        }
        passed.early.insert(number);
        loop {
            let below = passed.below;
            if !passed.early.remove(&below) {
                break;
            }
            passed.below += 1;
        }
        self.moved.notify_all();
    }
}

#[cfg(test)]
mod tests {
    use std::sync::Mutex;
    use std::thread;
    use std::time::Duration;

    use super::Gate;

    #[test]
    fn films_come_through_in_their_order() {
        let (gate, order) = (Gate::default(), Mutex::new(Vec::new()));
        gate.leave(2);
        thread::scope(|scope| {
            for number in [3, 1, 0] {
                let (gate, order) = (&gate, &order);
                scope.spawn(move || {
                    gate.wait(number);
                    order.lock().unwrap().push(number);
                    thread::sleep(Duration::from_millis(10));
                    gate.leave(number);
                });
            }
        });
        assert_eq!(*order.lock().unwrap(), [0, 1, 3]);
    }

    #[test]
    fn who_left_early_does_not_wait() {
        let gate = Gate::default();
        gate.leave(5);
        gate.wait(5);
        gate.leave(5);
    }
}
