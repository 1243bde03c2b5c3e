//! Who uses the ledger: several runs at once while they look up films, one alone while it reads films that the ledger does
//! not know.

use super::ledger::Ledger;
use crate::output::Error;

/// The ledger, if there is one, and what this run holds of it.
pub struct Lock<'a> {
    pub ledger: Option<&'a Ledger>,
    held: Held,
}

enum Held {
    Nothing,
    /// Others may look up films too. This run has looked up so many films since it began.
    Shared(u32),
    /// Others wait.
    Alone,
}

/// How many films are looked up before a run that writes gets its turn. Taking and releasing the lock costs more than
/// looking up a film, so it is not done for each.
const LOOKUPS: u32 = 1000;

impl<'a> Lock<'a> {
    pub fn new(ledger: Option<&'a Ledger>) -> Lock<'a> {
        Lock { ledger, held: Held::Nothing }
    }

    /// Before a film is looked up.
    pub fn look_up(&mut self) -> Result<(), Error> {
        let Some(ledger) = self.ledger else { return Ok(()) };
        match self.held {
            Held::Alone => return Ok(()),
            Held::Shared(films) if films < LOOKUPS => {
                self.held = Held::Shared(films + 1);
                return Ok(());
            }
            _ => self.let_go(Ok(()))?,
        }
        ledger.begin_lookups()?;
        self.held = Held::Shared(1);
        Ok(())
    }

    /// Before a film is read that the ledger does not know: others wait, so that no two runs read one film.
    pub fn hold(&mut self) -> Result<(), Error> {
        let Some(ledger) = self.ledger else { return Ok(()) };
        if let Held::Alone = self.held {
            return Ok(());
        }
        self.let_go(Ok(()))?;
        ledger.begin()?;
        self.held = Held::Alone;
        Ok(())
    }

    /// Commits what was stored, and lets others in.
    pub fn let_go(&mut self, done: Result<(), Error>) -> Result<(), Error> {
        match (self.ledger, std::mem::replace(&mut self.held, Held::Nothing)) {
            (Some(ledger), Held::Shared(_) | Held::Alone) => ledger.end(done),
            _ => done,
        }
    }
}
